"""Write the examples whose certificates are found by tests/finder.py.

    python3 tests/make_full.py           writes them
    python3 tests/make_full.py --check   only compares them

Each example is a law text with a case text behind it. The heads below were
chosen by hand; the finder adds the proof lines, and the model must accept
the whole. The bounds of the sets were found by moving the faces out, in
steps of ten, until each face holds at the next state too.

examples/full.txt has the full size: 4 states, 2 inputs, 2 pushes, 8 extra
faces, 9 regions and so 144 proof lines. It is a mass with two axes, each with
a position and a velocity, a spring and a damper, and a coil of its own. The
axes pull at each other, so no entry of A, B or E is 0. No extra face can be
left out: without any one of them some face has no proof. Each proof has six
or more multipliers above 0.

examples/fixed.txt has a fixed law. examples/two_inputs.txt has two inputs;
its region 1 is not reached, so its proofs there have scale 0.
"""

import argparse
import sys

import certificates
import model

FULL = b"""\
law states inputs
saturated 4 2
gains offset divisor low high
-3 -6 1 -1 5 8 -85 80
-1 1 -3 -5 -9 7 -80 90
states inputs disturbances extra divisor
4 2 2 8 20
low high leeway constant
-350 360 10 3
-260 260 11 -20
-230 230 10 -4
-160 170 12 15
push-low push-high
-70 90
-60 75
A B E
19 9 1 -1 1 -1 1 1
-3 13 1 -1 8 1 3 1
-1 1 19 9 1 1 -1 1
1 -1 -4 12 -1 8 1 3
F f
1 1 0 0 330
-1 -1 0 0 330
1 3 0 0 590
-1 -3 0 0 580
0 0 1 1 170
0 0 -1 -1 160
0 0 1 3 380
0 0 -1 -3 360
region face scale multipliers
"""

FIXED = b"""\
law states inputs
fixed 2 1
command
12
states inputs disturbances extra divisor
2 1 1 2 10
low high leeway constant
-50 65 5 0
-40 40 5 0
push-low push-high
-20 20
A B E
10 5 0 0
-3 5 2 1
F f
1 1 60
-1 -1 45
region face scale multipliers
"""

TWO_INPUTS = b"""\
law states inputs
saturated 2 2
gains offset divisor low high
-1 0 0 4 -20 20
0 -1 2 3 -25 20
states inputs disturbances extra divisor
2 2 1 2 10
low high leeway constant
-100 100 5 0
-100 100 5 0
push-low push-high
-5 5
A B E
10 1 10 -1 10
-1 10 1 10 10
F f
1 1 150
-1 -1 150
region face scale multipliers
"""

HEADS = {"full.txt": FULL, "fixed.txt": FIXED, "two_inputs.txt": TWO_INPUTS}


def made(head):
    """The text of a head with its proof lines."""
    found = certificates.solved(head)
    if found is None:
        raise ValueError("a face has no proof within the limits")
    text = found.text()
    if not model.verdict(text).startswith("accepted"):
        raise ValueError("the model refuses what the finder found")
    return text


def main():
    """Write the examples, or compare them."""
    parser = argparse.ArgumentParser(description=__doc__.splitlines()[0])
    parser.add_argument("--check", action="store_true",
                        help="only compare the files")
    check = parser.parse_args().check
    for name, head in HEADS.items():
        path = certificates.EXAMPLES / name
        if not check:
            path.write_bytes(made(head))
        elif path.read_bytes() != made(head):
            print(f"{path} differs")
            return 1
    return 0


if __name__ == "__main__":
    sys.exit(main())
