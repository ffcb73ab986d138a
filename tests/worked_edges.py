"""The edges that docs/ work out by hand, with the answers given there.

They are the tables of docs/FORMATS.md and docs/WORKED_CASES.md, row by row.
The model must answer so too; tests/make_cases.py sees to it.
"""

from certificates import EXAMPLES
from law_texts import joined, replaced

WORKED = (EXAMPLES / "worked.txt").read_bytes()
LAW = WORKED.split(b"\n")[:4]
CASE = WORKED.split(b"\n")[4:-1]
NINES = b"9" * 40

ROUNDED = b"""\
law states inputs
fixed 1 1
command
0
states inputs disturbances extra divisor
1 1 0 0 10
low high leeway constant
0 2 5 15
push-low push-high
A B E
0 0
F f
region face scale multipliers
1 1 10 0 0 0 0 1 0
1 2 10 0 0 0 0 0 1
"""


def law(*edits):
    """The worked text with other lines of its law, counted from 1."""
    lines = LAW
    for number, line in edits:
        lines = replaced(lines, number - 1, line)
    return joined(lines + CASE)


def case(*edits):
    """The worked text with other lines of its case, counted from 1."""
    lines = CASE
    for number, line in edits:
        lines = replaced(lines, number - 1, line)
    return joined(LAW + lines)


def case_without(*numbers):
    """The worked text without some lines of its case, counted from 1."""
    return joined(LAW + [line for number, line in enumerate(CASE, 1)
                         if number not in numbers])


FIRST = CASE[10]
OTHER_SIZE = law((2, b"saturated 2 1"), (4, b"-1 0 0 4 -20 20"))

# A text, or a size and the text that is filled to it, and the answer.
EDGES = [
    # docs/FORMATS.md
    (b"", "refused law 0 0 0 0 1"),
    ((60_001, WORKED), "refused law 0 0 0 0 1"),
    ((60_001, b""), "refused law 0 0 0 0 1"),
    ((60_000, WORKED), "refused proof 17 0 0 0 2"),
    (joined(LAW), "refused case 0 0 0 0 1"),
    (joined(LAW) + b" ", "refused case 1 0 0 0 2"),
    (joined(LAW) + b"\n", "refused case 1 0 0 0 2"),
    (law((1, LAW[0] + b" ")), "refused law 1 0 0 0 2"),
    (law((2, b"saturated 1 1 ")), "refused law 2 4 0 0 3"),
    (law((2, b"Saturated 9 1")), "refused law 2 1 0 0 5"),
    (law((2, b"")), "refused law 2 1 0 0 5"),
    (law((2, b"saturated")), "refused law 2 2 0 0 3"),
    (law((2, b"fixed 1 1")), "refused law 3 0 0 0 2"),
    (law((4, b"-1 0 4 -20")), "refused law 4 5 0 0 3"),
    (law((4, b"-1 0 4 20 -20")), "refused law 4 5 0 0 6"),
    (law((4, b"-1 0 4 20 -20 7")), "refused law 4 6 0 0 3"),
    (joined(LAW + LAW[3:] + CASE), "refused case 1 0 0 0 2"),
    (joined(LAW[:3] + CASE), "refused law 4 1 0 0 3"),
    (joined(LAW[:3]), "refused law 4 0 0 0 2"),
    (case((1, CASE[0] + b"\r")), "refused case 1 0 0 0 2"),
    (case((2, CASE[1] + b"\r")), "refused case 2 5 0 0 3"),
    (case((2, b"1 1 1 0 0")), "refused case 2 5 0 0 4"),
    (case((2, b"1 1 1 0 2")), "refused case 4 3 0 0 9"),
    (case((2, b"1 1 1 0 2"), (4, b"100 -100 0 0")), "refused case 4 2 0 0 6"),
    (case((4, b" -100 100 0 0")), "refused case 4 1 0 0 3"),
    (case((4, b"-100  100 0 0")), "refused case 4 2 0 0 3"),
    (case((4, b"-100 100 00 0")), "refused case 4 3 0 0 3"),
    (case((4, b"-100 100 -0 0")), "refused case 4 3 0 0 3"),
    (case((4, b"-100 100 -1 0")), "refused case 4 3 0 0 4"),
    (case((4, b"-100 100 1000001 0")), "refused case 4 3 0 0 4"),
    (case((4, b"-100 100 " + NINES + b" 0")), "refused case 4 3 0 0 4"),
    (case_without(8), "refused case 8 1 0 0 3"),
    (joined(LAW + CASE[:8] + CASE[7:]), "refused case 9 0 0 0 2"),
    (joined(LAW + CASE[:9]), "refused case 10 0 0 0 2"),
    (joined(LAW + CASE[:10])[:-1], "refused case 10 0 0 0 2"),
    (joined(LAW + CASE[:10]), "refused proof 0 0 1 1 14"),
    (WORKED[:-1], "refused proof 16 0 0 0 2"),
    (WORKED + b"\n", "refused proof 17 1 0 0 3"),
    (WORKED + b" ", "refused proof 17 0 0 0 2"),
    (joined(LAW + CASE[:10] + CASE[:9:-1]), "accepted none 0 0 3 2 0"),
    (case((11, b"4" + FIRST[1:])), "refused proof 11 1 0 0 12"),
    (case((11, b"-1" + FIRST[1:])), "refused proof 11 1 0 0 12"),
    (case((11, NINES + FIRST[1:])), "refused proof 11 1 0 0 12"),
    (case((11, b"1 3" + FIRST[3:])), "refused proof 11 2 0 0 12"),
    (case((12, FIRST)), "refused proof 12 0 1 1 13"),
    (case((12, b"1 1 x")), "refused proof 12 0 1 1 13"),
    (case((11, FIRST[:-2])), "refused proof 11 12 0 0 3"),
    (case((11, FIRST + b" 0")), "refused proof 11 13 0 0 3"),
    (case((11, b"1 1 1 1000001 0 1 0 0 1 0 1 0")),
     "refused proof 11 4 0 0 4"),
    (case((11, FIRST[:-1] + b"-1")), "refused proof 11 12 0 0 4"),
    (case((11, b"1 1 0 0 0 0 0 0 0 0 0 0")), "refused proof 11 0 1 1 16"),
    (case_without(16), "refused proof 0 0 3 2 14"),
    (case_without(12, 13), "refused proof 0 0 1 2 14"),
    (OTHER_SIZE, "refused proof 0 0 0 0 11"),
    (OTHER_SIZE[:-1], "refused proof 0 0 0 0 11"),
    # docs/WORKED_CASES.md
    (WORKED, "accepted none 0 0 3 2 0"),
    (case((6, b"-5 20")), "accepted none 0 0 3 2 0"),
    (case((6, b"-5 21")), "refused proof 11 0 1 1 16"),
    (case((13, b"2 1 4 2 0 1 0 0 0 4 0 4 0")), "refused proof 13 1 2 1 15"),
    (ROUNDED, "accepted none 0 0 1 2 0"),
]


def edges():
    """The texts of the edges."""
    for text, _ in EDGES:
        yield text


GROUPS = [edges]
