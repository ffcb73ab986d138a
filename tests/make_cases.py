"""Write the cases of text_cases and proof_text_cases, and what the model expects.

    python3 tests/make_cases.py           writes stdin and stdout of both
    python3 tests/make_cases.py --check   only compares them

The head of src/main.rt gives the form of a case. text_cases judges laws and
cases alone; proof_text_cases has more texts and judges the proof lines too.
Nothing here is random: each run writes the same bytes. Both ways the model is
first held against the answers that docs/ work out by hand.
"""

import argparse
import sys
from pathlib import Path

import case_texts
import law_texts
import model
import proof_texts
import worked_edges

READ_GROUPS = law_texts.GROUPS + case_texts.GROUPS
GROUPS = READ_GROUPS + worked_edges.GROUPS + proof_texts.GROUPS

FOLDER = Path(__file__).resolve().parent.parent / "crates"


def all_cases(groups):
    """All cases without repeats: the size and the text of each."""
    cases = {}
    for group in groups:
        for case in group():
            cases[sized(case)] = None
    return list(cases)


def sized(case):
    """The size that a text is filled to, or 0, and the text."""
    return (0, case) if isinstance(case, bytes) else case


def filled(case):
    """A text that is filled to its size."""
    size, text = case
    return text.ljust(size, b"x")


def verdict(case):
    """The model's verdict on a text that is filled to its size."""
    return model.verdict(filled(case))


def read_verdict(case):
    """The same when the proof lines are not looked at."""
    return model.read_verdict(filled(case))


def wrong_edges():
    """Those edges of docs/ that the model answers in another way."""
    return [(text, answer) for text, answer in worked_edges.EDGES
            if verdict(sized(text)) != answer]


def escaped(text):
    """A text with escapes; a space at its end is escaped too."""
    parts = []
    for byte in text:
        if byte == 10:
            parts.append("\\n")
        elif byte == 92:
            parts.append("\\\\")
        elif 32 <= byte <= 126:
            parts.append(chr(byte))
        else:
            parts.append(f"\\x{byte:02x}")
    if parts and parts[-1] == " ":
        parts[-1] = "\\x20"
    return "".join(parts)


def made(program, groups, judge):
    """The contents of both files of a program, by their paths."""
    cases = all_cases(groups)
    given = [f"{size} {escaped(text)}\n" for size, text in cases]
    expected = [judge(case) + "\n" for case in cases]
    return {FOLDER / program / "stdin": "".join(given),
            FOLDER / program / "stdout": "".join(expected)}


def main():
    """Write the files, or compare them."""
    parser = argparse.ArgumentParser(description=__doc__.splitlines()[0])
    parser.add_argument("--check", action="store_true",
                        help="only compare the files with the model")
    check = parser.parse_args().check
    for text, answer in wrong_edges():
        print(f"the model does not answer {answer} to {text}")
        return 1
    files = (made("text_cases", READ_GROUPS, read_verdict)
             | made("proof_text_cases", GROUPS, verdict))
    for path, content in files.items():
        if not check:
            path.write_text(content, encoding="ascii", newline="\n")
        elif path.read_bytes() != content.encode("ascii"):
            print(f"{path} differs from the model")
            return 1
    return 0


if __name__ == "__main__":
    sys.exit(main())
