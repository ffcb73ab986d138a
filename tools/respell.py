#!/usr/bin/env python3
"""Bring the repository's own definitions and lemmas to one spelling: words in snake case, types in camel case.

    python3 tools/respell.py [--list]

Run it once, at the top of the repository, right after the kit's port.py. It reads the names that specs/ and proofs/ declare,
and respells each whole word in specs/, proofs/, the clauses of src/ and the must-fail edits. Strings and comments stay.
Goals that the checker names, names of libraries, and functions of src/ keep their names. --list only prints what would change.
"""
import re
import sys
from pathlib import Path

# The spelling of a name that would fall together with one of a library, and of words that the library has renamed.
OTHER = {"If-ok": "WhereOk"}
WORDS = {"getD": "get_or", "leZ": "le_z"}

WORD = r"[^\s(){}\[\].,;:\"`@λ→↦=∷|]+"
DECLARED = re.compile(r"^\s*(?:(?:pattern|unfoldable|abbrev|pub)\s+)*(" + WORD + r")\s+:\s+(.*)$")
RECORD = re.compile(r"^\s*(?:(?:pattern|unfoldable|abbrev|pub)\s+)*(?:record|data)\s+(" + WORD + r")")
RULESET = re.compile(r"^\s*(?:pub\s+)?ruleset\s+(" + WORD + r")")
USE = re.compile(r"^\s*(?:ghost\s+)?(?:pub\s+)?use\s+([\w.·*-]+)\.\{([^}]*)\}")
# A string, a comment of antt, or a comment of Rust.
STRING = r"b?\"(?:[^\"\\]|\\.)*\""


def sources(root):
    """The files of specs/ and proofs/, of src/, and the edits."""
    crates = root / "crates"
    antt = sorted(p for d in ("specs", "proofs") for p in crates.glob(f"*/{d}/**/*.antt"))
    rust = sorted(crates.glob("*/src/**/*.rt"))
    edits = sorted(crates.glob("*/must-fail/*.edit"))
    return antt, rust, edits


def declared(antt):
    """Our names with a dash, each with what follows its colon; and the names that libraries give."""
    ours, theirs = {}, set()
    for path in antt:
        own = {p.name for p in Path("crates").iterdir()}
        for line in path.read_text(encoding="utf-8").split("\n"):
            use = USE.match(line)
            if use:
                parts = use.group(1).split(".")
                if parts[0] != "Rattle" or parts[1] not in own:
                    theirs |= {w.strip().split(" as ")[0] for w in use.group(2).split(",")}
                continue
            found = DECLARED.match(line)
            if found and not found.group(2).startswith("goal."):
                ours.setdefault(found.group(1), found.group(2))
            found = RECORD.match(line) or RULESET.match(line)
            if found:
                ours.setdefault(found.group(1), "Type 0")
    return {n: t for n, t in ours.items() if "-" in n}, theirs


def respelled(name, follows):
    """The new spelling of a name: a type's in camel case, else in snake case; a dash before an operator or a type stays."""
    parts = name.split("-")
    if name[0].isupper():
        head = parts[0]
        return head + "".join(p[:1].upper() + p[1:] for p in parts[1:])
    parts = [WORDS.get(part, part) for part in parts]
    out = parts[0]
    for part in parts[1:]:
        out += ("_" if part[:1].islower() or part[:1].isdigit() else "-") + part
    return out


def mapping(antt):
    ours, theirs = declared(antt)
    names = {}
    for name, follows in ours.items():
        if name in theirs:
            continue
        new = OTHER.get(name) or respelled(name, follows)
        if new != name:
            names[name] = new
    return names, ours, theirs


def turn(text, names, comment):
    """The text with each whole word respelled, but for strings and comments."""
    pieces = re.split(f"({STRING}|{comment}[^\n]*)", text)
    word = re.compile(WORD)
    for i in range(0, len(pieces), 2):
        pieces[i] = word.sub(lambda m: names.get(m.group(0), m.group(0)), pieces[i])
    return "".join(pieces)


def main():
    root = Path(".")
    antt, rust, edits = sources(root)
    names, ours, theirs = mapping(antt)
    if "--list" in sys.argv:
        for old, new in sorted(names.items()):
            print(old, new, "::", ours[old][:100])
        return
    for path in antt:
        path.write_text(turn(path.read_text(encoding="utf-8"), names, "--"), encoding="utf-8")
    for path in rust + edits:
        path.write_text(turn(path.read_text(encoding="utf-8"), names, "//"), encoding="utf-8")


if __name__ == "__main__":
    main()
