"""Law and case texts with certificates that are accepted, to be edited."""

from math import ceil
from pathlib import Path

import finder
import model
from case_texts import DYNAMICS, FACES, PROOFS, PUSHES, SIZES, STATES
from law_texts import HEAD, NAMES, joined, replaced

EXAMPLES = Path(__file__).resolve().parent.parent / "examples"


class Certificate:
    """The lines up to the last names line, and the fields of each proof."""

    def __init__(self, before, proofs):
        self.before = before
        self.proofs = proofs

    def text(self):
        """The whole text."""
        return self.with_proofs(self.proofs)

    def with_proofs(self, proofs):
        """The text with other proof lines, as lists of fields."""
        return self.with_lines(map(b" ".join, proofs))

    def with_lines(self, lines):
        """The text with other proof lines."""
        return joined([*self.before, *lines])

    def with_rest(self, rest):
        """The text with other bytes after the last names line."""
        return joined(self.before) + rest

    def with_line(self, k, line):
        """The text with another proof line k, counted from 0."""
        return self.with_lines(replaced(self.lines(), k, line))

    def with_fields(self, k, fields):
        """The text with other fields of proof line k, counted from 0."""
        return self.with_line(k, b" ".join(fields))

    def with_field(self, k, j, field):
        """The text with another field j of line k, both counted from 0."""
        return self.with_fields(k, replaced(self.proofs[k], j, field))

    def without(self, *left_out):
        """The text without some proof lines, counted from 0."""
        return self.with_proofs([fields for k, fields in
                                 enumerate(self.proofs) if k not in left_out])

    def lines(self):
        """The proof lines."""
        return [b" ".join(fields) for fields in self.proofs]

    def first(self, k):
        """The certificate with proof line k, counted from 0, at the front."""
        others = self.proofs[:k] + self.proofs[k + 1:]
        return Certificate(self.before, [self.proofs[k], *others])

    def read(self):
        """The law and the case."""
        law, rest = model.read_law(self.text())
        return law, model.read_case(rest)

    def is_read(self):
        """Whether the law and the case are read."""
        try:
            self.read()
        except model.Fault:
            return False
        return True

    def numbers(self):
        """Each number before the proofs: its line and field, from 0."""
        for line, content in enumerate(self.before):
            for field, digits in enumerate(content.split(b" ")):
                if model.parsed(digits) is not None:
                    yield line, field, int(digits)

    def with_number(self, line, field, number):
        """The certificate with another number before the proofs."""
        fields = self.before[line].split(b" ")
        changed = b" ".join(replaced(fields, field, b"%d" % number))
        return Certificate(replaced(self.before, line, changed), self.proofs)


def from_text(text):
    """The certificate of a text."""
    lines = text.split(b"\n")[:-1]
    count = lines.index(PROOFS) + 1
    return Certificate(lines[:count],
                       [line.split(b" ") for line in lines[count:]])


def example(name):
    """The certificate of an example."""
    return from_text((EXAMPLES / name).read_bytes())


def solved(head):
    """The certificate of a law text and the head of a case, or None."""
    law, rest = model.read_law(head)
    found = finder.certificate(law, model.read_case(rest))
    if found is None:
        return None
    return Certificate(head.split(b"\n")[:-1], [
        [b"%d" % number for number in line] for line in found])


# Certificates of every shape


class Draw:
    """Numbers that look drawn, and are the same in every run."""

    def __init__(self, seed):
        self.state = seed

    def below(self, count):
        """A number from 0 to below the count."""
        self.state = (self.state * 6364136223846793005
                      + 1442695040888963407) % 2 ** 64
        return (self.state >> 33) % count

    def between(self, low, high):
        """A number from low to high."""
        return low + self.below(high - low + 1)

    def one_of(self, items):
        """One of the items."""
        return items[self.below(len(items))]

    def many(self, count, low, high):
        """A list of numbers from low to high."""
        return [self.between(low, high) for _ in range(count)]

    def shuffled(self, items):
        """The items in another order."""
        left, order = list(items), []
        while left:
            order.append(left.pop(self.below(len(left))))
        return order


def drawn_law(draw, word, n, m):
    """A law of a shape."""
    if word == b"fixed":
        return model.FixedLaw(n, draw.many(m, -20, 20))
    inputs = []
    for _ in range(m):
        low = draw.between(-20, 2)
        high = low + draw.between(0, 20)
        inputs.append(model.Input(draw.many(n, -3, 3), draw.between(-9, 9),
                                  draw.between(1, 5), low, high))
    return model.SaturatedLaw(n, inputs)


def drawn_entries(draw, n, m, p, divisor):
    """The entries of a state: those of A sum to less than the divisor."""
    left = divisor - 1
    entries = []
    for _ in range(n):
        entry = draw.between(0, left)
        left -= entry
        entries.append(draw.one_of([-1, 1]) * entry)
    return draw.shuffled(entries) + draw.many(m + p, -3, 3)


def drawn_case(draw, n, m, p, extra):
    """A case of a shape, as yet with any set of states."""
    divisor = draw.one_of([1, 2, 3, 4, 6])
    states = []
    for _ in range(n):
        low = draw.between(-30, 5)
        states.append(model.State(
            low, low + draw.between(0, 30), divisor // 2 + draw.below(3),
            draw.between(-15, 15)))
    pushes = []
    for _ in range(p):
        low = draw.between(-8, 2)
        pushes.append(model.Push(low, low + draw.between(0, 8)))
    dynamics = [drawn_entries(draw, n, m, p, divisor) for _ in range(n)]
    faces = [model.Row(draw.many(n, -2, 2), draw.between(0, 40))
             for _ in range(extra)]
    return model.Case(m, divisor, states, pushes, dynamics, faces, b"", 0)


def with_rights(case, rights):
    """A case with other right sides of its faces."""
    n = len(case.states)
    states = [state._replace(low=-rights[2 * i + 1], high=rights[2 * i])
              for i, state in enumerate(case.states)]
    faces = [face._replace(right=right)
             for face, right in zip(case.extra, rights[2 * n:])]
    return model.Case(case.inputs, case.divisor, states, case.pushes,
                      case.dynamics, faces, case.proofs, case.line)


def grown(law, case, rounds=60):
    """A case whose faces are moved out until each holds next, or None."""
    for _ in range(rounds):
        faces = case.faces()
        rights = [face.right for face in faces]
        for region in range(1, law.regions() + 1):
            rows = model.system(case, law, region)
            for k, face in enumerate(faces):
                most = finder.most(rows, model.over_next(case, face))
                if most is not None:
                    rights[k] = max(rights[k], ceil(most))
        if rights == [face.right for face in faces]:
            return case
        case = with_rights(case, rights)
    return None


def written(numbers):
    """The line of some numbers."""
    return b" ".join(b"%d" % number for number in numbers)


def law_lines(law):
    """The lines of a law."""
    n, m = law.sizes()
    if isinstance(law, model.FixedLaw):
        word, rows = b"fixed", [[command] for command in law.commands]
    else:
        word, rows = b"saturated", [
            [*row.gains, row.offset, row.divisor, row.low, row.high]
            for row in law.inputs]
    return [HEAD, word + b" " + written([n, m]), NAMES[word],
            *map(written, rows)]


def head_lines(case):
    """The lines of a case up to its last names line."""
    sizes = [len(case.states), case.inputs, len(case.pushes),
             len(case.extra), case.divisor]
    faces = [[*face.coefficients, face.right] for face in case.extra]
    return [SIZES, written(sizes), STATES, *map(written, case.states),
            PUSHES, *map(written, case.pushes),
            DYNAMICS, *map(written, case.dynamics),
            FACES, *map(written, faces), PROOFS]


def drawn(seed, word, n, m, p, extra):
    """A certificate of a shape."""
    draw = Draw(seed)
    while True:
        law = drawn_law(draw, word, n, m)
        case = grown(law, drawn_case(draw, n, m, p, extra))
        if case is not None:
            found = solved(joined(law_lines(law) + head_lines(case)))
            if found is not None:
                return found
