"""Case texts at every edge of the rules, behind a good law text."""

import model
from law_texts import (HUGE, MALFORMED, WIDE, WORKED, Law, joined,
                       other_names, replaced)

# States, inputs, pushes and extra faces: the ends and a middle of each size.
SHAPES = [(1, 1, 0, 0), (1, 1, 1, 0), (2, 1, 1, 2), (3, 2, 2, 1),
          (4, 1, 0, 8), (4, 2, 2, 8)]

# Those whose every field is tried.
FIELD_SHAPES = [(1, 1, 0, 0), (2, 1, 1, 2), (4, 2, 2, 2)]

SIZES = b"states inputs disturbances extra divisor"
STATES = b"low high leeway constant"
PUSHES = b"push-low push-high"
DYNAMICS = b"A B E"
FACES = b"F f"
PROOFS = b"region face scale multipliers"


class Case:
    """A good case text as sections of lines of fields, to be edited."""

    def __init__(self, states, inputs, pushes, extra):
        self.states = states
        self.inputs = inputs
        self.pushes = pushes
        self.extra = extra
        sizes = [[states, inputs, pushes, extra, 3]]
        boxes = [[-100 - i, 100 + i, 1 + i, 7 * i] for i in range(states)]
        bounds = [[-5 - j, 6 + j] for j in range(pushes)]
        width = states + inputs + pushes
        dynamics = [[(-1) ** j * (10 * i + j) for j in range(width)]
                    for i in range(states)]
        faces = [[k + i for i in range(states)] + [1000 + k]
                 for k in range(extra)]
        self.sections = [
            (name, [[b"%d" % value for value in row] for row in rows])
            for name, rows in [(SIZES, sizes), (STATES, boxes),
                               (PUSHES, bounds), (DYNAMICS, dynamics),
                               (FACES, faces), (PROOFS, [])]]

    def limits(self):
        """The limits of the fields of a line, section by section."""
        width = self.states + self.inputs + self.pushes
        return [
            [model.STATES, model.INPUTS, model.PUSHES, model.EXTRA_FACES,
             model.DIVISOR],
            [model.BOUND, model.BOUND, model.LEEWAY, model.CONSTANT],
            [model.BOUND, model.BOUND],
            [model.ENTRY] * width,
            [model.ENTRY] * self.states + [model.FACE_RIGHT],
            []]

    def law(self):
        """A good law text of the same sizes."""
        return Law(b"saturated", self.states, self.inputs).text()

    def lines(self):
        """The lines of the text."""
        lines = []
        for names, rows in self.sections:
            lines += [names, *map(b" ".join, rows)]
        return lines

    def text(self):
        """The law text with the case text behind it."""
        return self.law() + joined(self.lines())

    def places(self):
        """Each line of values: its number from 0, section, row, fields."""
        line = 0
        for section, (_, rows) in enumerate(self.sections):
            line += 1
            for row, fields in enumerate(rows):
                yield line, section, row, fields
                line += 1

    def with_line(self, line, content):
        """The text with another line, counted from 0."""
        return self.law() + joined(replaced(self.lines(), line, content))

    def with_fields(self, line, fields):
        """The text with other fields in a line, counted from 0."""
        return self.with_line(line, b" ".join(fields))


def good():
    """Each shape, alone and with proof lines of any kind behind it."""
    for shape in SHAPES:
        text = Case(*shape).text()
        yield text
        for rest in (b"1 1 1\n", b"x", b"\n", b"\x00", PROOFS + b"\n"):
            yield text + rest
    fixed = Law(b"fixed", 2, 1).text()
    yield fixed + joined(Case(2, 1, 1, 2).lines())
    yield WORKED + joined(Case(4, 2, 2, 8).lines())


def sizes():
    """Case texts that are empty, or as long as a text may be."""
    yield WORKED
    for byte in (b" ", b"\n", b"x", b"s", b"\x00", b"\xff"):
        yield WORKED + byte
    for shape in SHAPES:
        for size in (59_999, 60_000, 60_001):
            yield size, Case(*shape).text()


def ends():
    """Texts that end early: at each line, with and without its end."""
    for shape in SHAPES:
        case = Case(*shape)
        lines = case.lines()
        for count in range(1, len(lines)):
            yield case.law() + joined(lines[:count])
            yield case.law() + joined(lines[:count])[:-1]
        yield case.text()[:-1]


def names_lines():
    """Other lines where a names line is due, and lines left out or twice."""
    case = Case(2, 1, 1, 2)
    lines = case.lines()
    values = {line for line, _, _, _ in case.places()}
    for line, content in enumerate(lines):
        if line not in values:
            for other in other_names(content):
                yield case.with_line(line, other)
        yield case.law() + joined(lines[:line] + lines[line + 1:])
        yield case.law() + joined(lines[:line + 1] + lines[line:])


def fields():
    """Every field of every line: each fault, and lacking."""
    for shape in FIELD_SHAPES:
        case = Case(*shape)
        for line, section, _, row in case.places():
            for k, limit in enumerate(case.limits()[section]):
                for field in (b"%d" % (limit.low - 1),
                              b"%d" % (limit.high + 1), b"", b"00", b"-0",
                              b"+1", b"x", HUGE[0]):
                    yield case.with_fields(line, replaced(row, k, field))
                yield case.with_fields(line, row[:k])


def limits():
    """Every field of every line but the first at its limits."""
    for shape in FIELD_SHAPES:
        case = Case(*shape)
        for line, section, _, row in case.places():
            for k, limit in enumerate(case.limits()[section]):
                for value in limit:
                    yield case.with_fields(
                        line, replaced(row, k, b"%d" % value))


def surplus():
    """A field too many, doubled, leading and trailing spaces."""
    for shape in FIELD_SHAPES:
        case = Case(*shape)
        for line, _, _, row in case.places():
            for extra in (b"0", b"", b"x", b"\r"):
                yield case.with_fields(line, row + [extra])
            yield case.with_fields(line, [b""] + row)
            yield case.with_fields(line, row[:1] + [b""] + row[1:])
            yield case.with_line(line, b"")
            yield case.with_line(line, b" ".join(row) + b"\r")


def bounds():
    """Low and high of states and pushes: equal, and out of order."""
    for shape in SHAPES:
        case = Case(*shape)
        for line, section, _, row in case.places():
            if section not in (1, 2):
                continue
            for low, high in ((b"5", b"5"), (b"6", b"5"), (b"0", b"-1"),
                              (b"1000000", b"-1000000")):
                changed = [low, high] + row[2:]
                yield case.with_fields(line, changed)
                yield case.with_fields(line, changed + [b"9"])


def leeways():
    """Leeways and divisors where 2 leeway + 1 just reaches and just fails."""
    for shape in SHAPES:
        case = Case(*shape)
        first = case.sections[0][1][0]
        for line, section, row, state in case.places():
            if section != 1:
                continue
            for divisor, leeway in ((1, 0), (2, 0), (2, 1), (9, 4), (9, 3),
                                    (10, 4), (10, 5), (1_000_000, 499_999),
                                    (1_000_000, 500_000)):
                lines = case.lines()
                lines[1] = b" ".join(first[:4] + [b"%d" % divisor])
                for other, other_section, _, fields_ in case.places():
                    if other_section == 1:
                        lines[other] = b" ".join(
                            replaced(fields_, 2, b"500000"))
                lines[line] = b" ".join(
                    replaced(state, 2, b"%d" % leeway))
                yield case.law() + joined(lines)
                lines[line] = b" ".join(
                    [b"9", b"8"] + replaced(state, 2, b"%d" % leeway)[2:])
                yield case.law() + joined(lines)


def every_number():
    """Every malformed form and every wide number, in one field."""
    case = Case(1, 1, 1, 0)
    for line, _, _, row in case.places():
        for field in MALFORMED + HUGE + WIDE:
            yield case.with_fields(line, replaced(row, 0, field))


def bytewise():
    """Each front of a good text, and the text with each byte left out."""
    case = Case(1, 1, 1, 1)
    law, text = case.law(), joined(case.lines())
    for k in range(len(text)):
        yield law + text[:k]
        yield law + text[:k] + text[k + 1:]


GROUPS = [good, sizes, ends, names_lines, fields, limits, surplus, bounds,
          leeways, every_number, bytewise]
