"""Law texts at every edge of the rules, for the program text_cases."""

import itertools

import model

HEAD = b"law states inputs"
NAMES = {b"saturated": b"gains offset divisor low high", b"fixed": b"command"}
CASE_HEAD = b"states inputs disturbances extra divisor"

# Both laws with all sizes.
SHAPES = [(word, states, inputs) for word in NAMES
          for states in range(1, 5) for inputs in range(1, 3)]

# Fields that are no number, each by another fault.
MALFORMED = [
    b"", b"-", b"-0", b"00", b"01", b"-01", b"+1", b"+", b"--1", b"1-",
    b"1-1", b"1.0", b"1e3", b"0x1", b"1,0", b"1_0", b"x", b"1x", b"x1",
    b"/", b":", b"\t", b"1\t", b"\t1", b"\r", b"1\r", b"\x00", b"1\x00",
    b"\x0b", b"\x7f", b"\xff", b"1\xff", b"\xd9\xa1",
    b"0" * 100, b"0" + b"9" * 99, b"-0" + b"9" * 98,
]

# Well-formed numbers that pass every limit.
HUGE = [b"9" * 100, b"-" + b"9" * 100]

# Well-formed numbers that pass every limit, at the edges of machine words.
WIDE = [b"%d" % (sign * 2 ** bits + more)
        for sign in (1, -1) for bits in (32, 63, 64, 128)
        for more in (-1, 0, 1)]

# Law words that are unknown.
WORDS = [
    b"", b"Saturated", b"SATURATED", b"saturate", b"saturatedx",
    b"saturated\r", b"saturated\t", b"saturated\x00", b"xsaturated",
    b"saturated-", b"saturated,1", b"Fixed", b"fixe", b"fixedx", b"fixed\r",
    b"fixed\x00", b"fixed\xff", b"\xff", b"\x00", b"linear", b"law", b"1",
    b"-1",
]


class Law:
    """A good law text as lines of fields, to be edited."""

    def __init__(self, word, states, inputs):
        self.word = word
        self.states = states
        self.inputs = inputs
        self.head = [word, b"%d" % states, b"%d" % inputs]
        self.rows = [self.good_row(j) for j in range(inputs)]

    def good_row(self, j):
        """The fields of an input: another number at each place."""
        if self.word == b"fixed":
            return [b"%d" % (17 - 40 * j)]
        gains = [b"%d" % ((-1) ** i * (10 * j + i + 1))
                 for i in range(self.states)]
        return gains + [b"%d" % (300 + j), b"%d" % (4 + j),
                        b"%d" % (-20 - j), b"%d" % (30 + j)]

    def limits(self):
        """The limits of the fields of an input."""
        if self.word == b"fixed":
            return [model.SETTING]
        return model.input_limits(self.states)

    def lines(self):
        """The lines of the text."""
        return [HEAD, b" ".join(self.head), NAMES[self.word],
                *map(b" ".join, self.rows)]

    def text(self):
        """The text."""
        return joined(self.lines())

    def with_row(self, j, fields):
        """The text with other fields of input j, counted from 0."""
        lines = self.lines()
        lines[3 + j] = b" ".join(fields)
        return joined(lines)

    def with_field(self, j, k, field):
        """The text with another field k of input j, counted from 0."""
        return self.with_row(j, replaced(self.rows[j], k, field))

    def with_bounds(self, j, low, high, *surplus):
        """The text with other bounds of a saturated input j."""
        bounds = [b"%d" % low, b"%d" % high, *surplus]
        return self.with_row(j, self.rows[j][:-2] + bounds)

    def with_line(self, number, line):
        """The text with another line, counted from 1."""
        return joined(replaced(self.lines(), number - 1, line))


def joined(lines):
    """The text of lines."""
    return b"".join(line + b"\n" for line in lines)


def replaced(items, place, item):
    """The items with another one at a place."""
    return [*items[:place], item, *items[place + 1:]]


WORKED = joined([HEAD, b"saturated 1 1", NAMES[b"saturated"],
                 b"-1 0 4 -20 20"])
FIXED = joined([HEAD, b"fixed 3 2", NAMES[b"fixed"], b"5", b"-7"])


# Each function gives texts, or texts with the size that they are filled to.


def sizes():
    """Texts at the limits of the size."""
    yield b""
    for byte in (b"x", b"l", b" ", b"\n", b"0", b"\x00", b"\xff"):
        yield byte
    yield 1, b""
    unfinished = WORKED[:-1]
    wrong = WORKED.replace(b"law", b"Law")
    for size in (59_999, 60_000, 60_001):
        for text in (b"", b"\n", WORKED, unfinished, wrong):
            yield size, text
    for shape in SHAPES:
        yield 60_000, Law(*shape).text()
        yield 60_001, Law(*shape).text()


def good():
    """Each shape of law, alone and with what may follow it."""
    rests = [b"x", b" ", b"\n", b"\x00", b"\xff", b"\r\n", CASE_HEAD + b"\n"]
    for shape in SHAPES:
        law = Law(*shape)
        yield law.text()
        yield law.text() + joined(law.lines()[-1:])
        yield law.text() + law.text()
    for rest in rests:
        yield WORKED + rest
        yield FIXED + rest


def ends():
    """Each shape of law that ends early: at each line, with and without it."""
    for shape in SHAPES:
        lines = Law(*shape).lines()
        for count in range(1, len(lines)):
            yield joined(lines[:count])
            yield joined(lines[:count])[:-1]
        yield joined(lines)[:-1]
        yield joined(lines[:-1]) + joined([CASE_HEAD])


def other_names(names):
    """Lines that are not quite a names line."""
    first, _, last = names.partition(b" ")
    return [
        b"", b" ", names + b" ", b" " + names, names + b"\r", b"\r" + names,
        names.upper(), names.capitalize(), names.swapcase(), names[:-1],
        names[1:], names + b"x", names + b"\x00", names + b"\xff",
        names + b"\t", first + b"  " + last, first + b"\t" + last,
        first + last, first, names + b" " + names, b"0", b"x",
    ]


def names_lines():
    """Both names lines in other forms."""
    for law in (Law(b"saturated", 1, 1), Law(b"fixed", 4, 2)):
        for number, names in ((1, HEAD), (3, NAMES[law.word])):
            for line in other_names(names):
                yield law.with_line(number, line)
            yield joined(law.lines()[:number - 1]) + names
    for law in itertools.starmap(Law, SHAPES):
        other = b"fixed" if law.word == b"saturated" else b"saturated"
        yield law.with_line(1, HEAD + b"\r")
        yield law.with_line(3, NAMES[other])
        yield law.with_line(3, NAMES[law.word] + b" ")
        yield joined(law.lines()[1:])
        yield joined(law.lines()[:2] + law.lines()[3:])


def words():
    """Unknown law words, which are judged before both sizes."""
    law = Law(b"saturated", 1, 1)
    for word in WORDS:
        for tail in (b"", b" 1 1", b" 9 x 1"):
            yield law.with_line(2, word + tail)
    for law in itertools.starmap(Law, SHAPES):
        yield law.with_line(2, b"x" + b" ".join(law.head))
        yield law.with_line(2, b" " + b" ".join(law.head))
    yield joined([HEAD]) + b"saturated 1 1"
    yield joined([HEAD]) + b"x"
    yield joined([HEAD, b"Saturated 1 1", b"x"])


def head_fields():
    """The sizes on line 2: each wrong in each way, and their order."""
    for law in itertools.starmap(Law, SHAPES):
        for k, beyond in ((1, (0, 5)), (2, (0, 3))):
            for number in beyond:
                yield law.with_line(2, b" ".join(
                    replaced(law.head, k, b"%d" % number)))
            yield law.with_line(2, b" ".join(law.head[:k]))
        yield law.with_line(2, b" ".join(law.head) + b" ")
        yield law.with_line(2, b" ".join(law.head) + b" 1")
    law = Law(b"saturated", 2, 1)
    for field in MALFORMED + HUGE + WIDE + [b"-1"]:
        yield law.with_line(2, b"saturated " + field + b" 1")
        yield law.with_line(2, b"saturated 2 " + field)
    for tail in (b"0 x", b"x 0", b"9 9 9", b"1 9 x", b"1 x x", b"1 1 x",
                 b" 1 1", b"1  1", b"1 1  ", b"1 1\r", b"1 1 \r", b"1\t1",
                 b"0", b"x", b"1 ", b"1 1 saturated"):
        yield law.with_line(2, b"saturated " + tail)


def input_fields():
    """Each field of each input of each shape: its limits and its faults."""
    malformed = itertools.cycle(MALFORMED)
    huge = itertools.cycle(HUGE)
    for law in itertools.starmap(Law, SHAPES):
        for j, fields in enumerate(law.rows):
            for k, limit in enumerate(law.limits()):
                for number in (limit.low - 1, limit.high + 1):
                    yield law.with_field(j, k, b"%d" % number)
                yield law.with_field(j, k, next(malformed))
                yield law.with_field(j, k, next(huge))
                yield law.with_row(j, fields[:k])


def input_limits():
    """Each field of each input at its limits, which are good."""
    for law in itertools.starmap(Law, SHAPES):
        for j in range(law.inputs):
            for k, limit in enumerate(law.limits()):
                low, high = b"%d" % limit.low, b"%d" % limit.high
                if k < len(law.limits()) - 1:
                    yield law.with_field(j, k, low)
                if k != len(law.limits()) - 2:
                    yield law.with_field(j, k, high)
            yield law.with_field(j, 0, b"0")


def input_lines():
    """Each input's line of each shape: surplus and blanks."""
    for law in itertools.starmap(Law, SHAPES):
        for j, fields in enumerate(law.rows):
            for surplus in (b"", b"0", b"x"):
                yield law.with_row(j, [*fields, surplus])
            for k in (0, len(fields) // 2, len(fields) - 1):
                yield law.with_row(j, [*fields[:k], b"", *fields[k:]])
            yield law.with_line(4 + j, b"")
            yield law.with_line(4 + j, b" ".join(fields) + b"\r")


def bounds():
    """The bounds of each saturated input: equal, and low above high."""
    most = model.SETTING.high
    for law in itertools.starmap(Law, SHAPES):
        if law.word == b"fixed":
            continue
        for j in range(law.inputs):
            for bound in (-most, 0, most):
                yield law.with_bounds(j, bound, bound)
            for low, high in ((1, 0), (0, -1), (most, -most)):
                yield law.with_bounds(j, low, high)
            yield law.with_bounds(j, 1, 0, b"7")
            yield law.with_bounds(j, most + 1, 0)


def every_number():
    """Every malformed and every large number, in turn at each place."""
    law = Law(b"saturated", 1, 1)
    places = itertools.cycle(range(5))
    for field in MALFORMED + HUGE + WIDE:
        yield law.with_field(0, next(places), field)
        yield Law(b"fixed", 1, 1).with_field(0, 0, field)


def orders():
    """Two faults each: the first in the text's order is told."""
    law = Law(b"saturated", 2, 2)
    rows = law.rows
    for first, second in itertools.product((b"x", b"9" * 9), repeat=2):
        for k in range(5):
            fields = replaced(replaced(rows[0], k, first), k + 1, second)
            yield law.with_row(0, fields)
            yield law.with_row(0, fields[:k + 2])
    crossed = [*rows[0][:-2], b"5", b"4"]
    for line in (b"x", b"", b" ".join(crossed), b" ".join(rows[1]) + b" "):
        yield joined([*law.lines()[:3], b" ".join(crossed), line])
        yield joined([*law.lines()[:3], b" ".join(crossed) + b" ", line])
        yield joined([*law.lines()[:3], line, b" ".join(crossed)])
    yield joined([*law.lines()[:3], b" ".join(crossed)])
    yield joined([*law.lines()[:3], b" ".join(crossed)])[:-1]
    yield joined([HEAD + b" ", b"x 9 9", b"x", b"x"])
    yield joined([HEAD, b"saturated 9 9", b"x", b"x"])
    yield joined([HEAD, b"saturated 1 1", b"x", b"x"])


def bytewise():
    """Each front of a good text, and the text with each byte left out."""
    for text in (WORKED, FIXED):
        for k in range(len(text)):
            yield text[:k]
            yield text[:k] + text[k + 1:]


GROUPS = [sizes, good, ends, names_lines, words, head_fields, input_fields,
          input_limits, input_lines, bounds, every_number, orders, bytewise]
