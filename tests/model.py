"""An independent model of the rules in docs/: a test oracle.

It reads law texts and case texts, checks certificates and finds multipliers
by elimination. It is no part of the product; the tests take what they expect
from here. Everything is counted from 1, as in docs/.
"""

import re
import sys
from dataclasses import dataclass
from math import gcd
from typing import NamedTuple

TEXT_LIMIT = 60_000
ROW_LIMIT = 256
WORKING_ROWS = 512
SOLVED_MULTIPLIER_LIMIT = 1_000_000
SOLVED_VALUE_LIMIT = 1_000_000_000

NUMBER = re.compile(rb"0|-?[1-9][0-9]*")

# More bytes than any number within a limit has.
LONG_NUMBER = 40


class Limit(NamedTuple):
    """From where to where a number may lie, both ends included."""

    low: int
    high: int

    def holds(self, value):
        """Whether a number lies within the limit."""
        return self.low <= value <= self.high


def magnitude(most):
    """The limit of the numbers of at most this magnitude."""
    return Limit(-most, most)


STATES = Limit(1, 4)
INPUTS = Limit(1, 2)
PUSHES = Limit(0, 2)
EXTRA_FACES = Limit(0, 8)
DIVISOR = Limit(1, 1_000_000)
BOUND = magnitude(1_000_000)
ENTRY = magnitude(1_000_000)
LEEWAY = Limit(0, 1_000_000)
MULTIPLIER = Limit(0, 1_000_000)
CONSTANT = magnitude(100_000_000)
FACE_RIGHT = magnitude(1_000_000_000)
GAIN = magnitude(10_000)
OFFSET = magnitude(100_000_000)
LAW_DIVISOR = Limit(1, 1_000)
SETTING = magnitude(500_000)


class Fault(Exception):
    """A refusal: its layer, its place and its cause; 0 is not told."""

    def __init__(self, layer, cause, line=0, field=0, region=0, face=0):
        super().__init__(layer, cause, line, field, region, face)
        self.layer = layer
        self.cause = cause
        self.line = line
        self.field = field
        self.region = region
        self.face = face

    def told(self):
        """The line of a verdict that tells the refusal."""
        return (f"refused {self.layer} {self.line} {self.field}"
                f" {self.region} {self.face} {self.cause}")


# Texts


def parsed(field):
    """The number that a field writes, or None if it is malformed.

    Of a number too long for every limit only the first digits are taken:
    they pass every limit as well.
    """
    if not NUMBER.fullmatch(field):
        return None
    return int(field[:LONG_NUMBER])


class Text:
    """What is left of a text, and the number of the line last read."""

    def __init__(self, layer, rest, line=0):
        self.layer = layer
        self.rest = rest
        self.line = line

    def fault(self, cause, field=0, region=0, face=0):
        """A refusal at the line last read."""
        return Fault(self.layer, cause, self.line, field, region, face)

    def judge_size(self):
        """Refuse a text that is empty or too long."""
        if not 1 <= len(self.rest) <= TEXT_LIMIT:
            raise self.fault(1)

    def next_line(self):
        """The next line, without its line feed."""
        self.line += 1
        line, feed, rest = self.rest.partition(b"\n")
        if not feed:
            raise self.fault(2)
        self.rest = rest
        return line

    def names(self, due):
        """Read the names line that is due."""
        if self.next_line() != due:
            raise self.fault(2)

    def fields(self):
        """The fields of the next line."""
        return self.next_line().split(b" ")

    def number(self, fields, place):
        """The number of a field."""
        value = parsed(fields[place - 1]) if place <= len(fields) else None
        if value is None:
            raise self.fault(3, place)
        return value

    def limited(self, fields, place, limit):
        """The number of a field, within its limit."""
        value = self.number(fields, place)
        if not limit.holds(value):
            raise self.fault(4, place)
        return value

    def end(self, fields, count):
        """Refuse a field after the first count fields."""
        if len(fields) > count:
            raise self.fault(3, count + 1)

    def values(self, limits):
        """The numbers of the next line, one for each limit."""
        fields = self.fields()
        numbers = [self.limited(fields, place, limit)
                   for place, limit in enumerate(limits, 1)]
        self.end(fields, len(limits))
        return numbers


# Laws


class Row(NamedTuple):
    """A row: coefficients × columns <= right."""

    coefficients: list
    right: int


def dot(left, right):
    """The dot product of two lists."""
    return sum(a * b for a, b in zip(left, right))


def negated(numbers):
    """The numbers, each negated."""
    return [-a for a in numbers]


def single(count, place, value=1):
    """A list with a value at a place, counted from 0, and zeros."""
    return [value if k == place else 0 for k in range(count)]


LOW, MIDDLE, HIGH = range(3)


@dataclass(frozen=True)
class Input:
    """One input of a saturated law."""

    gains: list
    offset: int
    divisor: int
    low: int
    high: int

    def value(self, state):
        """The value gains × state + offset."""
        return dot(self.gains, state) + self.offset

    def digit(self, state):
        """Whether the input is low, in the middle or high."""
        value = self.value(state)
        if value <= self.divisor * self.low - 1:
            return LOW
        if value >= self.divisor * (self.high + 1):
            return HIGH
        return MIDDLE

    def command(self, state):
        """The floor of the quotient, clipped to low..high."""
        quotient = self.value(state) // self.divisor
        return max(self.low, min(self.high, quotient))

    def lines(self, digit):
        """The rows of a digit: over the states, at the input, right side."""
        still = [0] * len(self.gains)
        back = negated(self.gains)
        low, high, divisor = self.low, self.high, self.divisor
        if digit == LOW:
            return [(still, 1, low), (still, -1, -low),
                    (self.gains, 0, divisor * low - 1 - self.offset)]
        if digit == HIGH:
            return [(still, 1, high), (still, -1, -high),
                    (back, 0, self.offset - divisor * (high + 1))]
        return [(back, divisor, self.offset),
                (self.gains, -divisor, divisor - 1 - self.offset),
                (still, 1, high), (still, -1, -low)]


@dataclass(frozen=True)
class SaturatedLaw:
    """A saturated law."""

    states: int
    inputs: list

    def sizes(self):
        """The numbers of states and inputs."""
        return self.states, len(self.inputs)

    def regions(self):
        """How many regions there are."""
        return 3 ** len(self.inputs)

    def rows(self, region):
        """The rows of a region, input by input."""
        count = len(self.inputs)
        rows = []
        for j, law_input in enumerate(self.inputs):
            digit = (region - 1) // 3 ** j % 3
            for gains, own, right in law_input.lines(digit):
                rows.append(Row(gains + single(count, j, own), right))
        return rows

    def command(self, state):
        """The command at a state."""
        return [law_input.command(state) for law_input in self.inputs]

    def region(self, state):
        """The region at a state."""
        return 1 + sum(law_input.digit(state) * 3 ** j
                       for j, law_input in enumerate(self.inputs))


@dataclass(frozen=True)
class FixedLaw:
    """A fixed law."""

    states: int
    commands: list

    def sizes(self):
        """The numbers of states and inputs."""
        return self.states, len(self.commands)

    def regions(self):
        """How many regions there are."""
        return 1

    def rows(self, _region):
        """The rows of the region, input by input."""
        count = len(self.commands)
        still = [0] * self.states
        rows = []
        for j, command in enumerate(self.commands):
            rows.append(Row(still + single(count, j, 1), command))
            rows.append(Row(still + single(count, j, -1), -command))
        return rows

    def command(self, _state):
        """The command at a state."""
        return list(self.commands)

    def region(self, _state):
        """The region at a state."""
        return 1


def input_limits(states):
    """The limits of the numbers of a saturated input's line."""
    return [GAIN] * states + [OFFSET, LAW_DIVISOR, SETTING, SETTING]


def read_input(text, states):
    """Read the line of a saturated input."""
    *gains, offset, divisor, low, high = text.values(input_limits(states))
    if low > high:
        raise text.fault(6, states + 4)
    return Input(gains, offset, divisor, low, high)


def read_law(data):
    """Read a law text: the law, and the rest of the text."""
    text = Text("law", data)
    text.judge_size()
    text.names(b"law states inputs")
    fields = text.fields()
    word = fields[0]
    if word not in (b"saturated", b"fixed"):
        raise text.fault(5, 1)
    states = text.limited(fields, 2, STATES)
    inputs = text.limited(fields, 3, INPUTS)
    text.end(fields, 3)
    if word == b"saturated":
        text.names(b"gains offset divisor low high")
        law = SaturatedLaw(
            states, [read_input(text, states) for _ in range(inputs)])
    else:
        text.names(b"command")
        law = FixedLaw(
            states, [text.values([SETTING])[0] for _ in range(inputs)])
    return law, text.rest


# Cases


class State(NamedTuple):
    """The numbers of one state."""

    low: int
    high: int
    leeway: int
    constant: int


class Push(NamedTuple):
    """The bounds of one push."""

    low: int
    high: int


@dataclass(frozen=True)
class Case:
    """A case: its head, and its proof lines as they stand in the text."""

    inputs: int
    divisor: int
    states: list
    pushes: list
    dynamics: list
    extra: list
    proofs: bytes
    line: int

    def sizes(self):
        """The numbers of states and inputs."""
        return len(self.states), self.inputs

    def columns(self):
        """How many columns a system has."""
        return 2 * len(self.states) + self.inputs + len(self.pushes)

    def faces(self):
        """The faces, over the states."""
        count = len(self.states)
        faces = []
        for i, state in enumerate(self.states):
            faces.append(Row(single(count, i, 1), state.high))
            faces.append(Row(single(count, i, -1), -state.low))
        return faces + self.extra


def read_state(text, divisor):
    """Read the line of a state."""
    state = State(*text.values([BOUND, BOUND, LEEWAY, CONSTANT]))
    if state.low > state.high:
        raise text.fault(6, 2)
    if 2 * state.leeway + 1 < divisor:
        raise text.fault(9, 3)
    return state


def read_push(text):
    """Read the line of a push."""
    push = Push(*text.values([BOUND, BOUND]))
    if push.low > push.high:
        raise text.fault(6, 2)
    return push


def read_face(text, states):
    """Read the line of an extra face."""
    *coefficients, right = text.values([ENTRY] * states + [FACE_RIGHT])
    return Row(coefficients, right)


def read_case(data):
    """Read a case text up to its proof lines."""
    text = Text("case", data)
    text.judge_size()
    text.names(b"states inputs disturbances extra divisor")
    n, m, p, extra, divisor = text.values(
        [STATES, INPUTS, PUSHES, EXTRA_FACES, DIVISOR])
    text.names(b"low high leeway constant")
    states = [read_state(text, divisor) for _ in range(n)]
    text.names(b"push-low push-high")
    pushes = [read_push(text) for _ in range(p)]
    text.names(b"A B E")
    dynamics = [text.values([ENTRY] * (n + m + p)) for _ in range(n)]
    text.names(b"F f")
    faces = [read_face(text, n) for _ in range(extra)]
    text.names(b"region face scale multipliers")
    return Case(m, divisor, states, pushes, dynamics, faces,
                text.rest, text.line)


# Check


def system(case, law, region):
    """The rows of a region's system, over x, u, w and the next x."""
    columns = case.columns()
    n, m = case.sizes()
    rows = []
    for face in case.faces() + law.rows(region):
        still = [0] * (columns - len(face.coefficients))
        rows.append(Row(face.coefficients + still, face.right))
    for j, push in enumerate(case.pushes):
        rows.append(Row(single(columns, n + m + j, 1), push.high))
        rows.append(Row(single(columns, n + m + j, -1), -push.low))
    for i, (state, entries) in enumerate(zip(case.states, case.dynamics)):
        upper = negated(entries) + single(n, i, case.divisor)
        rows.append(Row(upper, state.constant + state.leeway))
        rows.append(Row(negated(upper), state.leeway - state.constant))
    return rows


def over_next(case, face):
    """A face's coefficients over the next state."""
    return [0] * (case.columns() - len(case.states)) + face.coefficients


def read_pair(text, fields, law, faces):
    """The region and the face of a proof line."""
    region = text.number(fields, 1)
    if not 1 <= region <= law.regions():
        raise text.fault(12, 1)
    face = text.number(fields, 2)
    if not 1 <= face <= len(faces):
        raise text.fault(12, 2)
    return region, face


def read_multipliers(text, fields, count):
    """The scale and the multipliers of a proof line."""
    numbers = [text.limited(fields, place, MULTIPLIER)
               for place in range(3, 4 + count)]
    text.end(fields, 3 + count)
    return numbers[0], numbers[1:]


def first_unequal(rows, target, scale, multipliers):
    """The first column whose sum is not scale × target, or None."""
    for j, entry in enumerate(target):
        column = [row.coefficients[j] for row in rows]
        if dot(multipliers, column) != scale * entry:
            return j + 1
    return None


def is_small_enough(rows, face, scale, multipliers):
    """Whether the sum of the right sides is as small as it must be."""
    total = dot(multipliers, [row.right for row in rows])
    return total <= scale * face.right and (scale > 0 or total <= -1)


def check_line(text, case, law, seen):
    """Judge the next proof line, and add its pair to those seen."""
    fields = text.fields()
    faces = case.faces()
    region, place = read_pair(text, fields, law, faces)
    if (region, place) in seen:
        raise text.fault(13, 0, region, place)
    seen.add((region, place))
    rows = system(case, law, region)
    scale, multipliers = read_multipliers(text, fields, len(rows))
    face = faces[place - 1]
    target = over_next(case, face)
    column = first_unequal(rows, target, scale, multipliers)
    if column is not None:
        raise text.fault(15, column, region, place)
    if not is_small_enough(rows, face, scale, multipliers):
        raise text.fault(16, 0, region, place)


def check(case, law):
    """Check a case with a law."""
    if case.sizes() != law.sizes():
        raise Fault("proof", 11)
    text = Text("proof", case.proofs, case.line)
    seen = set()
    while text.rest:
        check_line(text, case, law, seen)
    for region in range(1, law.regions() + 1):
        for face in range(1, len(case.faces()) + 1):
            if (region, face) not in seen:
                raise Fault("proof", 14, region=region, face=face)


# Verdicts


def read_verdict(data):
    """The verdict on both texts when the proof lines are not looked at."""
    try:
        law, rest = read_law(data)
        case = read_case(rest)
    except Fault as fault:
        return fault.told()
    return f"read none 0 0 {law.regions()} {len(case.faces())} 0"


def verdict(data):
    """The verdict on a law text with a case text directly after it."""
    try:
        law, rest = read_law(data)
        case = read_case(rest)
        check(case, law)
    except Fault as fault:
        return fault.told()
    return f"accepted none 0 0 {law.regions()} {len(case.faces())} 0"


# Elimination


class Combination(NamedTuple):
    """A combination of the system's rows and the turned face."""

    multipliers: list
    scale: int
    coefficients: list
    right: int

    def is_zero(self):
        """Whether all coefficients are 0."""
        return not any(self.coefficients)

    def is_dead(self):
        """Whether the combination is a proof of the face."""
        return self.is_zero() and (
            self.right < 0 or (self.right == 0 and self.scale > 0))

    def is_large(self):
        """Whether a number passes its limit."""
        factors = [*self.multipliers, self.scale]
        values = [*self.coefficients, self.right]
        return (max(factors) > SOLVED_MULTIPLIER_LIMIT
                or max(map(abs, values)) > SOLVED_VALUE_LIMIT)


class Proof(NamedTuple):
    """The proof of one face for one region."""

    scale: int
    multipliers: list


def start_rows(case, law, region, face):
    """The rows that an elimination starts from."""
    rows = system(case, law, region)
    count = len(rows)
    start = [Combination(single(count, k), 0, row.coefficients, row.right)
             for k, row in enumerate(rows)]
    turned = negated(over_next(case, face))
    return [*start, Combination([0] * count, 1, turned, -face.right)]


def combined(positive, negative, column):
    """The row of a positive and a negative row, without the column."""
    a = positive.coefficients[column]
    b = -negative.coefficients[column]
    up, down = b // gcd(a, b), a // gcd(a, b)

    def joined(p, q):
        return [up * x + down * y for x, y in zip(p, q)]

    multipliers = joined(positive.multipliers, negative.multipliers)
    scale = up * positive.scale + down * negative.scale
    coefficients = joined(positive.coefficients, negative.coefficients)
    right = up * positive.right + down * negative.right
    common = gcd(scale, *multipliers)
    return Combination([x // common for x in multipliers], scale // common,
                       [x // common for x in coefficients], right // common)


def eliminated(rows, column):
    """The rows after a column is eliminated."""
    kept = [row for row in rows if row.coefficients[column] == 0]
    positive = [row for row in rows if row.coefficients[column] > 0]
    negative = [row for row in rows if row.coefficients[column] < 0]
    if len(kept) + len(positive) * len(negative) > ROW_LIMIT:
        raise Fault("solve", 24)
    new = []
    for p in positive:
        for q in negative:
            row = combined(p, q, column)
            if row.is_large():
                raise Fault("solve", 25)
            new.append(row)
    return kept + new


def first_dead(rows):
    """The first dead row, or None."""
    return next((row for row in rows if row.is_dead()), None)


def solve(case, law, region, face, working_rows=WORKING_ROWS):
    """Find a proof of a face for a region: a Proof, or None."""
    if case.sizes() != law.sizes():
        raise Fault("solve", 11)
    faces = case.faces()
    if not (1 <= region <= law.regions() and 1 <= face <= len(faces)):
        raise Fault("solve", 12)
    if working_rows < WORKING_ROWS:
        raise Fault("solve", 23)
    rows = start_rows(case, law, region, faces[face - 1])
    dead = first_dead(rows)
    for column in reversed(range(case.columns())):
        if dead is not None:
            break
        rows = [row for row in rows if not row.is_zero()]
        rows = eliminated(rows, column)
        dead = first_dead(rows)
    return None if dead is None else Proof(dead.scale, dead.multipliers)


def main():
    """Print the verdict on standard input, as two lines."""
    print("verdict layer line field region face cause")
    print(verdict(sys.stdin.buffer.read()))


if __name__ == "__main__":
    main()
