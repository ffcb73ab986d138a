"""Proof lines at every edge of the rules, behind good law and case texts."""

import itertools
from functools import lru_cache

import model
import worked_edges
from case_texts import Case
from certificates import (Certificate, Draw, drawn, example, from_text,
                          solved, written)
from law_texts import HUGE, MALFORMED, WIDE, Law, joined, replaced

WORKED = example("worked.txt")
ROUNDED = from_text(worked_edges.ROUNDED)
FIXED = example("fixed.txt")
TWO_INPUTS = example("two_inputs.txt")
FULL = example("full.txt")

# The set just misses the states at which the input is low or high.
UNREACHED = solved(b"""\
law states inputs
saturated 1 1
gains offset divisor low high
-1 0 4 -20 20
states inputs disturbances extra divisor
1 1 1 0 1
low high leeway constant
-83 80 0 0
push-low push-high
-5 5
A B E
1 1 1
F f
region face scale multipliers
""")

# An extra face that just contradicts the box.
EMPTY = solved(b"""\
law states inputs
fixed 1 1
command
3
states inputs disturbances extra divisor
1 1 0 1 1
low high leeway constant
-100 100 0 0
push-low push-high
A B E
5 5
F f
1 -101
region face scale multipliers
""")

# Numbers at their limits: products of 10^12, and right sides of 10^15.
LARGE = solved(b"""\
law states inputs
fixed 1 1
command
500000
states inputs disturbances extra divisor
1 1 1 8 1000000
low high leeway constant
-1000 1000 1000000 100000000
push-low push-high
-1000000 1000000
A B E
1 1 1
F f
1000000 1000000000
-1000000 1000000000
65536 65536000
-65536 65536000
0 1000000000
0 65536
0 1
0 0
region face scale multipliers
""")


@lru_cache
def small():
    """Certificates of short texts, in all kinds."""
    return [WORKED, ROUNDED, FIXED, UNREACHED, EMPTY,
            drawn(11, b"fixed", 2, 2, 1, 1),
            drawn(12, b"fixed", 3, 1, 2, 0),
            drawn(13, b"saturated", 1, 1, 0, 1),
            nine_regions(),
            drawn(15, b"saturated", 2, 1, 1, 1)]


@lru_cache
def nine_regions():
    """A certificate of two inputs and one state."""
    return drawn(14, b"saturated", 1, 2, 1, 0)


@lru_cache
def wide():
    """Certificates of systems with 10, 11 and 12 columns."""
    return [drawn(16, b"fixed", 4, 1, 1, 0), drawn(17, b"fixed", 4, 2, 1, 0),
            drawn(18, b"fixed", 4, 2, 2, 1)]


@lru_cache
def all_shapes():
    """A certificate of each shape: law, states, inputs and pushes."""
    extra = itertools.cycle([0, 1, 2])
    shapes = itertools.product([b"fixed", b"saturated"], [1, 2, 3, 4],
                               [1, 2], [0, 1, 2])
    found = [drawn(100 + k, *shape, next(extra))
             for k, shape in enumerate(shapes)]
    eight = [(b"fixed", 1, 2, 1), (b"fixed", 4, 2, 2),
             (b"saturated", 1, 1, 2), (b"saturated", 2, 1, 0)]
    return found + [drawn(200 + k, *shape, 8)
                    for k, shape in enumerate(eight)]


def thickened(certificate, draw):
    """The certificate with more multipliers above 0 in each proof."""
    law, case = certificate.read()
    faces = case.faces()
    proofs = []
    for region, face, scale, *multipliers in numbers_of(certificate):
        rows = model.system(case, law, region)
        factor = draw.between(2, 9)
        scale *= factor
        multipliers = [factor * x for x in multipliers]
        most = scale * faces[face - 1].right if scale else -1
        for a, b in opposite(rows):
            left = most - model.dot(multipliers, [r.right for r in rows])
            cost = rows[a].right + rows[b].right
            more = draw.between(0, min(9, left // cost) if cost > 0 else 9)
            multipliers[a] += more
            multipliers[b] += more
        proofs.append([region, face, scale, *multipliers])
    return Certificate(certificate.before, [
        written(proof).split(b" ") for proof in proofs])


def opposite(rows):
    """Pairs of rows, counted from 0, whose coefficients sum to 0."""
    for a, b in itertools.combinations(range(len(rows)), 2):
        if rows[a].coefficients == model.negated(rows[b].coefficients):
            if rows[a].right + rows[b].right >= 0:
                yield a, b


def numbers_of(certificate):
    """The numbers of each proof line."""
    return [[int(field) for field in fields]
            for fields in certificate.proofs]


# Each function gives texts, or texts with the size that they are filled to.


def accepted():
    """Certificates of all shapes, and with many multipliers."""
    draw = Draw(1)
    yield LARGE.text()
    for certificate in [*small(), TWO_INPUTS, FULL, *all_shapes()]:
        yield certificate.text()
        if len(certificate.text()) < 1_500:
            yield thickened(certificate, draw).text()
    yield thickened(TWO_INPUTS, draw).text()


def any_order():
    """Proof lines in other orders."""
    draw = Draw(2)
    for certificate in [*small(), TWO_INPUTS, FULL]:
        proofs = certificate.proofs
        yield certificate.with_proofs(proofs[::-1])
        if certificate is not FULL:
            yield certificate.with_proofs(draw.shuffled(proofs))
            yield certificate.with_proofs(sorted(
                proofs, key=lambda fields: int(fields[1])))
            yield certificate.with_proofs(proofs[1:] + proofs[:1])
    for order in itertools.islice(
            itertools.permutations(WORKED.proofs), 1, 720, 47):
        yield WORKED.with_proofs(order)


def multiples():
    """Proofs times a factor: up to the limit, and past it."""
    for certificate in small():
        for k, (region, face, *rest) in enumerate(numbers_of(certificate)):
            most = model.MULTIPLIER.high // max(rest)
            for factor in (most, most + 1):
                changed = [region, face, *(factor * x for x in rest)]
                yield certificate.with_line(k, written(changed))
            if k == 2:
                break


def other_sizes():
    """Laws and cases whose sizes differ, with proof lines of any kind."""
    rests = itertools.cycle([b"", b"x", b"\n", b"1 1 1", b"99 1 1\n",
                             b"1 1 1 0 0 0 0 0 0\n", b"1 1 x\n\n"])
    sizes = list(itertools.product([1, 2, 3, 4], [1, 2]))
    for (n, m), (states, inputs) in itertools.permutations(sizes, 2):
        lines = Case(n, m, 0, 0).lines()
        word = b"fixed" if (n + inputs) % 2 else b"saturated"
        yield (Law(word, states, inputs).text() + joined(lines)
               + next(rests))
    for certificate in small():
        law, _ = certificate.read()
        n, m = law.sizes()
        lines = certificate.before[3 + m:] + certificate.lines()
        yield Law(b"fixed", n % 4 + 1, m).text() + joined(lines)
        yield Law(b"saturated", n, 3 - m).text() + joined(lines)
        yield Law(b"fixed", n, 3 - m).text() + joined(lines)[:-1]


def other_laws():
    """Cases with another law of the same sizes."""
    for certificate in small():
        n, m = certificate.read()[0].sizes()
        lines = certificate.before[3 + m:] + certificate.lines()
        for word in (b"fixed", b"saturated"):
            yield Law(word, n, m).text() + joined(lines)
            yield Law(word, n, m).text() + joined(lines[:-1])


def line_feeds():
    """A last line without its line feed, whatever else is wrong with it."""
    for certificate in [*small(), TWO_INPUTS, FULL, LARGE]:
        yield certificate.text()[:-1]
    lines = WORKED.lines()
    for count in range(1, len(lines)):
        yield WORKED.with_lines(lines[:count])[:-1]
    for tail in (b"x", b" ", b"0", b"1", b"1 1", b"1 1 x", b"4 1", b"1 3",
                 b"1 1 1000001", b"\r", b"\x00", lines[5] + b" 0",
                 lines[5] + b"\r", lines[5] + b" ", b"3 2 0"):
        yield WORKED.with_lines(lines[:5]) + tail
        yield WORKED.text() + tail
        yield WORKED.with_line(2, b"2 3 1") + tail
    for certificate in small():
        yield 60_000, certificate.text()
        yield 60_001, certificate.text()
    yield 60_000, WORKED.with_line(4, b"3 1 1 0 0 1 0 1 1 0 1 0 0")


def blank_lines():
    """Lines that hold nothing, among and after the proof lines."""
    lines = WORKED.lines()
    for place in range(len(lines) + 1):
        for blank in (b"", b" ", b"\r"):
            yield WORKED.with_lines([*lines[:place], blank, *lines[place:]])
    for certificate in [*small(), TWO_INPUTS]:
        yield certificate.text() + b"\n"
        yield certificate.with_rest(b"\n")
    yield FULL.text() + b"\n"


def spaces():
    """Leading, doubled and trailing spaces, and other parting bytes."""
    for k in (0, 3):
        fields = WORKED.proofs[k]
        for place in range(len(fields) + 1):
            yield WORKED.with_fields(
                k, [*fields[:place], b"", *fields[place:]])
    for certificate in small():
        k = len(certificate.proofs) - 1
        line = certificate.lines()[k]
        yield certificate.with_line(k, b" " + line)
        yield certificate.with_line(k, line + b" ")
        yield certificate.with_line(k, line + b"\r")
        yield certificate.with_line(k, line.replace(b" ", b"\t", 1))
        yield certificate.with_line(k, line.replace(b" ", b"  ", 1))


def wrapped(value):
    """Numbers that are the value again in a narrow machine word."""
    return [b"%d" % (value + 2 ** bits) for bits in (8, 16, 32, 64)]


def pair_numbers():
    """Regions and faces that are malformed or not there."""
    for k, field in enumerate(MALFORMED + HUGE + WIDE):
        yield ROUNDED.with_field(k % 2, 0, field)
        yield ROUNDED.with_field(1, 1, field)
    for certificate in small():
        law, case = certificate.read()
        last = len(certificate.proofs) - 1
        for j, most in ((0, law.regions()), (1, len(case.faces()))):
            for number in (-1, 0, most + 1):
                yield certificate.with_field(last, j, b"%d" % number)
            yield certificate.with_field(last, j, b"01")
    for j in (0, 1):
        for k in (0, 3):
            for field in wrapped(int(WORKED.proofs[k][j])):
                yield WORKED.with_field(k, j, field)
    for j, number in ((0, b"0"), (0, b"10"), (1, b"0"), (1, b"7")):
        yield TWO_INPUTS.with_field(53, j, number)
    yield FULL.with_field(143, 0, b"10")
    yield FULL.with_field(143, 1, b"17")


def every_multiplier():
    """Each scale and multiplier: each fault, and at its limits."""
    for j in range(2, len(WORKED.proofs[3])):
        value = int(WORKED.proofs[3][j])
        for field in (b"-1", b"1000000", b"1000001", b"x", b"",
                      HUGE[j % 2], *wrapped(value)[2:]):
            yield WORKED.with_field(3, j, field)
    for k, field in enumerate(MALFORMED + HUGE + WIDE):
        yield ROUNDED.with_field(k % 2, 2 + k % 7, field)
    for certificate in [*small(), *wide()]:
        last = len(certificate.proofs) - 1
        for j in (2, len(certificate.proofs[last]) - 1):
            for field in (b"-1", b"1000000", b"1000001"):
                yield certificate.with_field(last, j, field)


def counts():
    """Fields left out at the end of a line, and fields too many."""
    for k in (0, 3):
        fields = WORKED.proofs[k]
        for count in range(1, len(fields)):
            yield WORKED.with_fields(k, fields[:count])
    for certificate in small():
        for k in {0, len(certificate.proofs) - 1}:
            fields = certificate.proofs[k]
            yield certificate.with_fields(k, fields[:-1])
            for surplus in (b"0", b"", b"x"):
                yield certificate.with_fields(k, [*fields, surplus])
    for surplus in (HUGE[0], b"0 0", b"-1", b"\r"):
        yield WORKED.with_fields(5, [*WORKED.proofs[5], surplus])
    for k, region in itertools.product(range(6), (b"1", b"2", b"3")):
        yield WORKED.with_lines(
            [b" ".join([region, *WORKED.proofs[k][1:]])])
    yield WORKED.with_fields(2, WORKED.proofs[2] + [b"0"] * 1_000)
    for certificate in [*wide(), TWO_INPUTS]:
        fields = certificate.proofs[-2]
        k = len(certificate.proofs) - 2
        yield certificate.with_fields(k, fields[:-1])
        yield certificate.with_fields(k, [*fields, b"0"])
    yield FULL.with_fields(143, FULL.proofs[143] + [b"0"])
    yield FULL.with_fields(143, FULL.proofs[143][:-1])


def long_numbers():
    """Numbers that are very long."""
    for j in (0, 1, 2, 5):
        yield WORKED.with_field(0, j, b"9" * 1_000)
        yield WORKED.with_field(0, j, b"0" * 1_000)
    yield WORKED.with_field(5, 0, b"8" * 20_000)


# Edits of the fields of the proof line of region 2 and face 2 of the worked
# case, in the order in which check comes to their faults.
FAULTS = [
    lambda fields: replaced(fields, 0, b"x"),
    lambda fields: replaced(fields, 0, b"4"),
    lambda fields: fields[:1],
    lambda fields: replaced(fields, 1, b"x"),
    lambda fields: replaced(fields, 1, b"3"),
    lambda fields: replaced(fields, 1, b"1"),
    lambda fields: fields[:2],
    lambda fields: replaced(fields, 2, b"x"),
    lambda fields: replaced(fields, 2, b"1000001"),
    lambda fields: replaced(fields, 3, b"x"),
    lambda fields: replaced(fields, 3, b"-1"),
    lambda fields: fields[:-1],
    lambda fields: [*fields[:-1], b"-0"],
    lambda fields: [*fields[:-1], b"1000001"],
    lambda fields: [*fields, b"0"],
    lambda fields: [*fields, b"x"],
    lambda fields: replaced(fields, 4, b"1000"),
    lambda fields: replaced(fields, 7, b"1"),
    lambda fields: [*fields[:2], *[b"0"] * (len(fields) - 2)],
]


def faults_in_a_line():
    """Two faults in one line: the first is told."""
    fields = WORKED.proofs[3]
    for first in FAULTS:
        yield WORKED.with_fields(3, first(fields))
    for first, second in itertools.combinations(FAULTS, 2):
        yield WORKED.with_fields(3, first(second(fields)))
        yield WORKED.with_fields(3, second(first(fields)))


def faults_in_lines():
    """Two lines with a fault each: the first line's is told."""
    chosen = [FAULTS[k] for k in (1, 3, 4, 7, 8, 10, 12, 14, 16, 18)]
    for first, second in itertools.product(chosen, repeat=2):
        changed = Certificate(WORKED.before, replaced(
            WORKED.proofs, 2, first(WORKED.proofs[2])))
        yield changed.with_fields(4, second(WORKED.proofs[4]))
    for fault in FAULTS:
        line = b" ".join(fault(WORKED.proofs[3]))
        lines = replaced(WORKED.lines(), 3, line)
        yield WORKED.with_lines(lines[1:])
        yield WORKED.with_lines(lines[::-1])
        yield WORKED.with_lines(lines)[:-1]


def named_twice():
    """Pairs that are named twice."""
    lines = WORKED.lines()
    for k, j in itertools.permutations(range(6), 2):
        yield WORKED.with_line(j, lines[k])
        if j < k:
            yield WORKED.with_lines([*lines[:j], lines[k], *lines[j:]])
    pair = WORKED.proofs[4][:2]
    for rest in ([], [b"x"], [b"1"], [b"0"] * 10, [b"-1"] * 10,
                 [b"0"] * 40, [b"1000001"], [b""]):
        yield WORKED.with_fields(5, pair + rest)
        yield WORKED.with_lines([*lines, b" ".join(pair + rest)])
    for certificate in [*small(), TWO_INPUTS]:
        lines = certificate.lines()
        yield certificate.with_lines([*lines, lines[0]])
        yield certificate.with_lines([*lines[1:], lines[-1]])
    yield FULL.text() + FULL.lines()[71] + b"\n"


def missing():
    """Pairs that are not named."""
    for certificate in [*small(), LARGE]:
        count = len(certificate.proofs)
        for k in range(count):
            yield certificate.without(k)
        yield certificate.with_lines([])
        yield certificate.with_lines(certificate.lines()[::-1][:-1])
        yield certificate.with_lines(certificate.lines()[-1:])
        yield certificate.without(*range(0, count, 2))
        yield certificate.without(*range(count // 2))
    for k, j in itertools.combinations(range(6), 2):
        yield WORKED.without(k, j)
    for k in (0, 25, 53):
        yield TWO_INPUTS.without(k)
    yield FULL.without(143)
    yield FULL.with_lines([])


def steps():
    """A scale or multiplier one more or one less."""
    for k, fields in enumerate(WORKED.proofs):
        for j in range(2, len(fields)):
            for more in (1, -1) if fields[j] != b"0" else (1,):
                yield WORKED.with_field(k, j, b"%d" % (int(fields[j]) + more))
    draw = Draw(3)
    for certificate in [*small()[1:], *all_shapes()]:
        size = len(certificate.text())
        for _ in range(0 if size > 2_500 else 1 if size > 800 else 2):
            k = draw.below(len(certificate.proofs))
            fields = certificate.proofs[k]
            j = draw.between(2, len(fields) - 1)
            more = draw.one_of([1, 1, -1]) if fields[j] != b"0" else 1
            yield certificate.with_field(k, j, b"%d" % (int(fields[j]) + more))
    for k, fields in enumerate(nine_regions().proofs):
        j = 2 + 5 * k % (len(fields) - 2)
        more = b"%d" % (int(fields[j]) + 1)
        yield nine_regions().with_field(k, j, more)
    for k, j in ((60, 15), (143, 36)):
        value = int(FULL.proofs[k][j])
        yield FULL.with_field(k, j, b"%d" % (value + 1))


def columns():
    """For each column an edit after which it is the first unequal one."""
    for certificate in [*small(), *wide()]:
        told = set()
        for k, fields in enumerate(certificate.proofs):
            for j in range(2, len(fields)):
                more = b"%d" % (int(fields[j]) + 1)
                text = certificate.with_field(k, j, more)
                column = unequal(text)
                if column and column not in told:
                    told.add(column)
                    yield text


def unequal(text):
    """The column that the verdict on a text tells, or 0."""
    told = model.verdict(text).split()
    return int(told[3]) if told[-1] == "15" else 0


def head_steps():
    """Each number of law and case one more and one less."""
    for certificate in small():
        yield from changed_heads(certificate, 1)
    for certificate in (WORKED, ROUNDED, FIXED):
        yield from changed_heads(certificate, -1)
    yield from itertools.islice(changed_heads(TWO_INPUTS, 1), 0, None, 6)
    yield from itertools.islice(changed_heads(FULL, 1), 20, None, 30)


def changed_heads(certificate, more):
    """Texts that are read, each with another number of law or case."""
    for line, field, number in certificate.numbers():
        changed = certificate.with_number(line, field, number + more)
        if changed.is_read():
            yield changed.text()


def excess(certificate):
    """How far the sum of the first proof is above its limit.

    None where the text is not read or a column is unequal.
    """
    if not certificate.is_read():
        return None
    law, case = certificate.read()
    region, place, scale, *multipliers = numbers_of(certificate)[0]
    rows = model.system(case, law, region)
    if len(rows) != len(multipliers):
        return None
    face = case.faces()[place - 1]
    target = model.over_next(case, face)
    if model.first_unequal(rows, target, scale, multipliers):
        return None
    total = model.dot(multipliers, [row.right for row in rows])
    return total - (scale * face.right if scale else -1)


def at_the_edge(certificate):
    """The first proof's sum just at its limit and just above.

    For each number of law and case whose change moves it.
    """
    before = excess(certificate)
    for line, field, number in certificate.numbers():
        for step in (1, -1):
            after = excess(
                certificate.with_number(line, field, number + step))
            if after is None or after <= before:
                continue
            most = -before // (after - before)
            for times in (most, most + 1):
                changed = certificate.with_number(
                    line, field, number + step * times)
                if excess(changed) is not None:
                    yield changed.text()


def right_sides():
    """Sums of right sides at their limits and just above."""
    for certificate in (WORKED, ROUNDED, UNREACHED, EMPTY):
        for k in range(len(certificate.proofs)):
            yield from at_the_edge(certificate.first(k))
    for k in range(len(nine_regions().proofs)):
        yield from itertools.islice(
            at_the_edge(nine_regions().first(k)), k % 3 * 2, k % 3 * 2 + 2)
    draw = Draw(4)
    for certificate in [FIXED, *small()[5:]]:
        for _ in range(2):
            k = draw.below(len(certificate.proofs))
            yield from at_the_edge(certificate.first(k))


def scale_zero():
    """Scale 0: sums of -1 and 0, and proofs that show nothing."""
    for certificate in [*small(), LARGE]:
        k = len(certificate.proofs) - 1
        fields = certificate.proofs[k]
        nothing = fields[:2] + [b"0"] * (len(fields) - 2)
        yield certificate.with_fields(k, nothing)
        yield certificate.with_fields(k, replaced(fields, 2, b"0"))
        law, case = certificate.read()
        rows = model.system(case, law, int(fields[0]))
        for a, b in list(opposite(rows))[::3]:
            pair = replaced(replaced(nothing, 3 + a, b"1"), 3 + b, b"1")
            yield certificate.with_fields(k, pair)
    for high, low in itertools.product((79, 80, 81), (-82, -83, -84)):
        yield UNREACHED.with_number(7, 1, high).with_number(7, 0, low).text()
    for k, (_, _, scale, *_) in enumerate(numbers_of(UNREACHED)):
        for other in (1, 1_000_000) if scale == 0 else (0,):
            yield UNREACHED.with_field(k, 2, b"%d" % other)
    for right in (-102, -100, -99, 0, 100):
        yield EMPTY.with_number(12, 1, right).text()
    for face in (b"0 -1", b"0 0", b"0 1", b"0 -1000000000"):
        yield from zero_face(face)


def zero_face(face):
    """An extra face without states: it contradicts itself, or says nothing."""
    before = replaced(EMPTY.before, 12, face)
    for scale, more in itertools.product((0, 1, 1_000_000), repeat=2):
        tail = written([0, 0, more, 0, 0, 0, 0])
        yield Certificate(before, []).with_lines(
            [b"1 %d %d " % (k, scale if k == 3 else 0) + tail
             for k in (3, 1, 2)])


def large():
    """Sums that pass the machine's narrower words."""
    edits = []
    for k, fields in enumerate(LARGE.proofs):
        for j in range(5, 13):
            for field in (b"65536", b"32768", b"1000000", b"999999"):
                if fields[j] != field:
                    edits.append((k, j, field))
    for k, j, field in edits[::7]:
        yield LARGE.with_field(k, j, field)
    for k, fields in enumerate(LARGE.proofs):
        full = fields[:2] + [b"1000000"] * (len(fields) - 2)
        yield LARGE.with_fields(k, full)
        yield LARGE.with_fields(k, replaced(full, 2, b"0"))
    for multipliers in ((10 ** 6, 0, 0, 0), (10 ** 6, 0, 1, 0),
                        (999_999, 15_258, 51_712, 0),
                        (999_999, 15_258, 51_713, 10 ** 6),
                        (0, 10 ** 6, 10 ** 6, 10 ** 6)):
        proof = [1, 7, 10 ** 6, 0, 0, 0, 0, 0, 0, *multipliers,
                 0, 0, 0, 0, 0, 0]
        yield LARGE.with_line(6, written(proof))
    for line, right in itertools.product((18, 19, 20), (-10 ** 9, 10 ** 9)):
        changed = LARGE.with_number(line, 1, right)
        yield changed.text()
        yield changed.with_field(2, line - 8, b"1000000")
        alone = [0] * 6 + [10 ** 6 if k == line else 0 for k in range(17, 21)]
        yield changed.with_lines(written([1, k, 0, *alone, *[0] * 6])
                                 for k in range(1, 11))


def bytewise():
    """Each front of the proof lines, and each byte left out or changed."""
    rest = b"".join(line + b"\n" for line in WORKED.lines())
    others = itertools.cycle([b" ", b"0", b"x", b"-", b"\n", b"9", b"\x00"])
    for k in range(len(rest)):
        yield WORKED.with_rest(rest[:k] + rest[k + 1:])
        if k % 4 == 0:
            yield WORKED.with_rest(rest[:k])
        elif k % 4 == 1:
            yield WORKED.with_rest(rest[:k] + next(others) + rest[k + 1:])
        elif k % 8 == 2:
            yield WORKED.with_rest(rest[:k] + next(others) + rest[k:])


def edited(certificate, draw):
    """A text with one edit that is drawn."""
    kind = draw.below(6)
    k = draw.below(len(certificate.proofs))
    fields = certificate.proofs[k]
    j = draw.below(len(fields))
    if kind == 0:
        return certificate.with_field(k, j, b"%d" % draw.between(-1, 12))
    if kind == 1:
        other = draw.below(len(fields))
        swapped = replaced(fields, j, fields[other])
        return certificate.with_fields(k, replaced(swapped, other, fields[j]))
    if kind == 2:
        return certificate.with_fields(k, fields[:j] + fields[j + 1:])
    if kind == 3:
        other = draw.one_of(certificate.proofs)
        return certificate.with_fields(k, fields[:2] + other[2:])
    line, field, number = draw.one_of(list(certificate.numbers())[2:])
    more = draw.one_of([-2, -1, 1, 2]) * (1 if kind == 4 else 7)
    return certificate.with_number(line, field, number + more).text()


def drawn_edits():
    """Certificates of all shapes with an edit that is drawn."""
    draw = Draw(5)
    for certificate in [*all_shapes(), *small()]:
        size = len(certificate.text())
        for _ in range(0 if size > 2_500 else 2 if size > 800 else 4):
            yield edited(certificate, draw)


GROUPS = [accepted, any_order, multiples, other_sizes, other_laws,
          line_feeds, blank_lines, spaces, pair_numbers, every_multiplier,
          counts, long_numbers, faults_in_a_line, faults_in_lines,
          named_twice, missing, steps, columns, head_steps, right_sides,
          scale_zero, large, bytewise, drawn_edits]
