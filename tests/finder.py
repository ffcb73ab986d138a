"""A finder of multipliers for the test texts: an exact simplex.

A face is proved for a region by multipliers of the rows of the region's
system whose columns sum to the face. The finder takes those whose right
sides sum to the least. It is used only to make texts; whether they are
accepted is for the model to say.

It works on whole numbers: all entries of the table are over one common
denominator, the last pivot.
"""

from fractions import Fraction
from math import gcd

import model


class Table:
    """Equations over the multipliers, one for each column of the rows.

    Each equation has an entry for each multiplier, and at its end the entry
    of the face. The cost has an entry for each multiplier, and at its end
    the sum of the right sides, negated.
    """

    def __init__(self, rows, target):
        self.equations = [[row.coefficients[j] for row in rows] + [entry]
                          for j, entry in enumerate(target)]
        self.cost = [row.right for row in rows] + [0]
        self.basis = [None] * len(target)
        self.denominator = 1

    def pivot(self, place, entering):
        """Let a multiplier enter the basis at an equation."""
        chosen = self.equations[place]
        if chosen[entering] < 0:
            chosen = model.negated(chosen)
            self.equations[place] = chosen
        pivot, old = chosen[entering], self.denominator
        for k, equation in enumerate(self.equations):
            if k != place:
                self.equations[k] = cleared(equation, chosen, entering, old)
        self.cost = cleared(self.cost, chosen, entering, old)
        self.denominator = pivot
        self.basis[place] = entering

    def entering(self):
        """The first multiplier that lowers the cost, or None."""
        return next((k for k, entry in enumerate(self.cost[:-1])
                     if entry < 0), None)

    def leaving(self, entering):
        """The equation whose multiplier is the first to reach 0, or None."""
        best = None
        for place, equation in enumerate(self.equations):
            if equation[entering] <= 0:
                continue
            if best is not None:
                other = self.equations[best]
                sides = (equation[-1] * other[entering],
                         other[-1] * equation[entering])
                later = self.basis[place] > self.basis[best]
                if sides[0] > sides[1] or (sides[0] == sides[1] and later):
                    continue
            best = place
        return best

    def multipliers(self):
        """The multipliers of the basis, times the denominator."""
        found = [0] * (len(self.cost) - 1)
        for place, k in enumerate(self.basis):
            found[k] = self.equations[place][-1]
        return found

    def ray(self, entering):
        """Multipliers of the basis and an entering one that sum to 0."""
        found = [0] * (len(self.cost) - 1)
        found[entering] = self.denominator
        for place, k in enumerate(self.basis):
            found[k] = -self.equations[place][entering]
        return found


def cleared(equation, chosen, entering, old):
    """An equation without the entering multiplier."""
    pivot, factor = chosen[entering], equation[entering]
    return [(pivot * x - factor * y) // old
            for x, y in zip(equation, chosen)]


def last_column(row):
    """The last column in which a row is not 0, or None."""
    return max((j for j, x in enumerate(row.coefficients) if x), default=None)


def started(rows, target):
    """A table with a first basis: for each column a row that ends in it."""
    table = Table(rows, target)
    for j in reversed(range(len(target))):
        wanted = table.equations[j][-1]
        chosen = next(k for k, row in enumerate(rows)
                      if last_column(row) == j
                      and row.coefficients[j] * wanted >= 0)
        table.pivot(j, chosen)
    return table


def reduced(scale, multipliers):
    """A proof in its lowest terms."""
    common = gcd(scale, *multipliers)
    return model.Proof(scale // common, [x // common for x in multipliers])


def least(rows, target):
    """A table of the least sum, and the multiplier that lowers it endlessly.

    The second is None where there is a least sum. Otherwise the rows cannot
    hold together.
    """
    table = started(rows, target)
    while True:
        entering = table.entering()
        if entering is None:
            return table, None
        place = table.leaving(entering)
        if place is None:
            return table, entering
        table.pivot(place, entering)


def most(rows, target):
    """The most that the rows let the target be, or None if they contradict."""
    table, endless = least(rows, target)
    if endless is not None:
        return None
    return Fraction(-table.cost[-1], table.denominator)


def proof(rows, target, right):
    """The proof of a face with the least sum of right sides, or None."""
    table, endless = least(rows, target)
    if endless is not None:
        return reduced(0, table.ray(endless))
    if -table.cost[-1] > right * table.denominator:
        return None
    return reduced(table.denominator, table.multipliers())


def certificate(law, case):
    """The proof lines of a case as lists of numbers, or None."""
    lines = []
    for region in range(1, law.regions() + 1):
        rows = model.system(case, law, region)
        for place, face in enumerate(case.faces(), 1):
            target = model.over_next(case, face)
            found = proof(rows, target, face.right)
            if found is None or not is_written(found):
                return None
            lines.append([region, place, found.scale, *found.multipliers])
    return lines


def is_written(found):
    """Whether the numbers of a proof are within the limits of its line."""
    return max(found.scale, *found.multipliers) <= model.MULTIPLIER.high
