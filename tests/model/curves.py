"""Curves of points and the curve of a family (MODEL, Curves of points, The curve of a family; CERTIFICATE, Covers)."""

from collections import namedtuple
from itertools import product

from cases import family_of, limit

LARGEST_COUNT = 2**64 - 1
MOST_TABLES = 1000000

Point = namedtuple("Point", "cost lo stocks hi")


def curve_of(points):
    """The curve of points: one point for each place of a vertex, by rising cost.

    Of points with equal cost only the ones with the least `lo` can be vertices; if several are at one place, the curve has the one whose
    stocks come first. A point is no vertex if a cheaper point has no larger `lo`, or if it lies on or above the straight line between two
    others.
    """
    found = []
    for point in sorted(points):
        if found and point.lo >= found[-1].lo:
            continue
        while len(found) > 1 and not is_below(found[-2], found[-1], point):
            found.pop()
        found.append(point)
    return found


def is_below(first, middle, last):
    """Whether a point lies below the straight line between the two beside it."""
    return (first.lo - middle.lo) * (last.cost - middle.cost) > (middle.lo - last.lo) * (middle.cost - first.cost)


def sum_of_points(a, b):
    return Point(a.cost + b.cost, a.lo + b.lo, a.stocks + b.stocks, a.hi + b.hi)


def added(first, second):
    """The curve of all sums of two curves' vertices."""
    return curve_of([sum_of_points(a, b) for a in first for b in second])


def lagrangian(point, price):
    """q lo + p cost at the price p/q."""
    return price[1] * point.lo + price[0] * point.cost


def least_lagrangian(curve, price):
    return min(lagrangian(point, price) for point in curve)


# The curve of a family. A box has a least and a most vector; `held` is the vector of the held stocks.


def cost_above(family, vector, held, places):
    """The cost of a part of a vector above the held stocks; `places` is the slice of that part."""
    costs = zip(vector, held[places], family.costs[places])
    return sum((stock - there) * cost for stock, there, cost in costs)


def vectors_within(least, most):
    """All vectors of a box, in the order of a dictionary."""
    return product(*[range(low, high + 1) for low, high in zip(least, most)])


def base_curve(family, score, box, held, depot, j):
    """The curve of what a base adds, with given stocks at the depot."""
    size = len(family.members)
    places = slice(j * size, (j + 1) * size)
    points = []
    for stocks in vectors_within(box[0][places], box[1][places]):
        backorders = family.base_line(j, depot[0], depot[1:], stocks[1:]).table.backorders[stocks[0]]
        lo, hi = score(family.systems[j], family.part, backorders)
        points.append(Point(cost_above(family, stocks, held, places), lo, stocks, hi))
    return curve_of(points)


def family_curve(family, score, box, held):
    """The curve of a family over a box: for each choice at the depot the curves of the bases are added, and all of these are joined."""
    depot_places = slice(0, len(family.members))
    points = []
    for depot in vectors_within(box[0][depot_places], box[1][depot_places]):
        curve = [Point(cost_above(family, depot, held, depot_places), 0, depot, 0)]
        for j in family.bases:
            curve = added(curve, base_curve(family, score, box, held, depot, j))
        points += curve
    return curve_of(points)


def whole_curve(family, score, held=None):
    """The curve of a family over all vectors from the held stocks to the limits."""
    held = held or (0,) * len(family.limits)
    return family_curve(family, score, (held, tuple(family.limits)), held)


# The work


def tables_within(size, bases, box):
    """The work of a box of a family with `size` parts: I + A + J (sum of a) + a0 A (sum over bases of B)."""
    widths = [high - low + 1 for low, high in zip(*box)]
    depot = widths[:size]
    choices = multiplied(depot[1:])
    base_choices = sum(multiplied(widths[j * size + 1 : (j + 1) * size]) for j in range(1, bases + 1))
    return size - 1 + choices + bases * sum(depot[1:]) + depot[0] * choices * base_choices


def multiplied(numbers):
    result = 1
    for number in numbers:
        result *= number
    return result


def work_of(case, lines, held=None):
    """The tables of all families together, above the held stocks; past 2^64 - 1 it stays there."""
    total = 0
    for line in lines:
        members = family_of(case, line)
        pairs = [(part, site) for site in range(len(case.sites)) for part in members]
        least = [held[pair] if held else 0 for pair in pairs]
        total += tables_within(len(members), len(case.sites) - 1, (least, [limit(case, pair) for pair in pairs]))
    return min(total, LARGEST_COUNT)
