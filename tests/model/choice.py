"""The choice under a budget: the hull choice, its filling, the bound and the rounding (MODEL, The choice under a budget)."""

from collections import namedtuple
from fractions import Fraction

from curves import least_lagrangian

# a step of a family from the vertex before this place to the vertex at it
Step = namedtuple("Step", "family place fall rise")
# picks are one place of each curve; `critical` is the step that doesn't fit, or None
HullChoice = namedtuple("HullChoice", "picks cost price critical")
# `lo` and `hi` are the ends of the aim at the filled picks
Plan = namedtuple("Plan", "budget vertices cost lo hi price floors bound rounding hull critical")


def steps_of(curves):
    """The steps of all curves: the largest fall per money first, then by family, then by place."""
    steps = []
    for family, curve in enumerate(curves):
        for place in range(1, len(curve)):
            before, after = curve[place - 1], curve[place]
            steps.append(Step(family, place, before.lo - after.lo, after.cost - before.cost))
    return sorted(steps, key=lambda step: (-Fraction(step.fall, step.rise), step.family, step.place))


def hull_choice(curves, budget):
    """The longest prefix of the steps that costs at most the budget."""
    picks = [0] * len(curves)
    cost = sum(curve[0].cost for curve in curves)
    for step in steps_of(curves):
        if cost + step.rise > budget:
            return HullChoice(picks, cost, (step.fall, step.rise), step)
        picks[step.family] = step.place
        cost += step.rise
    return HullChoice(picks, cost, (0, 1), None)


def best_change(curves, picks, room):
    """The change that fits and lowers `hi` most, as (family, place), or None. Of equal ones it is the first."""
    best, most = None, 0
    for family, curve in enumerate(curves):
        here = curve[picks[family]]
        for place, point in enumerate(curve):
            if point.cost - here.cost <= room and here.hi - point.hi > most:
                best, most = (family, place), here.hi - point.hi
    return best


def filled(curves, picks, budget):
    """The filling of picks."""
    picks = list(picks)
    while True:
        cost = sum(curve[place].cost for curve, place in zip(curves, picks))
        change = best_change(curves, picks, budget - cost)
        if change is None:
            return picks
        picks[change[0]] = change[1]


def largest_bound(floors, price, budget):
    """max(0, floor((sum of floors - P * B) / Q))"""
    return max(0, (sum(floors) - price[0] * budget) // price[1])


def rounding_of(curves, hull):
    """The widths at the hull choice's vertices and at the critical vertex, and 1."""
    points = [curve[place] for curve, place in zip(curves, hull.picks)]
    if hull.critical:
        points.append(curves[hull.critical.family][hull.critical.place])
    return sum(point.hi - point.lo for point in points) + 1


def plan_of(curves, budget):
    """The plan of curves: the filled hull choice with its floors, bound and rounding."""
    hull = hull_choice(curves, budget)
    picks = filled(curves, hull.picks, budget)
    vertices = [curve[place] for curve, place in zip(curves, picks)]
    floors = [least_lagrangian(curve, hull.price) for curve in curves]
    lo, hi, cost = (sum(getattr(point, field) for point in vertices) for field in ("lo", "hi", "cost"))
    bound = largest_bound(floors, hull.price, budget)
    rounding = rounding_of(curves, hull)
    return Plan(budget, vertices, cost, lo, hi, hull.price, floors, bound, rounding, hull.cost, hull.critical)
