"""The points of a sweep and what a target costs (MODEL, Sweeps and targets)."""

from collections import namedtuple

from choice import steps_of
from intervals import ceil_div, decimal_text, text_of
from planning import BITS, price_text

# the state after some steps; its price is the next step's, or None
State = namedtuple("State", "cost lo hi price")


def state_of(curves, picks, price):
    points = [curve[place] for curve, place in zip(curves, picks)]
    cost, lo, hi = (sum(getattr(point, field) for point in points) for field in ("cost", "lo", "hi"))
    return State(cost, lo, hi, price)


def sweep_of(curves):
    """The states from no step to all of them."""
    picks, states = [0] * len(curves), []
    for step in steps_of(curves):
        states.append(state_of(curves, picks, (step.fall, step.rise)))
        picks[step.family] = step.place
    return states + [state_of(curves, picks, None)]


def sweep_lines(states):
    lines = ["sweep,%d" % len(states)]
    for state in states:
        price = price_text(state.price) if state.price else "none"
        lines.append("point,%d,%s,%s" % (state.cost, text_of(BITS, (state.lo, state.hi)), price))
    return lines


def reach_of(states, target):
    """The first state whose `hi` is at most the target, in ten-thousandths, or None."""
    return next((state for state in states if state.hi <= (target << BITS) // 10**4), None)


def at_least(states, target):
    """What all stocks that reach the target cost at least, or None if there are none."""
    x = ceil_div(target << BITS, 10**4)
    if states[-1].lo > x:
        return None
    costs = [0]
    for state in states[:-1]:
        p, q = state.price
        costs.append(ceil_div(q * state.lo + p * state.cost - q * x, p))
    return max(costs)


def target_lines(states, target):
    reach, least = reach_of(states, target), at_least(states, target)
    shown = "none" if reach is None else "%d,%s" % (reach.cost, text_of(BITS, (reach.lo, reach.hi)))
    return ["target," + decimal_text(target, 4), "reach," + shown, "at-least,%s" % ("none" if least is None else least)]
