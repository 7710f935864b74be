"""What a line unit's backorders at a base count for (MODEL, Curves of points, The loss of availability)."""

from functools import lru_cache

from intervals import add, capped, ceil_div, mul, one, over, times

BITS = 48
LAST_TERM = 256
LARGEST_SHARE = 7 << BITS - 3


def plain_score(systems, part, backorders):
    """The weight times the backorders."""
    return times(backorders, part.weight)


def loss_score(systems, part, backorders):
    """N Z loss(y) for the share y of places that the backorders leave empty."""
    share = capped(over(backorders, systems * part.per_system), LARGEST_SHARE)
    return times(times(log_series(share), part.per_system), systems)


@lru_cache(maxsize=100000)
def log_series(share):
    """y + y^2/2 + .. + y^256/256, and above what all later terms come to at most."""
    total, power = (0, 0), share
    for k in range(1, LAST_TERM + 1):
        total = add(total, over(power, k))
        power = mul(BITS, power, share)
    unit = one(BITS)
    return (total[0], total[1] + ceil_div(power[1] * unit, (LAST_TERM + 1) * (unit - share[1])))


SCORES = {"backorders": plain_score, "log-availability": loss_score}
