"""Intervals and their printed ends (MODEL, Intervals).

An interval is a pair (lo, hi) of whole numbers in units of 2^-bits.
"""


def ceil_div(number, divisor):
    """The exact quotient, rounded up."""
    return -(-number // divisor)


def one(bits):
    """The value 1 in units of 2^-bits."""
    return 1 << bits


def exact(bits, whole):
    return (whole << bits, whole << bits)


def of_ratio(bits, fraction):
    """The interval of a fraction: its numerator over its denominator, rounded down and up."""
    shifted = fraction.numerator << bits
    return (shifted // fraction.denominator, ceil_div(shifted, fraction.denominator))


def add(a, b):
    return (a[0] + b[0], a[1] + b[1])


def less(a, b):
    return (max(0, a[0] - b[1]), max(0, a[1] - b[0]))


def times(a, whole):
    return (a[0] * whole, a[1] * whole)


def over(a, whole):
    return (a[0] // whole, ceil_div(a[1], whole))


def mul(bits, a, b):
    return (a[0] * b[0] >> bits, -(-a[1] * b[1] >> bits))


def div(bits, a, b):
    return ((a[0] << bits) // b[1], -(-(a[1] << bits) // b[0]))


def max_of(a, b):
    return (max(a[0], b[0]), max(a[1], b[1]))


def capped(a, cap):
    return (min(a[0], cap), min(a[1], cap))


def sum_of(intervals):
    """The sum by `add`, from `exact(0)` on."""
    total = (0, 0)
    for interval in intervals:
        total = add(total, interval)
    return total


def decimal_text(units, places):
    """A whole number of units of the last decimal as a decimal with exactly these places."""
    if places == 0:
        return str(units)
    return "%d.%0*d" % (units // 10**places, places, units % 10**places)


def text_down(bits, end, places=6):
    """An end as a decimal, rounded down."""
    return decimal_text(end * 10**places >> bits, places)


def text_up(bits, end, places=6):
    """An end as a decimal, rounded up."""
    return decimal_text(ceil_div(end * 10**places, 1 << bits), places)


def text_of(bits, interval):
    """Both ends with 6 decimals, the lower one rounded down and the upper one rounded up."""
    return text_down(bits, interval[0]) + "," + text_up(bits, interval[1])
