"""The weights of one pipeline and the table of its backorders (MODEL, Weights of a pipeline, The table of a pipeline)."""

from collections import namedtuple
from functools import lru_cache

from intervals import add, ceil_div, div, exact, less, max_of, mul, one, times

LAST_STOCK = 63
LAST_INDEX = 1024
SMALL_REMAINDER = 256

# the weights u(0) .. u(K) and their sum with the remainder
Weights = namedtuple("Weights", "entries sum")
# for each stock the backorders E, their variance V and the tail G; of the last stock there is no tail
Table = namedtuple("Table", "backorders variances tails")


class Ratios:
    """The ratios of neighbouring weights for a mean m and an excess d."""

    def __init__(self, bits, mean, excess):
        self.bits, self.mean, self.excess = bits, mean, excess
        self.one_and_excess = add(exact(bits, 1), excess)

    def upper(self, x):
        return add(self.mean, times(self.excess, x - 1))

    def ratio(self, x):
        """ratio(x) = (m + (x - 1) d) / (x (1 + d))"""
        return div(self.bits, self.upper(x), times(self.one_and_excess, x))

    def back(self, x):
        """back(x) = (x (1 + d)) / (m + (x - 1) d)"""
        return div(self.bits, times(self.one_and_excess, x), self.upper(x))

    def pivot(self):
        return max(0, self.mean[0] - self.excess[1]) >> self.bits

    def remainder(self, index, weight):
        """What the weights past this index come to at most, or None if there is no such bound."""
        unit = one(self.bits)
        last = ceil_div(self.excess[1] * unit, unit + self.excess[1])
        rho = max(self.ratio(index + 1)[1], last)
        return ceil_div(weight[1] * rho, unit - rho) if rho < unit else None


def weights(bits, mean, excess):
    """The weights up to the index K with their sum, or None if they are Wide."""
    ratios = Ratios(bits, mean, excess)
    pivot = ratios.pivot()
    entries = [exact(bits, 1)]
    for x in range(pivot, 0, -1):
        entries.append(mul(bits, entries[-1], ratios.back(x)))
    entries.reverse()
    while True:
        index = len(entries) - 1
        if index >= max(pivot + 1, LAST_STOCK):
            remainder = ratios.remainder(index, entries[index])
            if index == LAST_INDEX or remainder is not None and remainder <= SMALL_REMAINDER:
                break
        entries.append(mul(bits, entries[index], ratios.ratio(index + 1)))
    if remainder is None or max(entry[1] for entry in entries) > 8 * one(bits):
        return None
    return Weights(entries, (sum(entry[0] for entry in entries), sum(entry[1] for entry in entries) + remainder))


@lru_cache(maxsize=200000)
def table(bits, mean, variance, most=LAST_STOCK):
    """The table of a pipeline for the stocks from 0 to `most`."""
    if mean[1] == 0:
        return Table([(0, 0)] * (most + 1), [(0, 0)] * (most + 1), [(0, 0)] * most)
    excess = less(div(bits, variance, mean), exact(bits, 1))
    known = weights(bits, mean, excess)
    if known is None:
        return wide_table(bits, mean, variance, most)
    return known_table(bits, mean, variance, known, most)


def wide_table(bits, mean, variance, most):
    """The table if the weights are Wide."""
    backorders = [(max(0, mean[0] - stock * one(bits)), mean[1]) for stock in range(most + 1)]
    return Table(backorders, [(0, max_of(variance, mean)[1])] * (most + 1), [(0, one(bits))] * most)


def known_table(bits, mean, variance, known, most):
    """The table by its two steps from one stock to the next."""
    backorders, variances, tails, chances = [mean], [max_of(variance, mean)], [], (0, 0)
    for stock in range(most):
        chances = add(chances, div(bits, known.entries[stock], known.sum))
        tail = less(exact(bits, 1), chances)
        tails.append(tail)
        backorders.append(less(backorders[stock], tail))
        fall = mul(bits, add(times(backorders[stock + 1], 2), tail), less(exact(bits, 1), tail))
        variances.append(less(variances[stock], fall))
    return Table(backorders, variances, tails)
