"""Demands, shares, direct pipelines and zero-stock means in fractions (MODEL, The model of a fleet)."""

from collections import namedtuple
from fractions import Fraction

from cases import family_of, lines_of, names_of, pairs_of
from refusals import Refusal

THINNEST = Fraction(1, 10**7)
LARGEST_MEAN = 256
LARGEST_RATIO = 1024

# by pair: the demand m, the share f, the direct pipeline D and the zero-stock mean M
Demands = namedtuple("Demands", "demand share direct mean")


def quotient(numerator, denominator):
    """A quotient of fractions; by 0 it is 0."""
    return numerator / denominator if denominator else Fraction(0)


class Inputs:
    """A family's inputs: T in years of 365 days, r and q as fractions. The line unit is part 0, the depot site 0."""

    def __init__(self, case, line):
        self.members = family_of(case, line)
        self.bases = range(1, len(case.sites))
        self.shops = range(1, len(self.members))
        self.case = case

    def rate(self, i, j):
        return self.case.rates[self.members[i], j]

    def m(self, j):
        return Fraction(self.rate(0, j).demand, 10**4)

    def r(self, i, j):
        return Fraction(self.rate(i, j).repair_here, 10**4)

    def q(self, i, j):
        return Fraction(self.rate(i, j).share, 10**4)

    def T(self, i, j):
        return Fraction(self.rate(i, j).days, 100 * 365)

    def O(self, j):
        return Fraction(self.case.sites[j].days, 100 * 365)


def family_demands(inputs):
    """The demands m by part and site of a family."""
    r, q, bases = inputs.r, inputs.q, inputs.bases
    m = {(0, j): inputs.m(j) for j in bases}
    m[0, 0] = sum(m[0, j] * (1 - r(0, j)) for j in bases)
    for i in inputs.shops:
        for j in bases:
            m[i, j] = m[0, j] * r(0, j) * q(i, j)
        m[i, 0] = sum(m[i, j] * (1 - r(i, j)) for j in bases) + m[0, 0] * q(i, 0)
    return m


def family_shares(inputs, m):
    """The shares f by part and site of a family. The line unit at the depot has none."""
    f = {(0, j): quotient(m[0, j] * (1 - inputs.r(0, j)), m[0, 0]) for j in inputs.bases}
    for i in inputs.shops:
        f[i, 0] = quotient(m[0, 0] * inputs.q(i, 0), m[i, 0])
        for j in inputs.bases:
            f[i, j] = quotient(m[i, j] * (1 - inputs.r(i, j)), m[i, 0])
    return f


def direct_pipelines(inputs, m):
    """D by part and site of a family."""
    r, T, O = inputs.r, inputs.T, inputs.O
    direct = {}
    for i in range(len(inputs.members)):
        direct[i, 0] = m[i, 0] * T(i, 0)
        for j in inputs.bases:
            direct[i, j] = m[i, j] * ((1 - r(i, j)) * O(j) + r(i, j) * T(i, j))
    return direct


def zero_stock_means(inputs, m, direct):
    """M by part and site of a family."""
    r, q, T, shops = inputs.r, inputs.q, inputs.T, inputs.shops
    mean = {}
    for i in shops:
        mean[i, 0] = direct[i, 0]
        for j in inputs.bases:
            mean[i, j] = direct[i, j] + m[i, j] * (1 - r(i, j)) * T(i, 0)
    mean[0, 0] = direct[0, 0] + sum(m[0, 0] * q(i, 0) * T(i, 0) for i in shops)
    for j in inputs.bases:
        waits = T(0, 0) + sum(q(i, 0) * T(i, 0) for i in shops)
        mean[0, j] = direct[0, j] + m[0, j] * (1 - r(0, j)) * waits + sum(mean[i, j] for i in shops)
    return mean


def demands_of(case):
    """Demands, shares, direct pipelines and zero-stock means of all pairs of a case."""
    found = Demands({}, {}, {}, {})
    for line in lines_of(case):
        inputs = Inputs(case, line)
        m = family_demands(inputs)
        direct = direct_pipelines(inputs, m)
        values = (m, family_shares(inputs, m), direct, zero_stock_means(inputs, m, direct))
        for kept, by_place in zip(found, values):
            for (i, j), value in by_place.items():
                kept[inputs.members[i], j] = value
    return found


def fault_of(case, demands):
    """The first pipeline that is refused, as the name of the rule and the pair, or None (MODEL, What `rates` refuses)."""
    for pair in pairs_of(case):
        direct, mean = demands.direct[pair], demands.mean[pair]
        if demands.demand[pair] > 0 and direct < THINNEST:
            return "thin-pipeline", pair
        if mean > LARGEST_MEAN:
            return "pipeline-too-large", pair
        if mean > LARGEST_RATIO * direct:
            return "pipeline-ratio", pair
    return None


def accepted_demands(case):
    """The demands of a case whose pipelines are all accepted."""
    demands = demands_of(case)
    fault = fault_of(case, demands)
    if fault:
        raise Refusal(3, fault[0], names_of(case, fault[1]))
    return demands
