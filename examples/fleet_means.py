"""What follows from a fleet's tables without the program: the mean of each pipeline without any stock, the rates that are refused
for it, and how many tables of backorders a plan needs.

This module is no script. docs/CERTIFICATE.md has the formulas, under "The model in short"; all values are exact.
"""

from collections import namedtuple
from fractions import Fraction

MOST_WORK = 1000000
MOST_COUNT = 2**64 - 1

# demand per year; the direct part, which needs no other pipeline; the mean without any stock
Pipeline = namedtuple('Pipeline', 'demand direct mean')


class FamilyRates:
    """The rates of a line unit (0) and its shop units at the depot (0) and the bases, in years and fractions."""

    def __init__(self, fleet, family):
        self.units = range(1, len(family))
        self.bases = range(1, len(fleet.sites))
        rates = [[fleet.rates[part.name, site.name] for site in fleet.sites] for part in family]
        self.demand = [Fraction(rate.demand or 0, 10**4) for rate in rates[0]]
        self.here = [[Fraction(rate.repair_here or 0, 10**4) for rate in row] for row in rates]
        self.share = [[Fraction(rate.share or 0, 10**4) for rate in row] for row in rates]
        self.repair = [[Fraction(rate.repair_days, 36500) for rate in row] for row in rates]
        self.ship = [Fraction(site.ship_days or 0, 36500) for site in fleet.sites]

    def sent(self, unit, base, demand):
        """What a base sends to the depot."""
        return demand * (1 - self.here[unit][base])

    def at_base(self, unit, base, demand):
        """The direct part of a pipeline at a base: units that are shipped and units that are repaired."""
        repaired = demand * self.here[unit][base]
        return self.sent(unit, base, demand) * self.ship[base] + repaired * self.repair[unit][base]

    def pipelines(self):
        """The pipelines by unit and site."""
        found = {}
        line_sent = sum(self.sent(0, base, self.demand[base]) for base in self.bases)
        wait = self.repair[0][0] + sum(self.share[unit][0] * self.repair[unit][0] for unit in self.units)
        found[0, 0] = Pipeline(line_sent, line_sent * self.repair[0][0], line_sent * wait)
        for unit in self.units:
            demands = {base: self.demand[base] * self.here[0][base] * self.share[unit][base] for base in self.bases}
            at_depot = (
                sum(self.sent(unit, base, demands[base]) for base in self.bases) + line_sent * self.share[unit][0]
            )
            found[unit, 0] = Pipeline(at_depot, at_depot * self.repair[unit][0], at_depot * self.repair[unit][0])
            for base, demand in demands.items():
                direct = self.at_base(unit, base, demand)
                found[unit, base] = Pipeline(
                    demand, direct, direct + self.sent(unit, base, demand) * self.repair[unit][0]
                )
        for base in self.bases:
            demand = self.demand[base]
            direct = self.at_base(0, base, demand)
            waiting = self.sent(0, base, demand) * wait + sum(found[unit, base].mean for unit in self.units)
            found[0, base] = Pipeline(demand, direct, direct + waiting)
        return found


def is_known(fleet, family):
    """Whether all numbers that the pipelines of a family need are right."""
    return all(fleet.rates.get((part.name, site.name)) is not None for part in family for site in fleet.sites) and all(
        site.ship_days is not None for site in fleet.bases
    )


def pipelines_of(fleet):
    """The pipelines of all families whose numbers are right, by the names of part and site; none unless there is one depot."""
    found = {}
    if [site.is_depot for site in fleet.sites] != [True] + [False] * len(fleet.bases):
        return found
    for family in fleet.families:
        if is_known(fleet, family):
            for (unit, site), pipeline in FamilyRates(fleet, family).pipelines().items():
                found[family[unit].name, fleet.sites[site].name] = pipeline
    return found


def refusal_of(pipeline):
    """Why a pipeline is refused, as the fault's name and in words, or None."""
    if pipeline.demand > 0 and pipeline.direct * 10**7 < 1:
        return 'thin-pipeline', 'there is demand, but no time passes: is ship_days or repair_days missing?'
    if pipeline.mean > 256:
        return (
            'pipeline-too-large',
            'without any stock %.1f units are on their way, where 256 are the most: look at demand and days'
            % pipeline.mean,
        )
    if pipeline.mean > 1024 * pipeline.direct:
        return 'pipeline-ratio', 'nearly all of it waits elsewhere: its own ship_days and repair_days are nearly 0'
    return None


def product(numbers):
    result = 1
    for number in numbers:
        result *= number
    return result


def tables_of(family, bases, limits, held=None):
    """How many tables a family needs: for limits as pairs (at the depot, at each base) in the order of its parts, and for what is
    held already, as a list for the depot and one for each base."""
    held = held or [[0] * len(family)] * (bases + 1)
    at_depot = [depot - least + 1 for (depot, _), least in zip(limits, held[0])]
    units = product(at_depot[1:])
    at_bases = sum(product(base - least + 1 for (_, base), least in zip(limits[1:], row[1:])) for row in held[1:])
    return len(family) - 1 + units + bases * sum(at_depot[1:]) + at_depot[0] * units * at_bases


def limits_of(family):
    return [(part.max_depot, part.max_base) for part in family]


def work_of(fleet, held=None):
    """How many tables a plan of the fleet needs, from nothing or from stocks that are held; its limits must be right."""
    count = 0
    for family in fleet.families:
        rows = None
        if held is not None:
            rows = [[held[part.name, site.name] for part in family] for site in fleet.sites]
        count += tables_of(family, len(fleet.bases), limits_of(family), rows)
    return min(count, MOST_COUNT)
