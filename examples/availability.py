#!/usr/bin/env python3
"""The availability of the fleet and of each base over the money, by both aims, as a table and as a picture.

    python3 examples/availability.py --sites F --parts F --rates F [--on-hand F] [--from COST] [--to COST] [--points N]
        [--reach SHARE] [--picture F] [--program F] > availability.csv

From nothing it asks `spares sweep` for its points: budgets at which a plan by backorders ends without a gap, but for
rounding. If over N of them are in the window (24 if --points is left out), it takes one in each of N equal parts of it.
From stocks on hand it takes N equally spaced budgets. Without --to the window ends at what all steps cost, or at a half
of it, a quarter and so on, as long as a plan by backorders there has an availability of 0.99, or that of --reach, and
the least budget hasn't. At each budget it plans by both aims, with `spares session` and `spares plan`. The table has one
row for each aim and budget:

    aim,budget,cost,fleet_low,fleet_high,total_low,total_high,loss_low,loss_high,bound,gap, and BASE_low,BASE_high for each base

With --reach it prints only the row of the plan that costs least among those whose fleet_low is at least this share, as
0.95: of these budgets, and of 15 between the cheapest of them and the one before. If there is none, it says so on the
standard error, with the status 1. --picture writes an SVG picture of all rows.

Proved is of each row: the intervals enclose the model's values for the stocks of that plan, and no stocks within the
limits that cost at most the budget have less than `bound` backorders, or loss if that is the aim. Not proved is that no
cheaper stocks reach as large an availability: a plan makes backorders or the loss small, not the availability large.
Wrong words or tables are one line on the standard error, with the status 2.
"""

import argparse
import csv
import re
import sys

from fleet_tables import Refused, whole
from pictures import COLOURS, INK, LEFT, Picture, ticks
from reports import NOWHERE, Program, Words, micro, run_script, whole_number, write_file
from sweep import planned

AIMS = ('backorders', 'log-availability')
MOST_BUDGET = 10**15
CLOSER = 17  # budgets of a closer look, with both ends
READY = 990000  # the availability, in millionths, with which a window ends if none is asked for


def share(text):
    """A share from 0 to 1 in millionths."""
    found = re.fullmatch(r'([01])(?:\.([0-9]{1,6}))?', text)
    millionths = int(found.group(1)) * 10**6 + int((found.group(2) or '').ljust(6, '0')) if found else None
    if found is None or millionths > 10**6:
        raise argparse.ArgumentTypeError('%s is no share from 0 to 1 with at most 6 decimals' % ascii(text))
    return millionths


def count(text):
    if not re.fullmatch('[0-9]{1,3}', text) or not 2 <= int(text) <= 500:
        raise argparse.ArgumentTypeError('%s is no number of points from 2 to 500' % ascii(text))
    return int(text)


def thinned(costs, most):
    """At most so many of some costs: the first in each equal part of their span, and the last."""
    if len(costs) <= most:
        return costs
    least, span = costs[0], costs[-1] - costs[0]
    kept = {}
    for cost in costs[:-1]:
        kept.setdefault((cost - least) * (most - 1) // span, cost)
    return list(kept.values()) + [costs[-1]]


class Planner:
    """Plans by both aims, from nothing or from stocks on hand."""

    def __init__(self, words):
        self.program = Program(words)
        self.held = ['--on-hand', words.on_hand] if words.on_hand else []

    def plan(self, aim, budget):
        words = ['--budget', budget, '--objective', aim, '--certificate', NOWHERE]
        return self.program.report('plan', *words, *self.held)

    def plans(self, budgets):
        """The plans as triples of aim, budget and report."""
        if self.held:
            first = [self.plan(AIMS[0], budget) for budget in budgets]
        else:
            first = planned(self.program, budgets)
        second = [self.plan(AIMS[1], budget) for budget in budgets]
        return [(aim, *pair) for aim, reports in zip(AIMS, (first, second)) for pair in zip(budgets, reports)]

    def fleet_low(self, budget):
        return micro(self.plan(AIMS[0], budget).one('fleet')['low'])

    def far_enough(self, least, most, share):
        """The end of a window that begins at the least: the most, or a half of the way, a quarter and so on, as long as a plan there
        has this availability. Where the least has it, it is the most.
        """
        if self.fleet_low(least) >= share:
            return most
        while self.fleet_low((least + most) // 2) >= share:
            most = (least + most) // 2
        return most

    def budgets(self, words):
        """The budgets that are asked for."""
        costs = []
        if not self.held:
            costs = [int(point['cost']) for point in self.program.report('sweep').all('point')]
        most = words.most
        if most is None:
            whole = costs[-1] if costs else int(self.plan(AIMS[0], MOST_BUDGET).one('hull')['cost'])
            most = self.far_enough(words.least, max(words.least + 1, whole), words.reach or READY)
        if self.held:
            return evenly(words.least, most, words.points)
        inside = [cost for cost in costs if words.least <= cost <= most]
        if not inside:
            raise Refused('no point of the sweep lies between %d and %d' % (words.least, most))
        return thinned(inside, words.points)


def evenly(least, most, count):
    """So many budgets with equal steps between them, or fewer if the steps would be below 1."""
    return sorted({least + (most - least) * k // (count - 1) for k in range(count)})


def cheapest(plans, share):
    """The plan that costs least among those with at least this availability, or None."""
    reaching = [plan for plan in plans if micro(plan[2].one('fleet')['low']) >= share]
    return min(reaching, key=lambda plan: int(plan[2].one('cost')['cost'])) if reaching else None


def reaching(planner, plans, share):
    """The cheapest plan that reaches a share, also among budgets between the cheapest of these and the budget before it."""
    found = cheapest(plans, share)
    if found is None:
        return []
    below = max((budget for _, budget, _ in plans if budget < found[1]), default=found[1])
    closer = planner.plans(evenly(below, found[1], CLOSER)[1:-1])
    return [cheapest([found] + closer, share)]


COLUMNS = 'aim budget cost fleet_low fleet_high total_low total_high loss_low loss_high bound gap'.split()


def header_of(fleet):
    """The columns of the table; a base with the name of another column gets the word `base` before it."""
    names = [site.name if site.name + '_low' not in COLUMNS else 'base ' + site.name for site in fleet.bases]
    return COLUMNS + ['%s_%s' % (name, end) for name in names for end in ('low', 'high')]


def row_of(aim, budget, report):
    ranges = [report.one('fleet'), report.one('total'), report.one('loss') or {'low': '', 'high': ''}]
    ends = [fields[end] for fields in ranges for end in ('low', 'high')]
    bases = [base[end] for base in report.all('base') for end in ('low', 'high')]
    return [
        aim,
        budget,
        report.one('cost')['cost'],
        *ends,
        report.one('bound')['value'],
        report.one('gap')['value'],
        *bases,
    ]


def lines_of(fleet, plans):
    """What the picture shows: a name, a colour, and for each aim the points of a line, from lower ends of availability."""
    yield 'fleet', INK, 2.5, lambda report: report.one('fleet')['low']
    for place, site in enumerate(fleet.bases):
        yield site.name, COLOURS[place % len(COLOURS)], 1, lambda report, place=place: report.all('base')[place]['low']


def picture_of(words, fleet, plans):
    lines = list(lines_of(fleet, plans))
    values = [float(value(report)) for _, _, _, value in lines for _, _, report in plans]
    budgets = [budget for _, budget, _ in plans]
    picture = Picture(
        ticks(max(budgets), min(budgets)),
        ticks(1, min(values)),
        ('money beyond what is on hand' if words.on_hand else 'money', 'availability'),
        560,
        210,
    )
    picture.frame()
    for place, (name, colour, width, value) in enumerate(lines):
        for aim, dashes in zip(AIMS, ('', ' stroke-dasharray="5 4"')):
            points = [(budget, float(value(report))) for kind, budget, report in plans if kind == aim]
            picture.path(points, 'stroke="%s" stroke-width="%g" fill="none"%s' % (colour, width, dashes))
            for budget, high in points if width > 2 else []:
                picture.dot(budget, high, colour, 2)
        y = 66 + 20 * place
        picture.parts.append('<path d="M706 %d h26" stroke="%s" stroke-width="%g"/>' % (y, colour, width))
        picture.words(740, y + 4, name)
    y = 66 + 20 * len(lines) + 12
    for place, (aim, dashes) in enumerate(zip(AIMS, ('', ' stroke-dasharray="5 4"'))):
        picture.parts.append('<path d="M706 %d h26" stroke="%s"%s/>' % (y + 20 * place, INK, dashes))
        picture.words(740, y + 20 * place + 4, 'by ' + aim)
    if words.reach is not None and picture.upwards[0] <= words.reach / 10**6 <= picture.upwards[-1]:
        picture.path(
            [(picture.across[0], words.reach / 10**6), (picture.across[-1], words.reach / 10**6)],
            'stroke="#b03a5b" stroke-dasharray="2 3" fill="none"',
        )
    picture.words(LEFT, 24, 'Supply availability over the money. Each dot is a plan; lines only join them.')
    picture.words(
        LEFT,
        40,
        'Proved: the value of each plan. Not proved: that no cheaper stocks reach it.',
        'font-size="12" fill="#555555"',
    )
    return picture.text()


def main():
    words = Words(__doc__)
    words.tables('sites', 'parts', 'rates', 'on-hand')
    words.add_argument('--from', dest='least', metavar='COST', type=whole_number, default=0)
    words.add_argument('--to', dest='most', metavar='COST', type=whole_number)
    words.add_argument('--points', metavar='N', type=count, default=24)
    words.add_argument('--reach', metavar='SHARE', type=share)
    words.add_argument('--picture', metavar='F')
    words.program()
    words = words.parse_args()
    if words.most is not None and words.least >= words.most:
        raise Refused('--from must be below --to')
    names = {'sites': words.sites, 'parts': words.parts, 'rates': words.rates, 'on-hand': words.on_hand}
    fleet = whole(names).fleet
    planner = Planner(words)
    plans = planner.plans(planner.budgets(words))
    if words.picture:
        write_file(words.picture, picture_of(words, fleet, plans), names.values())
    shown = plans if words.reach is None else reaching(planner, plans, words.reach)
    writer = csv.writer(sys.stdout, lineterminator='\n')
    writer.writerow(header_of(fleet))
    writer.writerows(row_of(*plan) for plan in shown)
    if not shown:
        sys.stderr.write('availability.py: no plan of these budgets reaches this share: raise --to, or the limits of the parts\n')
        return 1
    return 0


if __name__ == '__main__':
    run_script(main)
