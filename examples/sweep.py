#!/usr/bin/env python3
"""Draws the output of `spares sweep` as an SVG picture, or says what each of its steps buys.

    spares sweep --sites F --parts F --rates F | python3 examples/sweep.py [--from COST] [--to COST] > sweep.svg
    spares sweep --sites F --parts F --rates F | python3 examples/sweep.py --steps --sites F --parts F --rates F \\
        [--from COST] [--to COST] [--program F] > steps.csv

Across is the cost, upwards the total backorders. Each point of the sweep is an allocation. The staircase is what the
points give for a budget: at most so many backorders. Nothing lies in the shaded region: its limit joins the lower ends
of the points. --from and --to show a window of the costs.

With --steps it prints a table: the step from each point in the window to the next, with one row for each part and site
whose stock changes. A step may also drop units, or move them. The stocks come from `spares session`, which plans at the
costs of the points, 64 in one run.

    from_cost,to_cost,total_low,total_high,part,site,before,after,money

`total_low` and `total_high` are the ends of the total after the step, `money` is what the change costs. Input that is
no sweep, a window without a point, and tables that are not the sweep's are one line on the standard error, with the
status 2.
"""

import csv
import os
import sys
import tempfile

from fleet_tables import Refused, whole
from pictures import points_of, sweep_picture
from reports import Program, Words, must_fit, reports_of, run_script, whole_number

MOST_PLANS = 64


def read_sweep():
    """The report on the standard input."""
    reports = reports_of(sys.stdin.buffer.read(), 'the standard input')
    if len(reports) != 1 or reports[0].kind != 'sweep':
        raise Refused('the standard input: one report of sweep is wanted')
    return reports[0]


def planned(program, costs):
    """The plans by `session` at these budgets."""
    plans = []
    for begin in range(0, len(costs), MOST_PLANS):
        with tempfile.TemporaryDirectory() as room:
            edits = os.path.join(room, 'edits.txt')
            with open(edits, 'w') as file:
                file.writelines('budget,%d\nplan\n' % cost for cost in costs[begin : begin + MOST_PLANS])
            plans += program.reports('session', '--edits', edits)
    return plans


def steps(words, points):
    """The rows of the table of steps."""
    fleet = whole({'sites': words.sites, 'parts': words.parts}).fleet
    plans = planned(Program(words), [int(point['cost']) for point in points])
    for point, plan in zip(points, plans):
        must_fit(plan, fleet, 'spares session')
        total = plan.one('total')
        if (plan.one('cost')['cost'], total['low'], total['high']) != (point['cost'], point['low'], point['high']):
            raise Refused(
                'the plan at the point %s costs %s and has another total: the sweep is of other tables'
                % (point['cost'], plan.one('cost')['cost'])
            )
    rows = []
    for before, after, plan, then in zip(points, points[1:], plans, plans[1:]):
        stocks = then.stocks()
        for (part, site), stock in plan.stocks().items():
            if stocks[part, site] != stock:
                money = fleet.part[part].cost * (stocks[part, site] - stock)
                rows.append(
                    [
                        before['cost'],
                        after['cost'],
                        after['low'],
                        after['high'],
                        part,
                        site,
                        stock,
                        stocks[part, site],
                        money,
                    ]
                )
    return rows


def main():
    words = Words(__doc__)
    words.add_argument('--from', dest='least', metavar='COST', type=whole_number)
    words.add_argument('--to', dest='most', metavar='COST', type=whole_number)
    words.add_argument('--steps', action='store_true')
    words.tables('sites', 'parts', 'rates', needed=())
    words.program()
    words = words.parse_args()
    if words.steps != bool(words.sites and words.parts and words.rates):
        raise Refused('--steps goes with --sites, --parts and --rates')
    report = read_sweep()
    if words.least is not None and words.most is not None and words.least >= words.most:
        raise Refused('--from must be below --to')
    points = [
        point
        for point in report.all('point')
        if (words.least or 0) <= int(point['cost']) and (words.most is None or int(point['cost']) <= words.most)
    ]
    if not points:
        raise Refused('no point of the sweep lies between these costs')
    if not words.steps:
        sys.stdout.write(sweep_picture(points_of(report), words.least, words.most).text())
        return
    rows = steps(words, points)
    writer = csv.writer(sys.stdout, lineterminator='\n')
    writer.writerow(['from_cost', 'to_cost', 'total_low', 'total_high', 'part', 'site', 'before', 'after', 'money'])
    writer.writerows(rows)


if __name__ == '__main__':
    run_script(main)
