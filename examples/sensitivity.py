#!/usr/bin/env python3
"""Which demand matters: plans of a fleet in which the demand of one line unit after the other is larger, as a table and a picture.

    python3 examples/sensitivity.py --sites F --parts F --rates F --budget N [--percent N] [--picture F] [--program F]

One file of edits (or some, for more than 63 line units) is given to `spares session`: for each line unit the demand at
all bases is raised by 20 percent, or --percent, rounded up in the 4th decimal; then comes a plan by backorders for the
same budget, with nothing on hand, and the demand goes back. The first row is the plan as it is:

    line_unit,total_low,total_high,more,stocks

`more` is by how much the upper end of the total grows, `stocks` how many pairs of part and site have another stock than
in the first plan. If both are small, the demand is known well enough. `more` can be below 0, and says nothing if it is
smaller than the gap of the plans: the rest of a budget then fits better or worse. --picture writes bars of `more`, the
largest first. What is wrong is one line on the standard error, with the status 2.
"""

import argparse
import csv
import os
import re
import sys
import tempfile

from fleet_tables import Refused, decimal, whole
from pictures import bars_picture
from reports import Program, Words, micro, run_script, value, whole_number, write_file

MOST_UNITS = 63


def percent(text):
    if not re.fullmatch('[0-9]{1,3}', text) or not int(text):
        raise argparse.ArgumentTypeError('%s is no whole number of percent from 1 to 999' % ascii(text))
    return int(text)


def rate_line(fleet, part, site, demand):
    """The line of an edit that gives a line unit at a base this demand, in units of the 4th decimal."""
    rate = fleet.rates[part, site]
    return 'rate,%s,%s,%s,%s,,%s\n' % (
        part,
        site,
        decimal(demand, 4),
        decimal(rate.repair_here, 4),
        decimal(rate.repair_days, 2),
    )


def edits_of(words, fleet, units):
    """The edits: a plan as it is, and one for each of these line units."""
    lines = ['budget,%d\nplan\n' % words.budget]
    for unit in units:
        sites = [site.name for site in fleet.bases]
        demands = [fleet.rates[unit, site].demand for site in sites]
        lines += [
            rate_line(fleet, unit, site, -(-demand * (100 + words.percent) // 100))
            for site, demand in zip(sites, demands)
        ]
        lines.append('plan\n')
        lines += [rate_line(fleet, unit, site, demand) for site, demand in zip(sites, demands)]
    return ''.join(lines)


def fault_of(program, words, fleet, units, fault):
    """The refusal of a session by the tables: the line unit whose larger demand isn't taken, or what `plan` says of them."""
    line = re.search('fault,edit(?:-rate)?,([0-9]+)$', str(fault))
    if not line:
        return fault
    # two lines before the first unit; each unit has a line for each base, `plan`, and a line for each base
    at = (int(line.group(1)) - 3) // (2 * len(fleet.bases) + 1)
    if at < 0:
        program.reports('plan', '--budget', words.budget, '--certificate', os.devnull)
        return fault
    return Refused('%s: %d percent more demand is refused (%s): take fewer' % (units[at], words.percent, line.group(0)))


def planned(words, fleet):
    """The plan as it is, and the plans by line unit."""
    program = Program(words)
    units = [family[0].name for family in fleet.families]
    first, found = None, {}
    with tempfile.TemporaryDirectory() as room:
        edits = os.path.join(room, 'edits.txt')
        for begin in range(0, max(1, len(units)), MOST_UNITS):
            some = units[begin : begin + MOST_UNITS]
            write_file(edits, edits_of(words, fleet, some))
            try:
                first, *reports = program.reports('session', '--edits', edits)
            except Refused as fault:
                raise fault_of(program, words, fleet, some, fault) from None
            found.update(zip(some, reports))
    return first, found


def main():
    words = Words(__doc__)
    words.tables('sites', 'parts', 'rates')
    words.add_argument('--budget', metavar='N', type=whole_number, required=True)
    words.add_argument('--percent', metavar='N', type=percent, default=20)
    words.add_argument('--picture', metavar='F')
    words.program()
    words = words.parse_args()
    names = {'sites': words.sites, 'parts': words.parts, 'rates': words.rates}
    fleet = whole(names).fleet
    first, reports = planned(words, fleet)
    stocks, high = first.stocks(), micro(first.one('total')['high'])
    writer = csv.writer(sys.stdout, lineterminator='\n')
    writer.writerow(['line_unit', 'total_low', 'total_high', 'more', 'stocks'])
    writer.writerow(['as it is', *first.one('total').values(), value(0), 0])
    bars = []
    for unit, report in reports.items():
        more = micro(report.one('total')['high']) - high
        others = sum(stock != stocks[pair] for pair, stock in report.stocks().items())
        writer.writerow([unit, *report.one('total').values(), value(more), others])
        bars.append((unit, more / 10**6, '%+.3f, %s' % (more / 10**6, '1 stock' if others == 1 else '%d stocks' % others)))
    if words.picture:
        bars.sort(key=lambda bar: -bar[1])
        title = 'Demand %d %% larger, one line unit at a time: how many more backorders' % words.percent
        note = (
            'The same budget of %s, planned anew; then how many stocks differ from the plan as it is'
            % '{:,}'.format(words.budget)
        )
        write_file(words.picture, bars_picture(title, bars, note), names.values())


if __name__ == '__main__':
    run_script(main)
