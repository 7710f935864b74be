#!/usr/bin/env python3
"""Which line units drive the backorders, and how long a request waits.

    python3 examples/drivers.py REPORT --sites F --parts F [--rates F] [--by-base]

REPORT is what `plan` or `eval` printed. It prints a table, the line unit with the most backorders first:

    part,ebo_low,ebo_high,percent                   the backorders at all bases, each times its weight as in `total`
    part,site,ebo_low,ebo_high,percent              with --by-base: at each base
    .. ,demand,wait_days                            with --rates: the demand per year, and the mean days that a request waits

`percent` is the share in the sum of all rows, rounded down to a tenth; `wait_days` is 365 times the upper end of the
backorders, without weight, over the demand, rounded up to a tenth, and empty if there is no demand. What is wrong is
one line on the standard error, with the status 2.
"""

import csv
import sys

from fleet_tables import whole
from reports import Words, micro, must_fit, report_in, run_script, value


class Sums:
    """What is summed for a row: weighted ends in millionths, the upper end without weight, and the demand in ten-thousandths."""

    def __init__(self):
        self.low = self.high = self.plain = self.demand = 0

    def add(self, item, weight, rate):
        self.low += weight * micro(item['ebo_low'])
        self.high += weight * micro(item['ebo_high'])
        self.plain += micro(item['ebo_high'])
        self.demand += rate.demand if rate else 0

    def wait(self):
        """365 EBO / demand in days, with one decimal."""
        if not self.demand:
            return ''
        return '%d.%d' % divmod(-(-self.plain * 365 * 10**4 * 10 // (self.demand * 10**6)), 10)


def sums_of(report, fleet, is_by_base):
    sums = {}
    for item in report.all('item'):
        part = fleet.part[item['part']]
        if part.parent is None and not fleet.site[item['site']].is_depot:
            key = (item['part'], item['site']) if is_by_base else (item['part'],)
            sums.setdefault(key, Sums()).add(item, part.weight, fleet.rates.get((item['part'], item['site'])))
    return sums


def main():
    words = Words(__doc__)
    words.add_argument('report', metavar='REPORT')
    words.tables('sites', 'parts', 'rates', needed=('sites', 'parts'))
    words.add_argument('--by-base', action='store_true')
    words = words.parse_args()
    fleet = whole({'sites': words.sites, 'parts': words.parts, 'rates': words.rates}).fleet
    report = report_in(words.report, 'plan', 'eval')
    must_fit(report, fleet, words.report)
    sums = sums_of(report, fleet, words.by_base)
    everything = sum(row.high for row in sums.values()) or 1
    writer = csv.writer(sys.stdout, lineterminator='\n')
    writer.writerow(
        ['part']
        + ['site'] * words.by_base
        + ['ebo_low', 'ebo_high', 'percent']
        + ['demand', 'wait_days'] * bool(words.rates)
    )
    for key, row in sorted(sums.items(), key=lambda pair: -pair[1].high):
        more = ['%d.%04d' % divmod(row.demand, 10**4), row.wait()] if words.rates else []
        writer.writerow(
            [*key, value(row.low), value(row.high), '%d.%d' % divmod(1000 * row.high // everything, 10)] + more
        )


if __name__ == '__main__':
    run_script(main)
