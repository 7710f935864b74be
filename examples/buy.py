#!/usr/bin/env python3
"""What to buy, and where: the list that goes to purchasing.

    python3 examples/buy.py REPORT --sites F --parts F [--on-hand F] [--by-part]

REPORT is what `plan` printed, or `eval` of the stocks that are wanted. --on-hand names the stocks that are there
already, in the form of a table of stocks; a report of `plan --on-hand` needs that same table. The list is a table:

    part,site,have,buy,then,unit_cost,cost

with one row for each part and site where something is bought, in the order of the report, and a last row `total`. With
--by-part it has one row for each part: part,buy,unit_cost,cost. The sum is compared with the cost that the report says.
Stocks that are there and not in a report of `eval` are not sold: such a report is refused, and so is a report of other
tables. What is wrong is one line on the standard error, with the status 2.
"""

import csv
import sys

from fleet_tables import Refused, whole
from reports import Words, must_fit, report_in, run_script


def held_in(words, fleet_stocks, report):
    """The stocks on hand, which are none if no table names them."""
    if words.on_hand:
        return fleet_stocks['on-hand']
    if report.one('on-hand'):
        raise Refused('%s: the plan begins from stocks on hand: name their table by --on-hand' % words.report)
    return {pair: 0 for pair in report.pairs()}


def must_agree(words, report, fleet, held):
    """Refused where the costs of the report aren't those of these tables."""
    worth = sum(fleet.part[part].cost * stock for (part, site), stock in held.items())
    cost = sum(fleet.part[part].cost * stock for (part, site), stock in report.stocks().items())
    said = report.one('on-hand')
    if report.kind == 'plan':
        if words.on_hand and said is None:
            raise Refused('%s: the plan begins from nothing: leave --on-hand out, or plan with it' % words.report)
        if said and int(said['cost']) != worth:
            raise Refused(
                '%s: the plan begins from stocks that cost %s, and these on hand cost %d'
                % (words.report, said['cost'], worth)
            )
        cost -= worth
    if int(report.one('cost')['cost']) != cost:
        raise Refused(
            '%s: it costs %s, and by these tables %d: the report is of other tables'
            % (words.report, report.one('cost')['cost'], cost)
        )


def bought(report, fleet, held):
    """What is bought, as rows of the list: part, site, have, buy, then, cost of a unit, cost."""
    rows = []
    for (part, site), stock in report.stocks().items():
        have = held[part, site]
        if stock < have:
            raise Refused(
                '%s at %s: %d are on hand, and the report has %d: nothing is sold or moved' % (part, site, have, stock)
            )
        if stock > have:
            cost = fleet.part[part].cost
            rows.append([part, site, have, stock - have, stock, cost, cost * (stock - have)])
    return rows


def by_part(rows):
    """The same with one row for each part."""
    counts = {}
    for part, _, _, count, _, cost, _ in rows:
        counts[part] = counts.get(part, (0, cost))[0] + count, cost
    return [[part, count, cost, count * cost] for part, (count, cost) in counts.items()]


def main():
    words = Words(__doc__)
    words.add_argument('report', metavar='REPORT')
    words.tables('sites', 'parts', 'on-hand', needed=('sites', 'parts'))
    words.add_argument('--by-part', action='store_true')
    words = words.parse_args()
    fleet, stocks, _ = whole({'sites': words.sites, 'parts': words.parts, 'on-hand': words.on_hand})
    report = report_in(words.report, 'plan', 'eval')
    must_fit(report, fleet, words.report)
    held = held_in(words, stocks, report)
    must_agree(words, report, fleet, held)
    rows = bought(report, fleet, held)
    count, cost = sum(row[3] for row in rows), sum(row[-1] for row in rows)
    writer = csv.writer(sys.stdout, lineterminator='\n')
    if words.by_part:
        writer.writerows([['part', 'buy', 'unit_cost', 'cost']] + by_part(rows) + [['total', count, '', cost]])
    else:
        writer.writerows(
            [['part', 'site', 'have', 'buy', 'then', 'unit_cost', 'cost']]
            + rows
            + [['total', '', '', count, '', '', cost]]
        )


if __name__ == '__main__':
    run_script(main)
