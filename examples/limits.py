#!/usr/bin/env python3
"""First limits of stocks for a fleet, and which to lower where they allow too many combinations; or the stocks at their limits.

    python3 examples/limits.py --sites F --parts F --rates F [--write-parts F] [--write-stocks F]
    python3 examples/limits.py --sites F --parts F --report F

The limits that the parts have are not used for the first limits: 0 will do. The rule: a limit is the mean of the
pipeline without any stock and 3 more, or 3 square roots of it if that is more, rounded up, at most 63, and 0 if nothing
is ever there; at the bases the largest of them. Then, as long as a plan would need over 1,000,000 tables of backorders,
one limit of a shop unit is lowered by 1: of the family that needs most tables, the limit that has most room over its
mean, counted in square roots of that mean and 1. It prints

    first,PART,MAX_DEPOT,MAX_BASE,MEAN AT THE DEPOT,LARGEST MEAN AT A BASE
    family,LINE UNIT,TABLES NOW,TABLES WITH THE FIRST LIMITS
    work,TABLES NOW,TABLES WITH THE FIRST LIMITS
    lower,PART,max_depot or max_base,NOW,LOWER          if now is too much: which limits to lower, the most urgent first
    lowered,TABLES                                      and how many are needed then
    below,PART,max_depot or max_base,BY THE RULE,FIRST  the rule asks for more than the first limit

--write-parts writes the table of parts with the first limits, --write-stocks a table of stocks that are all 0. Neither
may be one of the tables that are read. Means are rounded up, to 4 decimals.

With --report, of `plan` or `eval`, it prints the stocks that are at a limit over 0:

    at-limit,PART,SITE,STOCK

What is wrong with words, tables or the report is one line on the standard error, with the status 2.
"""

import csv
import io
from math import isqrt

from fleet_means import MOST_WORK, limits_of, pipelines_of, refusal_of, tables_of, work_of
from fleet_tables import HEADERS, Refused, decimal, whole
from reports import Words, must_fit, report_in, run_script, write_file

MOST_STOCK = 63
COLUMNS = ('max_depot', 'max_base')


def wished(mean):
    """The mean and 3 more, or 3 square roots of it if that is more, rounded up."""
    if mean == 0:
        return 0
    if mean <= 1:
        return -(-(mean + 3).numerator // (mean + 3).denominator)
    # the least whole number n with n >= mean and (n - mean)^2 >= 9 mean
    least = mean.numerator // mean.denominator + 3 * isqrt(mean.numerator // mean.denominator)
    while (least - mean) ** 2 < 9 * mean:
        least += 1
    return least


def means_of(fleet):
    """Of each part the mean at the depot and the largest at a base."""
    pipelines = pipelines_of(fleet)
    for pair in fleet.pairs():
        refusal = refusal_of(pipelines[pair])
        if refusal and refusal[0] == 'pipeline-too-large':
            raise Refused('fault,%s,%s,%s: %s' % (refusal[0], *pair, refusal[1]))
    return {
        part.name: (
            pipelines[part.name, fleet.sites[0].name].mean,
            max(pipelines[part.name, site.name].mean for site in fleet.bases),
        )
        for part in fleet.parts
    }


def room_of(limit, mean):
    """How far a limit is over its mean, in square roots of the mean and 1: a number that grows with the room."""
    over = limit - mean
    return over * abs(over) / (mean + 1)


def lowered(fleet, limits, means):
    """Lowers limits, as lists by the name of their part, until a plan needs no more tables than it may; yields each that it lowers,
    as the part, the column and the tables that are needed then."""
    bases = len(fleet.bases)

    def tables(family):
        return tables_of(family, bases, [limits[part.name] for part in family])

    counts = {family[0].name: tables(family) for family in fleet.families}
    total = sum(counts.values())
    while total > MOST_WORK:
        family = max(fleet.families, key=lambda family: counts[family[0].name])
        places = [(part, column) for part in family[1:] for column in (1, 0) if limits[part.name][column] > 0]
        if not places:
            places = [(family[0], 0)]
        part, column = max(
            places, key=lambda place: room_of(limits[place[0].name][place[1]], means[place[0].name][place[1]])
        )
        limits[part.name][column] -= 1
        total -= counts[family[0].name]
        counts[family[0].name] = tables(family)
        total += counts[family[0].name]
        yield part.name, column, total


def print_lowered(fleet, means):
    """Which of today's limits to lower first, and the tables that are needed then."""
    limits = {part.name: [part.max_depot, part.max_base] for part in fleet.parts}
    first = {}
    total = None
    for name, column, total in lowered(fleet, limits, means):
        first.setdefault((name, column), limits[name][column] + 1)
    for (name, column), now in first.items():
        print('lower,%s,%s,%d,%d' % (name, COLUMNS[column], now, limits[name][column]))
    if total is not None:
        print('lowered,%d' % total)


def mean_text(mean):
    """A mean with 4 decimals, rounded up."""
    return decimal(-(-mean.numerator * 10**4 // mean.denominator), 4)


def print_first(fleet, means, wishes, first):
    for part in fleet.parts:
        print('first,%s,%d,%d,%s,%s' % (part.name, *first[part.name], *map(mean_text, means[part.name])))
    bases = len(fleet.bases)
    then = 0
    for family in fleet.families:
        tables = tables_of(family, bases, [first[part.name] for part in family])
        print('family,%s,%d,%d' % (family[0].name, tables_of(family, bases, limits_of(family)), tables))
        then += tables
    print('work,%d,%d' % (work_of(fleet), then))
    print_lowered(fleet, means)
    for part in fleet.parts:
        for column, name in enumerate(COLUMNS):
            if wishes[part.name][column] > first[part.name][column]:
                print('below,%s,%s,%d,%d' % (part.name, name, wishes[part.name][column], first[part.name][column]))


def csv_text(rows):
    text = io.StringIO()
    csv.writer(text, lineterminator='\n').writerows(rows)
    return text.getvalue()


def parts_text(fleet, first):
    """The table of parts with other limits."""
    width = len(fleet.parts[0].row.fields) if fleet.parts else 6
    rows = [HEADERS['parts'][:width]]
    for part in fleet.parts:
        rows.append(part.row.fields[:4] + ['%d' % limit for limit in first[part.name]] + part.row.fields[6:])
    return csv_text(rows)


def propose(words):
    names = {'sites': words.sites, 'parts': words.parts, 'rates': words.rates}
    fleet = whole(names).fleet
    means = means_of(fleet)
    wishes = {name: [wished(mean) for mean in pair] for name, pair in means.items()}
    first = {name: [min(wish, MOST_STOCK) for wish in pair] for name, pair in wishes.items()}
    for _ in lowered(fleet, first, means):
        pass
    if words.write_parts:
        write_file(words.write_parts, parts_text(fleet, first), names.values())
    if words.write_stocks:
        write_file(
            words.write_stocks, csv_text([HEADERS['stocks']] + [[*pair, 0] for pair in fleet.pairs()]), names.values()
        )
    print_first(fleet, means, wishes, first)


def at_limits(words):
    fleet = whole({'sites': words.sites, 'parts': words.parts}).fleet
    report = report_in(words.report, 'plan', 'eval')
    must_fit(report, fleet, words.report)
    for (part, site), stock in report.stocks().items():
        limit = fleet.limit(part, site)
        if stock > limit:
            raise Refused(
                '%s: %d of %s at %s is over the limit: the report is of other tables'
                % (words.report, stock, part, site)
            )
        if stock == limit > 0:
            print('at-limit,%s,%s,%d' % (part, site, stock))


def main():
    words = Words(__doc__)
    words.tables('sites', 'parts', 'rates', needed=('sites', 'parts'))
    for option in ('--report', '--write-parts', '--write-stocks'):
        words.add_argument(option, metavar='F')
    words = words.parse_args()
    if bool(words.report) == bool(words.rates) or words.report and (words.write_parts or words.write_stocks):
        raise Refused('either --rates is given, with --write-parts and --write-stocks if wanted, or --report')
    if words.report:
        at_limits(words)
    else:
        propose(words)


if __name__ == '__main__':
    run_script(main)
