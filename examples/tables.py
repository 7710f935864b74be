#!/usr/bin/env python3
"""Writes reports of the program as tables with headers, for a spreadsheet, pandas or sqlite.

    python3 examples/tables.py REPORT FOLDER [--sites F --parts F] [--decimal-comma]

REPORT is a file with reports of `plan`, `eval`, `compare`, `sweep`, `target` or `check`, or of `session`, which has
many. FOLDER is made if it isn't there, and four tables are written into it; files of these names are replaced. A table
may have a header alone:

    items.csv      one row for each part and site: stock, means, variances, backorders (of `compare`: the Poisson backorders)
    bases.csv      one row for each base: its availability
    points.csv     one row for each point of a sweep
    reports.csv    one row for each report: its kind, and what it says once, as cost, total and bound

The first column is the number of the report in the file, from 1. With the tables of sites and parts, items and bases
also have the kind of part and of site, the line unit, the cost of a unit, the limit, and the systems. A field that a
report doesn't have is empty. With --decimal-comma decimals have a comma, and fields have semicolons between them. What
is wrong is one line on the standard error, with the status 2.
"""

import csv
import io
import os

from fleet_tables import Refused, read_file, whole
from reports import ENDS, FORMS, RANGE, TWO, Words, must_fit, reports_of, run_script, write_file

ITEM = ['part', 'site', 'stock'] + list(ENDS) + ['poisson_low', 'poisson_high']
ITEM_KINDS = ['part_kind', 'line_unit', 'site_kind', 'unit_cost', 'stock_limit']
BASE = ['site', 'availability_low', 'availability_high']
BASE_KINDS = ['systems']
POINT = ['cost', 'total_low', 'total_high', 'price']
ENDS_OF = {'base': 'availability', 'point': 'total'}
MANY = {'item': 'items.csv', 'base': 'bases.csv', 'point': 'points.csv'}
ONCE = [
    'plan',
    'eval',
    'compare',
    'sweep',
    'target',
    'accepted',
    'budget',
    'cost',
    'on-hand',
    'fleet',
    'total',
    'loss',
    'bound',
    'gap',
    'rounding',
    'price',
    'hull',
    'critical',
    'reach',
    'at-least',
    'upper',
]


def column_of(kind, field, is_first):
    """The name of a column of what a report says once."""
    if kind in ('accepted', 'budget') or kind == 'plan':
        return field
    if field == 'value' or kind == 'cost':
        return kind
    if is_first and kind in FORMS:
        return field
    return '%s_%s' % (kind.replace('-', '_'), field)


def once_of(report):
    """What a report says once, by column."""
    found = {'kind': report.kind}
    for place, (kind, fields) in enumerate(report.lines):
        if kind not in MANY:
            found.update({column_of(kind, field, place == 0): text for field, text in fields.items()})
    return found


def once_columns(rows):
    """The columns that some report has, in the order in which reports have them."""
    columns = ['kind']
    for kind in ONCE:
        for form in (form for forms in FORMS.values() for form in forms if form[0] == kind):
            for field in form[2]:
                for name in (column_of(kind, field, True), column_of(kind, field, False)):
                    if name not in columns and any(name in row for row in rows):
                        columns.append(name)
    return columns


def item_kinds(fleet, item):
    part, site = fleet.part[item['part']], fleet.site[item['site']]
    return {
        'part_kind': 'shop unit' if part.parent else 'line unit',
        'line_unit': part.parent or part.name,
        'site_kind': 'depot' if site.is_depot else 'base',
        'unit_cost': part.cost,
        'stock_limit': fleet.limit(part.name, site.name),
    }


def rows_of(reports, fleet):
    """The rows of each file, with its columns."""
    rows = {name: [] for name in MANY.values()}
    once = []
    for number, report in enumerate(reports, 1):
        for kind, fields in report.lines:
            if kind in MANY:
                more = {}
                if fleet and kind == 'item':
                    more = item_kinds(fleet, fields)
                if fleet and kind == 'base':
                    more = {'systems': fleet.site[fields['site']].systems}
                named = {
                    '%s_%s' % (ENDS_OF[kind], field) if field in RANGE else field: text
                    for field, text in fields.items()
                }
                rows[MANY[kind]].append({'report': number, **named, **more})
        once.append({'report': number, **once_of(report)})
    has_poisson = any(report.kind == 'compare' for report in reports)
    has_means = any(report.kind in ('plan', 'eval') for report in reports)
    item = [
        name
        for name in ITEM
        if (has_poisson or name not in ('poisson_low', 'poisson_high'))
        and (has_means or name in TWO or name not in ENDS)
    ]
    columns = {
        'items.csv': item + (ITEM_KINDS if fleet else []),
        'bases.csv': BASE + (BASE_KINDS if fleet else []),
        'points.csv': POINT,
        'reports.csv': once_columns(once),
    }
    rows['reports.csv'] = once
    return {name: (['report'] + columns[name], rows[name]) for name in columns}


def written(columns, rows, is_comma):
    """A table as text."""
    text = io.StringIO()
    writer = csv.writer(text, delimiter=';' if is_comma else ',', lineterminator='\n')
    writer.writerow(columns)
    for row in rows:
        writer.writerow([field(row.get(name, ''), name, is_comma) for name in columns])
    return text.getvalue()


def field(value, name, is_comma):
    """A field: names stay as they are, numbers may have a comma."""
    is_name = name in ('part', 'site', 'line_unit', 'critical_part')
    return str(value).replace('.', ',') if is_comma and not is_name else str(value)


def main():
    words = Words(__doc__)
    words.add_argument('report', metavar='REPORT')
    words.add_argument('folder', metavar='FOLDER')
    words.tables('sites', 'parts', needed=())
    words.add_argument('--decimal-comma', action='store_true')
    words = words.parse_args()
    if bool(words.sites) != bool(words.parts):
        raise Refused('--sites and --parts go together')
    reports = reports_of(read_file(words.report), words.report)
    fleet = whole({'sites': words.sites, 'parts': words.parts}).fleet if words.sites else None
    for report in reports if fleet else []:
        if report.kind in ('plan', 'eval', 'compare'):
            must_fit(report, fleet, words.report)
    try:
        os.makedirs(words.folder, exist_ok=True)
    except OSError as error:
        raise Refused('%s: %s' % (words.folder, error.strerror))
    for name, (columns, rows) in rows_of(reports, fleet).items():
        text = written(columns, rows, words.decimal_comma)
        write_file(os.path.join(words.folder, name), text, (words.report, words.sites, words.parts))


if __name__ == '__main__':
    run_script(main)
