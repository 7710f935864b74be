#!/usr/bin/env python3
"""Names all faults of the tables of a fleet at once, where the program names the first alone.

    python3 examples/lint.py --sites F --parts F --rates F [--stocks F] [--on-hand F]

Each fault is one line: the file and, if the fault is in a line, its number as an editor counts it; the program's line,
whose rows count records (the header is row 1, empty lines are not counted); and what is wrong. What comes first is what
the program would say: `plan` of the sites, parts, rates and stocks on hand, `eval` if --stocks names a table. Then `N
faults`, which counts the lines, with the status 1. Without a fault it prints `no faults`, with the status 0: then the
program takes the tables. Where several rows have the same wrong name, the first is a line and all further ones are
another, with their count, the first and the last; so are the pairs of a site or a part that has no row at all.
What can be judged is judged: the numbers of a row whose part or site isn't known, by what its other fields say of these
two, and whether it is there twice; the rows below a header of which some names are spelt otherwise, or which is below a
title. A row without the right number of fields, and a table whose columns aren't known, hide nothing elsewhere. Whether
the program takes the rates is asked if all numbers of a line unit and its shop units are right. Wrong words are one line
on the standard error, with the status 2.
"""


from fleet_means import MOST_WORK, pipelines_of, refusal_of, tables_of, limits_of, work_of
from fleet_tables import Fault, load
from reports import Words, run_script


def rate_faults(fleet, name):
    """The pipelines that are refused, by part and then by site."""
    pipelines = pipelines_of(fleet)
    for pair in fleet.pairs():
        refusal = refusal_of(pipelines[pair]) if pair in pipelines else None
        if refusal:
            yield Fault(name, 'fault,%s,%s,%s' % (refusal[0], *pair), refusal[1])


def work_faults(fleet, held, name):
    """Limits that allow too many combinations."""
    work = work_of(fleet, held)
    if work > MOST_WORK:
        largest = max(fleet.families, key=lambda family: tables_of(family, len(fleet.bases), limits_of(family)))
        yield Fault(
            name,
            'fault,work,%d' % work,
            'the limits allow too many combinations, most in the family of %s: '
            'limits.py says which to lower first' % largest[0].name,
        )


def faults_of(names):
    """All faults of the tables in these files, in the order in which the program looks."""
    fleet, stocks, faults = load(names)
    if fleet is None:
        return faults
    is_whole = not faults
    faults = faults + list(rate_faults(fleet, names['rates']))
    limits = [limit for part in fleet.parts for limit in (part.max_depot, part.max_base)]
    if fleet.bases and None not in limits and (is_whole or 'on-hand' not in stocks):
        faults += work_faults(fleet, stocks.get('on-hand'), names['parts'])
    return faults


def main():
    words = Words(__doc__)
    words.tables('sites', 'parts', 'rates', 'stocks', 'on-hand')
    words = words.parse_args()
    faults = faults_of(
        {
            'sites': words.sites,
            'parts': words.parts,
            'rates': words.rates,
            'stocks': words.stocks,
            'on-hand': words.on_hand,
        }
    )
    for fault in faults:
        print('%s: %s: %s' % fault)
    print('no faults' if not faults else '1 fault' if len(faults) == 1 else '%d faults' % len(faults))
    return 1 if faults else 0


if __name__ == '__main__':
    run_script(main)
