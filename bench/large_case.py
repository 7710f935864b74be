#!/usr/bin/env python3
"""Writes the tables of large cases.

    python3 bench/large_case.py FOLDER
    python3 bench/large_case.py FOLDER NAME..

Without names it writes a case for `eval` into the folder: a depot and 15 bases, 400 line units with 4 shop units each,
so 2,000 parts and 32,000 pipelines. More than nine means in ten lie between 0.05 and 20 units, at the stocks that it
writes, and those lie from 0 to somewhat above the mean.

With names it writes cases for `plan`, each into a folder of its name, with a budget and the count of its tables beside
the tables:

    fleet22     3 bases, 22 line units and 9 shop units
    demo80      2 bases, 80 line units and up to two shop units each: the case of `spares demo 7 80`
    wide15      15 bases, 1,000 line units without shop units
    max         15 bases, 900 line units and 1,100 shop units, with about as many tables as a plan may have
    middle6     6 bases, 60 line units and 40 shop units with limits up to 8, most tables in families with a shop unit
    middle6s    the same with limits of shop units of 4 at the depot and 2 at a base

The rest are families that differ in their demand alone, with shop units whose tables serve many choices of stocks:

    kept1       6 bases, one family with 8 shop units, limits 2 at the depot
    kept2       6 bases, 6 families with 4 shop units, limits 4
    kept3       6 bases, 10 families with 4 shop units, limits 5
    kept4       15 bases, 3 families with 6 shop units, limits 3
    kept5       6 bases, 40 families with one shop unit, limits 4, and 1 at a base

The bytes are the same at every run.
"""
import os
import sys

BASES = 15
LINE_UNITS = 400
SHOP_UNITS = 4
MOST_TABLES = 1000000
HEADERS = {
    'sites': 'site,kind,systems,ship_days',
    'parts': 'part,parent,cost,per_system,max_depot,max_base',
    'rates': 'part,site,demand,repair_here,share,repair_days',
    'stocks': 'part,site,stock',
}


class Draws:
    """A congruential generator, so that the bytes hang on no version of Python."""

    def __init__(self, seed):
        self.state = seed

    def below(self, count):
        self.state = (6364136223846793005 * self.state + 1442695040888963407) % 2 ** 64
        return (self.state >> 33) * count >> 31

    def between(self, least, most):
        return least + self.below(most - least + 1)


class DemoDraws:
    """The draws of `spares demo`, as docs/FORMATS.md has them."""

    def __init__(self, number):
        self.state = number

    def below(self, count):
        self.state = (69069 * self.state + 1) % 2 ** 32
        return self.state // 256 % count


def decimal(units, places):
    """That many units of the last place, as a text."""
    return '%d.%0*d' % (units // 10 ** places, places, units % 10 ** places)


def depot_and_bases(draws, count):
    yield 'Depot,depot,,'
    for base in range(1, count + 1):
        yield 'Base%02d,base,%d,%s' % (base, draws.between(12, 48), decimal(draws.between(200, 1000), 2))


def line_unit(draws, line):
    """The rows of a line unit and of its shop units: parts, rates, stocks."""
    name = 'Line%03d' % line
    cost = 500 * draws.between(4, 200)
    # demand of all bases in a year, from 120 to 8,000: six sizes, equally often
    size = line % 6
    year = draws.between(120, 250) << size
    parts = ['%s,,%d,%d,63,63' % (name, cost, draws.between(1, 4))]
    rates = ['%s,Depot,,,,%s' % (name, decimal(draws.between(1000, 3000), 2))]
    stocks = ['%s,Depot,%d' % (name, draws.between(0, min(63, 3 << size)))]
    for base in range(1, BASES + 1):
        demand = year * draws.between(70, 130) * 100 // BASES
        here = draws.between(6000, 9000)
        rates.append('%s,Base%02d,%s,%s,,%s' % (name, base, decimal(demand, 4), decimal(here, 4), decimal(draws.between(200, 1000), 2)))
        stocks.append('%s,Base%02d,%d' % (name, base, draws.between(0, 2 + size * size // 2)))
    for shop in range(1, SHOP_UNITS + 1):
        inner = '%s-%d' % (name, shop)
        parts.append('%s,%s,%d,,63,63' % (inner, name, cost // 100 * draws.between(5, 25)))
        rates.append('%s,Depot,,,%s,%s' % (inner, decimal(draws.between(1000, 2500), 4), decimal(draws.between(1000, 2000), 2)))
        stocks.append('%s,Depot,%d' % (inner, draws.between(0, 1 << size)))
        for base in range(1, BASES + 1):
            here = draws.between(3000, 8000)
            rates.append('%s,Base%02d,,%s,%s,%s' % (inner, base, decimal(here, 4), decimal(draws.between(1000, 2500), 4), decimal(draws.between(300, 1500), 2)))
            stocks.append('%s,Base%02d,%d' % (inner, base, draws.between(0, 1 + size // 2)))
    return parts, rates, stocks


def shuffled(draws, items):
    """The items in a drawn order."""
    for k in reversed(range(1, len(items))):
        other = draws.below(k + 1)
        items[k], items[other] = items[other], items[k]
    return items


class Tables:
    """The rows of a case."""

    def __init__(self, sites):
        self.rows = {table: [header] for table, header in HEADERS.items()}
        self.rows['sites'] += sites

    def add(self, parts, rates, stocks):
        for table, rows in zip(('parts', 'rates', 'stocks'), (parts, rates, stocks)):
            self.rows[table] += rows

    def write(self, folder):
        os.makedirs(folder, exist_ok=True)
        for table, rows in self.rows.items():
            write(folder, table + '.csv', '\n'.join(rows) + '\n')


def write(folder, name, text):
    with open(os.path.join(folder, name), 'w', newline='') as file:
        file.write(text)


def case_for_eval():
    draws = Draws(2000)
    case = Tables(depot_and_bases(draws, BASES))
    for line in range(1, LINE_UNITS + 1):
        case.add(*line_unit(draws, line))
    return case


# Cases for `plan`. The limits of a family are a list of pairs, at the depot and at a base: of the line unit, then of its
# shop units.


def tables_of(bases, limits):
    """How many tables the curve of a family takes, by the formula of docs/CERTIFICATE.md, Covers."""
    at_depot, at_base, widths = 1, 1, 0
    for depot, base in limits[1:]:
        at_depot *= depot + 1
        at_base *= base + 1
        widths += depot + 1
    return len(limits) - 1 + at_depot + bases * widths + (limits[0][0] + 1) * at_depot * bases * at_base


def family(draws, name, bases, limits):
    """The rows of a family that is planned. A base's demand is from 0.5 to 9 in a year, seldom much."""
    cost = 250 * (4 + draws.below(20) * draws.below(20))
    parts = ['%s,,%d,%d,%d,%d' % (name, cost, draws.between(1, 2), *limits[0])]
    rates = ['%s,Depot,,,,%s' % (name, decimal(draws.between(2000, 7000), 2))]
    year = 8000 + draws.below(250) * draws.below(250)
    for base in range(1, bases + 1):
        demand, here = year * draws.between(70, 130) // 100, draws.between(1000, 7000)
        days = draws.between(200, 1200)
        rates.append('%s,Base%02d,%s,%s,,%s' % (name, base, decimal(demand, 4), decimal(here, 4), decimal(days, 2)))
    share = 6000 // max(1, len(limits) - 1)
    for shop, (depot, base_limit) in enumerate(limits[1:], 1):
        inner = '%s-%d' % (name, shop)
        parts.append('%s,%s,%d,,%d,%d' % (inner, name, max(50, cost * draws.between(5, 30) // 100), depot, base_limit))
        needed, days = draws.between(500, share), draws.between(2000, 7000)
        rates.append('%s,Depot,,,%s,%s' % (inner, decimal(needed, 4), decimal(days, 2)))
        for base in range(1, bases + 1):
            here, needed, days = draws.between(500, 5500), draws.between(500, share), draws.between(200, 1000)
            places = (decimal(here, 4), decimal(needed, 4), decimal(days, 2))
            rates.append('%s,Base%02d,,%s,%s,%s' % (inner, base, *places))
    return parts, rates


def stocks_of(draws, parts, sites):
    """A stock within its limit for each part and site."""
    for part in parts:
        fields = part.split(',')
        for k, site in enumerate(sites):
            yield '%s,%s,%d' % (fields[0], site.split(',')[0], draws.between(0, int(fields[5 if k else 4])))


def planned(draws, bases, families, budget):
    """A case of families with these limits, its budget and its count of tables."""
    sites = list(depot_and_bases(draws, bases))
    case = Tables(sites)
    for number, limits in enumerate(families, 1):
        parts, rates = family(draws, 'Unit%04d' % number, bases, limits)
        case.add(parts, rates, stocks_of(draws, parts, sites))
    return case, budget, sum(tables_of(bases, limits) for limits in families)


def fleet22():
    draws = Draws(22)
    families = []
    for line in range(22):
        shops = [(4, 1 if line % 2 else 0)] * (line % 3 if line < 9 else 0)
        families.append([(draws.between(4, 8), draws.between(3, 5))] + shops)
    return planned(draws, 3, families, 500000)


def wide15():
    draws = Draws(15)
    families = [[(draws.between(6, 18), draws.between(3, 8))] for _ in range(1000)]
    return planned(draws, 15, families, 100000000)


def largest():
    draws = Draws(2001)
    counts = shuffled(draws, [0] * 300 + [1] * 265 + [2] * 205 + [3] * 95 + [4] * 35)
    # the more shop units, the fewer of each
    most_depot, most_base = [0, 4, 3, 1, 1], [0, 2, 1, 1, 0]
    families = []
    for count in counts:
        line = (draws.between(3, 8 - count), draws.between(2, 5))
        shops = [(draws.between(1, most_depot[count]), draws.between(0, most_base[count])) for _ in range(count)]
        families.append([line] + shops)
    tables = sum(tables_of(15, limits) for limits in families)
    # one more of the line unit at the depot, family by family, as long as there is room
    while True:
        before = tables
        for limits in families:
            more = [(limits[0][0] + 1, limits[0][1])] + limits[1:]
            grown = tables + tables_of(15, more) - tables_of(15, limits)
            if grown <= MOST_TABLES and more[0][0] <= 40:
                limits[0], tables = more[0], grown
        if tables == before:
            return planned(draws, 15, families, 150000000)


def demo80():
    """The case of `spares demo 7 80`, by its draws, at the budget of that command."""
    draws = DemoDraws(7)
    sites = ['D,depot,,']
    for base in ('B1', 'B2'):
        systems = 12 + draws.below(13)
        sites.append('%s,base,%d,%d' % (base, systems, 2 + draws.below(5)))
    case, tables = Tables(sites), 0
    for line in range(1, 81):
        name = 'L%d' % line
        cost, units = 100 * (1 + draws.below(50)), 1 + draws.below(2)
        parts = ['%s,,%d,%d,3,2' % (name, cost, units)]
        shops = ['%sS%d' % (name, shop) for shop in range(1, draws.below(3) + 1)]
        parts += ['%s,%s,%d,,1,1' % (shop, name, 10 * (1 + draws.below(40))) for shop in shops]
        rates = ['%s,D,,,,%s' % (name, decimal(2000 + draws.below(4000), 2))]
        for base in ('B1', 'B2'):
            demand, here = 10000 + draws.below(200000), 1000 + draws.below(8000)
            days = 200 + draws.below(800)
            rates.append('%s,%s,%s,%s,,%s' % (name, base, decimal(demand, 4), decimal(here, 4), decimal(days, 2)))
        for shop in shops:
            share = 1000 + draws.below(3000)
            rates.append('%s,D,,,%s,%s' % (shop, decimal(share, 4), decimal(2000 + draws.below(4000), 2)))
            for base in ('B1', 'B2'):
                here, share, days = 1000 + draws.below(6000), 1000 + draws.below(3000), 200 + draws.below(800)
                places = (decimal(here, 4), decimal(share, 4), decimal(days, 2))
                rates.append('%s,%s,,%s,%s,%s' % (shop, base, *places))
        case.add(parts, rates, stocks_of(Draws(line), parts, sites))
        tables += tables_of(2, [(3, 2)] + [(1, 1)] * len(shops))
    return case, 160000, tables


def middle(seed, alone, in_pairs):
    """60 line units: 24 have a shop unit with the limits `alone`, 8 have two with the limits `in_pairs`."""
    draws = Draws(seed)
    shops = shuffled(draws, [[alone]] * 24 + [[in_pairs] * 2] * 8 + [[]] * 28)
    return planned(draws, 6, [[(8, 8)] + limits for limits in shops], 3000000)


def like_family(number, bases, limits):
    """The rows of a family. A base demands 6 units in a year, plus its own number, plus the family's."""
    name = 'Unit%04d' % number
    parts = ['%s,,1000,1,%d,%d' % (name, *limits[0])]
    rates = ['%s,Depot,,,,30' % name]
    rates += ['%s,Base%02d,%d,0.5,,4' % (name, base, 6 + base + number) for base in range(1, bases + 1)]
    for shop, pair in enumerate(limits[1:], 1):
        inner = '%s-%d' % (name, shop)
        parts.append('%s,%s,%d,,%d,%d' % (inner, name, 90 + 10 * shop, *pair))
        rates.append('%s,Depot,,,0.3,20' % inner)
        rates += ['%s,Base%02d,,0.4,0.3,5' % (inner, base) for base in range(1, bases + 1)]
    return parts, rates


def kept(bases, count, limits):
    """Families with these limits that differ in their demand alone."""
    draws = Draws(count)
    sites = ['Depot,depot,,'] + ['Base%02d,base,%d,%d' % (base, 9 + base, 2 + base) for base in range(1, bases + 1)]
    case = Tables(sites)
    for number in range(1, count + 1):
        parts, rates = like_family(number, bases, limits)
        case.add(parts, rates, stocks_of(draws, parts, sites))
    return case, 100000, count * tables_of(bases, limits)


CASES = {
    'fleet22': fleet22,
    'demo80': demo80,
    'wide15': wide15,
    'max': largest,
    'middle6': lambda: middle(606, (8, 8), (8, 2)),
    'middle6s': lambda: middle(607, (4, 2), (4, 2)),
    'kept1': lambda: kept(6, 1, [(1, 3)] + [(2, 0)] * 8),
    'kept2': lambda: kept(6, 6, [(4, 4)] + [(4, 0)] * 4),
    'kept3': lambda: kept(6, 10, [(1, 4)] + [(5, 0)] * 4),
    'kept4': lambda: kept(15, 3, [(0, 3)] + [(3, 0)] * 6),
    'kept5': lambda: kept(6, 40, [(4, 4), (4, 1)]),
}


def main():
    folder, names = sys.argv[1], sys.argv[2:]
    if not names:
        case_for_eval().write(folder)
    for name in names:
        case, budget, tables = CASES[name]()
        inner = os.path.join(folder, name)
        case.write(inner)
        write(inner, 'budget', '%d\n' % budget)
        write(inner, 'tables', '%d\n' % tables)


main()
