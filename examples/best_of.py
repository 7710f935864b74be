#!/usr/bin/env python3
"""Looks for better stocks than one plan, and puts them under the bound of that plan.

    python3 examples/best_of.py --sites F --parts F --rates F --budget N --certificate F [--on-hand F] [--write-stocks F] [--program F]

The rest of a budget is spent on what fits, so more money can give a worse plan, and the plan by the other aim can have
fewer backorders. So this script plans by backorders at the budget, by log-availability at the budget, and by backorders
at 40 budgets down to a tenth less and at the cost of the steps (`hull`). From each of the 8 best of these stocks it
goes on with exchanges, as long as the total falls: one unit more, one less, one moved to another site, one in place of
another of the same line unit at a site, or two of these in two line units. `spares eval` says what each is worth.
Stocks stay within their limits, the budget and what is on hand.

The certificate of the plan by backorders is written to the file of --certificate. The best stocks and their upper end
are put into it: its bound holds for any stocks. Then `spares check` must accept it. What is found is no proof that
there are no better ones: the gap says how much better they could be. --write-stocks writes the stocks as a table, for
`spares eval` and buy.py. It prints

    start,AIM,BUDGET,COST,LO,HI      the plans that were made, in the order of their totals; those with the same stocks once
    from,AIM,BUDGET,ROUNDS           the plan that led to the best stocks, and the rounds of exchanges
    best,COST,LO,HI                  the best stocks: what they cost, beyond those on hand, and the ends of their total
    bound,X                          no stocks within the limits that cost at most the budget have a total below this
    gap,X                            HI less the bound
    accepted,FORMAT                  what check says of the certificate

What is wrong with words or tables is one line on the standard error, with the status 2.
"""

import csv
import io
import os
import tempfile
from bisect import bisect_right
from collections import namedtuple

from fleet_tables import HEADERS, Refused, decimal, read_file, whole
from reports import NOWHERE, Program, Words, micro, must_be_apart, must_fit, reports_of, run_script, value
from reports import whole_number, write_file
from sweep import planned

MOST_ROUNDS = 200
MOST_STARTS = 8
SMALLER = 40  # budgets down to a tenth less


def csv_text(header, rows):
    text = io.StringIO()
    csv.writer(text, lineterminator='\n').writerows([header] + rows)
    return text.getvalue()


def stocks_text(fleet, stocks):
    return csv_text(HEADERS['stocks'], [[*pair, stocks[pair]] for pair in fleet.pairs()])


def rate_row(part, site, rate):
    """A row of rates: what must be empty is None."""
    texts = [None if units is None else decimal(units, 4) for units in rate[:3]]
    return [part, site, *texts, decimal(rate.repair_days, 2)]


Best = namedtuple('Best', 'aim budget rounds stocks total')


class Fleet:
    """The fleet, its budget and what is on hand, and what `eval` says of stocks."""

    def __init__(self, words, room):
        names = {'sites': words.sites, 'parts': words.parts, 'rates': words.rates, 'on-hand': words.on_hand}
        self.fleet, stocks, _ = whole(names)
        self.held = stocks.get('on-hand', dict.fromkeys(self.fleet.pairs(), 0))
        self.budget = words.budget
        self.program = Program(words)
        self.room, self.sites = room, words.sites
        self.kept = {}

    def cost(self, stocks):
        """What stocks cost beyond what is on hand."""
        return sum(
            self.fleet.part[part].cost * (stock - self.held[part, site]) for (part, site), stock in stocks.items()
        )

    def evaluated(self, stocks):
        """The report of `eval`."""
        path = os.path.join(self.room, 'stocks.csv')
        write_file(path, stocks_text(self.fleet, stocks))
        return self.program.report('eval', '--stocks', path)

    def choose(self, families):
        """Writes tables of these families alone: a family is worth the same in them, and `eval` is faster."""
        self.parts = [part for family in families for part in family]
        self.pairs = [(part.name, site.name) for part in self.parts for site in self.fleet.sites]
        width = 7 if len(self.parts[0].row.fields) == 7 else 6
        rates = [rate_row(*pair, self.fleet.rates[pair]) for pair in self.pairs]
        write_file(self.path('parts'), csv_text(HEADERS['parts'][:width], [part.row.fields for part in self.parts]))
        write_file(self.path('rates'), csv_text(HEADERS['rates'], rates))

    def path(self, table):
        return os.path.join(self.room, 'some-%s.csv' % table)

    def worths(self, stocks):
        """The upper end of the total of each family that was chosen, in millionths, by the name of its line unit."""
        rows = ''.join('%s,%s,%d\n' % (*pair, stocks[pair]) for pair in self.pairs)
        write_file(self.path('stocks'), 'part,site,stock\n' + rows)
        names = [word for table in ('parts', 'rates', 'stocks') for word in ('--' + table, self.path(table))]
        ran = self.program.run('eval', '--sites', self.sites, *names)
        if ran.status != 0:
            raise Refused('spares eval: %s' % ran.fault)
        worths = {}
        for line in ran.out.decode('ascii').split('\n'):
            fields = line.split(',')
            part = self.fleet.part[fields[1]] if fields[0] == 'item' else None
            if part and part.parent is None and not self.fleet.site[fields[2]].is_depot:
                worths[part.name] = worths.get(part.name, 0) + part.weight * micro(fields[9])
        return worths

    def changes(self, family, stocks):
        """The exchanges within a family, each as changes of stocks by pairs."""

        def may(part, site, change):
            return self.held[part, site] <= stocks[part, site] + change <= self.fleet.limit(part, site)

        names, sites = [part.name for part in family], [site.name for site in self.fleet.sites]
        pairs = [(part, site) for part in names for site in sites]
        for pair in pairs:
            for change in (1, -1):
                if may(*pair, change):
                    yield {pair: change}
        for less in pairs:
            for more in pairs:
                is_near = (less[0] == more[0]) != (less[1] == more[1])
                if is_near and may(*less, -1) and may(*more, 1):
                    yield {less: -1, more: 1}

    def key(self, family, stocks):
        """A family with its stocks: what it is worth, and what exchanges bring, hangs on these alone."""
        return family[0].name, tuple(stocks[part.name, site.name] for part in family for site in self.fleet.sites)

    def moves(self, stocks):
        """What exchanges cost and bring: by family, as (cost, millionths, changes), only those that no other one betters."""
        new = [family for family in self.fleet.families if self.key(family, stocks) not in self.kept]
        for family, moves in zip(new, self.tried(stocks, new)):
            self.kept[self.key(family, stocks)] = undominated(moves)
        return {family[0].name: self.kept[self.key(family, stocks)] for family in self.fleet.families}

    def tried(self, stocks, families):
        """All exchanges of these families. One `eval` tries one of each family at once."""
        lists = [list(self.changes(family, stocks)) for family in families]
        found = [[] for _ in families]
        if families:
            self.choose(families)
            before = self.worths(stocks)
        for number in range(max(map(len, lists), default=0)):
            tried = dict(stocks)
            some = [place for place, changes in enumerate(lists) if number < len(changes)]
            for place in some:
                for pair, change in lists[place][number].items():
                    tried[pair] += change
            then = self.worths(tried)
            for place in some:
                name, changes = families[place][0].name, lists[place][number]
                cost = sum(self.fleet.part[part].cost * change for (part, _), change in changes.items())
                found[place].append((cost, then[name] - before[name], number, changes))
        return found


def undominated(moves):
    """The moves that bring more than each that costs no more, by cost; what brings least comes first."""
    kept = []
    for cost, brings, _, changes in sorted(moves, key=lambda move: move[:3]):
        if not kept or brings < kept[-1][1]:
            kept.append((cost, brings, changes))
    return kept


def best_pair(moves, spare):
    """The move, or two moves of two families, with the largest fall of the total within the money: its fall and the changes."""
    nothing = (0, 0, 0, {})
    families = [
        undominated([nothing] + [(cost, brings, 1, changes) for cost, brings, changes in some])
        for some in moves.values()
    ]
    costs = [[move[0] for move in family] for family in families]
    best = (0, 0, [])
    for place, first in enumerate(families):
        for other in range(place + 1, len(families)) if len(families) > 1 else [None]:
            for cost, brings, changes in first:
                # of the other family's moves the last one that the money reaches brings most
                reached = (
                    bisect_right(costs[other], spare - cost) - 1 if other is not None else 0 if cost <= spare else -1
                )
                if reached >= 0:
                    more, adds, others = families[other][reached] if other is not None else (0, 0, {})
                    if (brings + adds, cost + more) < best[:2] and brings + adds < 0:
                        best = (brings + adds, cost + more, [changes, others])
    return best[0], best[2]


def improved(fleet, stocks):
    """Stocks after all exchanges that lower the total, and after how many rounds."""
    for rounds in range(MOST_ROUNDS):
        fall, chosen = best_pair(fleet.moves(stocks), fleet.budget - fleet.cost(stocks))
        if not fall:
            break
        stocks = dict(stocks)
        for changes in chosen:
            for pair, change in changes.items():
                stocks[pair] += change
    return stocks, rounds


def starts_of(fleet, words):
    """The plans as (upper end, cost, aim, budget, report), the best first."""
    held = ['--on-hand', words.on_hand] if words.on_hand else []

    def plan(aim, budget, certificate=NOWHERE):
        return (
            aim,
            budget,
            fleet.program.report('plan', '--budget', budget, '--objective', aim, '--certificate', certificate, *held),
        )

    first = plan('backorders', words.budget, words.certificate)
    must_fit(first[2], fleet.fleet, 'spares plan')
    budgets = [words.budget - words.budget * k // (10 * SMALLER) for k in range(1, SMALLER + 1)] + [
        int(first[2].one('hull')['cost'])
    ]
    budgets = sorted(set(budgets) - {words.budget}, reverse=True)
    plans = [first, plan('log-availability', words.budget)]
    if held:
        plans += [plan('backorders', budget) for budget in budgets]
    else:
        plans += [('backorders', budget, report) for budget, report in zip(budgets, planned(fleet.program, budgets))]
    seen, starts = set(), []
    for aim, budget, report in plans:
        stocks = tuple(report.stocks().items())
        if stocks not in seen:
            seen.add(stocks)
            starts.append((micro(report.one('total')['high']), int(report.one('cost')['cost']), aim, budget, report))
    starts.sort(key=lambda start: start[:2])
    return first[2], starts


def best_from(fleet, starts):
    """The best stocks after exchanges from the best plans; of equal ones the cheapest."""
    found = []
    for _, _, aim, budget, report in starts[:MOST_STARTS]:
        stocks, rounds = improved(fleet, report.stocks())
        found.append(Best(aim, budget, rounds, stocks, fleet.evaluated(stocks).one('total')))
    return min(found, key=lambda best: (micro(best.total['high']), fleet.cost(best.stocks)))


def with_stocks(data, fleet, stocks, upper):
    """A certificate with other stocks and an upper end in millionths, in units of 2^-48."""
    lines = data.decode('latin-1').split('\n')
    pairs = fleet.pairs()
    if 'stocks,%d' % len(pairs) not in lines:
        raise Refused('the certificate that was written cannot be read again: give it a name of its own')
    place = lines.index('stocks,%d' % len(pairs)) + 1
    lines[place : place + len(pairs)] = ['%d' % stocks[pair] for pair in pairs]
    place += len(pairs)
    if not lines[place].startswith('upper,'):
        raise Refused('the certificate is not of the form that docs/CERTIFICATE.md has')
    lines[place] = 'upper,%d' % (upper * 2**48 // 10**6)
    return '\n'.join(lines)


def certified(program, path, cost, total, bound):
    """What `check` says of the certificate, which must have these numbers."""
    ran = program.run('check', '--certificate', path)
    if ran.status != 0:
        raise Refused('spares check refuses the certificate: %s' % ran.fault)
    accepted = reports_of(ran.out, 'spares check')[0]
    said = [accepted.one(kind)[field] for kind, field in (('cost', 'cost'), ('upper', 'value'), ('bound', 'value'))]
    if said != ['%d' % cost, total['high'], bound]:
        raise Refused('spares check says other numbers of the certificate')
    return accepted.one('accepted')['format']


def main():
    words = Words(__doc__)
    words.tables('sites', 'parts', 'rates', 'on-hand')
    words.add_argument('--budget', metavar='N', type=whole_number, required=True)
    words.add_argument('--certificate', metavar='F', required=True)
    words.add_argument('--write-stocks', metavar='F')
    words.program()
    words = words.parse_args()
    inputs = (words.sites, words.parts, words.rates, words.on_hand)
    for path in filter(None, (words.certificate, words.write_stocks)):
        must_be_apart(path, inputs)
    if words.certificate == words.write_stocks:
        raise Refused('the certificate and the stocks need two files')
    with tempfile.TemporaryDirectory() as room:
        fleet = Fleet(words, room)
        plan, starts = starts_of(fleet, words)
        best = best_from(fleet, starts)
    cost, total, bound = fleet.cost(best.stocks), best.total, plan.one('bound')['value']
    upper = micro(total['high'])
    write_file(words.certificate, with_stocks(read_file(words.certificate), fleet.fleet, best.stocks, upper))
    if words.write_stocks:
        write_file(words.write_stocks, stocks_text(fleet.fleet, best.stocks), inputs)
    accepted = certified(fleet.program, words.certificate, cost, total, bound)
    for _, spent, aim, budget, report in starts:
        print('start,%s,%d,%d,%s,%s' % (aim, budget, spent, *report.one('total').values()))
    print('from,%s,%d,%d' % (best.aim, best.budget, best.rounds))
    print('best,%d,%s,%s' % (cost, total['low'], total['high']))
    print('bound,%s\ngap,%s' % (bound, value(upper - micro(bound))))
    print('accepted,%s' % accepted)


if __name__ == '__main__':
    run_script(main)
