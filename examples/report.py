#!/usr/bin/env python3
"""Writes a plan as one page to print or to mail: self-contained, without network or scripts.

    python3 examples/report.py --sites F --parts F --report F [--on-hand F] [--sweep F] [--certificate F] [--title TEXT] [--program F]
        > report.html

--report is what `plan` printed, or `eval` of stocks that a certificate is about, as best_of.py finds them: then the
budget and the bound come from the certificate. --on-hand names the stocks that a plan began from, --sweep what `sweep`
printed of these tables, and --certificate the certificate of these stocks, of which `spares check` is asked. What these
say must fit together.

The page has what to buy and where it lies, with costs; the availability of each base, and the line units that drive its
backorders, as bars; the sweep with the plan in it; the stocks at their limits; the gap in a sentence; the certificate's
name, checksum and what `check` said. A number is rounded to its safe side; the `data` element round it has the numbers
of the report. The same input gives the same bytes. What is wrong is one line on the standard error, with the status 2.
"""

import hashlib
import os
import sys
from html import escape

from buy import bought, held_in, must_agree
from fleet_tables import Refused, read_file, whole
from pictures import points_of, sweep_picture, ticks
from reports import Program, Words, micro, must_fit, report_in, reports_of, run_script, value

MOST_DRIVERS = 5
MARKED = '#b03a5b'

STYLE = '''
:root { --ink: #222; --soft: #5c6670; --line: #d9dee3; --pale: #f4f6f8; --blue: #1f5f99; --red: #b03a5b; }
* { box-sizing: border-box; }
body { margin: 0 auto; padding: 2rem 1.5rem 3rem; max-width: 62rem; color: var(--ink); background: #fff;
  font: .94rem/1.5 "Helvetica Neue", Helvetica, Arial, "DejaVu Sans", sans-serif; }
h1 { margin: 0 0 .3rem; font-size: 1.7rem; font-weight: 600; line-height: 1.25; }
h2 { margin: 2.2rem 0 .7rem; padding-bottom: .3rem; border-bottom: 1px solid var(--line); font-size: 1.15rem; font-weight: 600; }
h3 { margin: 0 0 .4rem; font-size: 1rem; font-weight: 600; }
p { margin: .5rem 0; max-width: 48rem; }
.soft { color: var(--soft); font-size: .88rem; }
.tiles { display: flex; flex-wrap: wrap; gap: .7rem; margin: 1.2rem 0; }
.tile { flex: 1 1 8.5rem; padding: .7rem .9rem; background: var(--pale); border-radius: 6px; }
.tile b { display: block; font-size: 1.3rem; font-weight: 600; white-space: nowrap; font-variant-numeric: tabular-nums; }
.tile span { color: var(--soft); font-size: .82rem; }
table { border-collapse: collapse; font-size: .88rem; font-variant-numeric: tabular-nums; }
th, td { padding: .22rem .55rem; border-bottom: 1px solid var(--line); text-align: right; vertical-align: baseline; white-space: nowrap; }
th { font-weight: 600; vertical-align: bottom; }
th:first-child, td:first-child { padding-left: 0; text-align: left; }
thead th { border-bottom: 1.5px solid #8a949e; }
tfoot td { border-bottom: 0; font-weight: 600; }
.unit td:first-child { padding-left: 1.1rem; color: var(--soft); }
.matrix th.site { padding: .3rem .2rem; text-align: left; vertical-align: bottom; }
.matrix th.site span { writing-mode: vertical-rl; transform: rotate(180deg); }
.matrix td.site { padding: .22rem .35rem; text-align: center; }
.matrix td.zero { color: #b6bec6; }
.matrix td.more { background: #e4eef7; font-weight: 600; }
.matrix td.full { box-shadow: inset 0 -2px 0 var(--red); }
.bases { display: grid; grid-template-columns: repeat(auto-fill, minmax(21rem, 1fr)); gap: 1.2rem 2rem; }
.base { break-inside: avoid; }
.base h3, .rest { display: flex; justify-content: space-between; }
.bar { display: grid; grid-template-columns: 11.5rem 1fr 3.4rem; gap: .5rem; align-items: center; font-size: .85rem; line-height: 1.45; }
.bar span:first-child { overflow-wrap: anywhere; }
.bar span:last-child { text-align: right; font-variant-numeric: tabular-nums; }
.track { display: block; height: .7rem; background: var(--pale); border-radius: 2px; }
.track i { display: block; height: 100%; background: var(--blue); border-radius: 2px; }
.all .track i { background: #6d93b8; }
.picture svg { display: block; width: 100%; height: auto; max-width: 56rem; }
ul.names { margin: .4rem 0; padding: 0; columns: 3 15rem; list-style: none; font-size: .9rem; }
ul.names li { break-inside: avoid; }
code { font: .82rem/1.5 "DejaVu Sans Mono", Menlo, Consolas, monospace; overflow-wrap: anywhere; }
pre { margin: .5rem 0; padding: .6rem .9rem; background: var(--pale); border-radius: 6px; font: .82rem/1.5 "DejaVu Sans Mono", Menlo, Consolas, monospace; white-space: pre-wrap; }
.files td { text-align: left; white-space: normal; }
@media print {
  @page { size: A4; margin: 13mm 12mm; }
  html { font-size: 11px; }
  body { max-width: none; padding: 0; print-color-adjust: exact; -webkit-print-color-adjust: exact; }
  p { max-width: none; }
  h2 { margin-top: 1.5rem; break-after: avoid; }
  .tiles { flex-wrap: nowrap; }
  .tile { flex: 1 1 0; }
  .tile b { font-size: 1.15rem; }
  .bases { grid-template-columns: 1fr 1fr; }
  .picture svg { max-width: 46rem; }
  section.whole, tr, pre { break-inside: avoid; }
  tfoot { display: table-row-group; }
}
@media screen { .scroll { overflow-x: auto; } }
'''


FRAME = """<!DOCTYPE html>
<html xmlns="http://www.w3.org/1999/xhtml" lang="en">
<head>
<meta charset="utf-8"/>
<meta name="viewport" content="width=device-width, initial-scale=1"/>
<title>%s</title>
<style>%s</style>
</head>
<body>
%s
</body>
</html>
"""


def tag(name, *children, **attributes):
    """An element of the page. Children are elements already; texts go through `escape` before."""
    words = ''.join(
        ' %s="%s"' % (key.rstrip('_').replace('_', '-'), escape(str(text))) for key, text in attributes.items()
    )
    return '<%s%s>%s</%s>' % (name, words, ''.join(children), name)


def data(numbers, shown):
    """A number as it is shown, and the numbers of the report that it comes from."""
    return tag('data', escape(shown), value=numbers)


def money(amount):
    return data(amount, '{:,}'.format(int(amount)))


def up(text, places=3):
    """A value with 6 decimals with fewer, rounded up."""
    return rounded(-(-micro(text) // 10 ** (6 - places)), places)


def down(text, places=3):
    return rounded(micro(text) // 10 ** (6 - places), places)


def rounded(units, places):
    return '%d.%0*d' % (units // 10**places, places, units % 10**places)


def percent(ends):
    """A share as percents with one decimal, rounded down."""
    return data('%s,%s' % (ends['low'], ends['high']), rounded(micro(ends['low']) // 1000, 1) + ' %')


def checksum(text):
    return tag('code', hashlib.sha256(text).hexdigest())


def total_of(ends):
    return data('%s,%s' % (ends['low'], ends['high']), up(ends['high']))


class Page:
    """What the page is made of: the words, the tables, the report, and what check says of the certificate."""

    def __init__(self, words):
        self.words = words
        self.fleet, stocks, _ = whole({'sites': words.sites, 'parts': words.parts, 'on-hand': words.on_hand})
        self.report = report_in(words.report, 'plan', 'eval')
        must_fit(self.report, self.fleet, words.report)
        self.stocks = self.report.stocks()
        self.held = held_in(words, stocks, self.report)
        must_agree(words, self.report, self.fleet, self.held)
        self.rows = bought(self.report, self.fleet, self.held)
        self.cost = sum(row[-1] for row in self.rows)
        self.worth = sum(self.fleet.part[part].cost * stock for (part, _), stock in self.held.items())
        self.checked = self.check() if words.certificate else None
        if self.report.kind == 'eval' and not self.checked:
            raise Refused('%s: a report of eval needs the certificate of its stocks' % words.report)
        self.aim = self.report.aim if self.report.kind == 'plan' else 'total'
        if self.report.kind == 'plan':
            self.budget, self.bound, self.gap = (
                self.report.one(kind)[field]
                for kind, field in (('plan', 'budget'), ('bound', 'value'), ('gap', 'value'))
            )
        else:
            self.budget, self.bound = self.checked.one('budget')['budget'], self.checked.one('bound')['value']
            self.gap = value(micro(self.checked.one('upper')['value']) - micro(self.bound))
        if self.checked:
            self.must_be_certified()

    def check(self):
        ran = Program(self.words).run('check', '--certificate', self.words.certificate)
        if ran.status != 0:
            raise Refused('%s: spares check refuses it: %s' % (self.words.certificate, ran.fault))
        self.said = ran.out.decode('ascii')
        return reports_of(ran.out, 'spares check')[0]

    def must_be_certified(self):
        """The certificate is about these stocks: the same budget, cost, upper end and bound."""
        said = [
            self.checked.one(kind)[field]
            for kind, field in (('budget', 'budget'), ('cost', 'cost'), ('upper', 'value'), ('bound', 'value'))
        ]
        if said != [self.budget, '%d' % self.cost, self.report.one(self.aim)['high'], self.bound]:
            raise Refused('%s: the certificate is of other stocks than the report' % self.words.certificate)

    @property
    def counted(self):
        return 'backorders' if self.aim == 'total' else 'loss of availability'

    @property
    def weighted(self):
        return ', each times its weight' if any(part.weight not in (1, None) for part in self.fleet.parts) else ''

    # the parts of the page

    def head(self):
        fleet = self.fleet
        units = sum(part.parent is None for part in fleet.parts)
        what = '%d bases with %d systems, %d line units and %d shop units; depot %s.' % (
            len(fleet.bases),
            sum(site.systems for site in fleet.bases),
            units,
            len(fleet.parts) - units,
            fleet.sites[0].name,
        )
        tiles = [(money(self.budget), 'budget'), (money(self.cost), 'is spent of it')]
        if self.worth:
            tiles.append((money(self.worth), 'the stocks on hand cost'))
        tiles += [
            (percent(self.report.one('fleet')), 'of the systems miss no line unit'),
            (total_of(self.report.one('total')), 'line units are missing on average' + self.weighted),
        ]
        if self.aim == 'loss':
            tiles.append((total_of(self.report.one('loss')), 'loss of availability'))
        no_plan = 'proved bound: no plan has less' + (' loss' if self.aim == 'loss' else '')
        tiles.append((data(self.bound, down(self.bound)), no_plan))
        blocks = [tag('div', tag('b', number), tag('span', name), class_='tile') for number, name in tiles]
        title = tag('h1', escape(self.words.title))
        return [title, tag('p', escape(what), class_='soft'), tag('div', *blocks, class_='tiles')]

    def gap_text(self):
        """What the gap means, and the next step."""
        beyond = ' beyond the stocks on hand' if self.worth else ''
        less = 'fewer' if self.aim == 'total' else 'less'
        text = (
            'No stocks within the limits that cost at most %s%s have %s than %s %s. These stocks have at most %s. '
            % (
                money(self.budget),
                beyond,
                less,
                data(self.bound, down(self.bound)),
                self.counted,
                total_of(self.report.one(self.aim)),
            )
        )
        if micro(self.gap) <= 10:
            text += 'So none are better for this money, but for rounding (a gap of %s).' % data(self.gap, self.gap)
        else:
            share = 100 * micro(self.gap) / micro(self.report.one(self.aim)['high'])
            text += (
                'So other stocks for the same money could save at most %s of it, %.1f in a hundred, and perhaps nothing.'
                % (data(self.gap, up(self.gap)), share)
            )
        step = self.report.one('critical')
        if step and step['part'] != 'none':
            has_units = any(part.parent == step['part'] for part in self.fleet.parts)
            where = '<b>%s</b>%s' % (escape(step['part']), ' and its shop units' if has_units else '')
            costs = money(step['cost']), money(self.report.one('hull')['cost'])
            text += ' The next step is in %s, for %s more than the %s of the steps before.' % (where, *costs)
        return [tag('h2', 'How good it is'), tag('p', text)]

    def cell(self, pair, more):
        """A stock, and how many are bought."""
        stock = self.stocks[pair]
        is_full = stock == self.fleet.limit(*pair) > 0
        kinds = ['site'] + ['more'] * (more > 0) + ['zero'] * (stock == 0) + ['full'] * is_full
        shown = '%d+%d' % (self.held[pair], more) if more and self.worth else '%d' % stock
        return tag('td', data(stock, shown), class_=' '.join(kinds))

    def part_row(self, part, bought_at):
        """The stocks of a part at all sites, how many are bought, and what they cost."""
        pairs = [(part.name, site.name) for site in self.fleet.sites]
        count = sum(bought_at.get(pair, 0) for pair in pairs)
        cells = [self.cell(pair, bought_at.get(pair, 0)) for pair in pairs]
        cost = count * part.cost
        ends = [data(count, '%d' % count if count else ''), data(cost, '{:,}'.format(cost) if count else '')]
        first = [tag('td', escape(part.name)), tag('td', money(part.cost))]
        return tag('tr', *first, *cells, *(tag('td', end) for end in ends), class_='unit' if part.parent else 'line')

    def matrix(self):
        """What is bought, and the stocks of all parts at all sites."""
        bought_at = {(row[0], row[1]): row[3] for row in self.rows}
        sites = [tag('th', tag('span', escape(site.name)), class_='site') for site in self.fleet.sites]
        head = tag('tr', tag('th', 'part'), tag('th', 'unit cost'), *sites, tag('th', 'buy'), tag('th', 'cost'))
        body = [self.part_row(part, bought_at) for family in self.fleet.families for part in family]
        count = sum(row[3] for row in self.rows)
        nothing = [tag('td')] * (1 + len(sites))
        foot = tag('tr', tag('td', 'all'), *nothing, tag('td', data(count, '%d' % count)), tag('td', money(self.cost)))
        table = tag('table', tag('thead', head), tag('tbody', *body), tag('tfoot', foot), class_='matrix')
        note = (
            'A cell has the stock in the end%s; blue: something is bought there; underlined in red: the stock is at its '
            'limit. Shop units stand below their line unit.'
            % (', as what is on hand + what is bought' if self.worth else '')
        )
        return [
            tag('h2', 'What to buy, and where it lies'),
            tag('p', escape(note), class_='soft'),
            tag('div', table, class_='scroll'),
        ]

    def bar(self, name, low, high, most):
        """A bar as long as a number of backorders, all in millionths."""
        width = 100 * high / max(1, most)
        number = data('%s,%s' % (value(low), value(high)), up(value(high)))
        fill = '<i style="width:%.2f%%"></i>' % width
        spans = [tag('span', escape(name)), tag('span', fill, class_='track'), tag('span', number)]
        return tag('div', *spans, class_='bar')

    def waiting(self):
        """The items of line units at bases: where systems wait."""
        for item in self.report.all('item'):
            part = self.fleet.part[item['part']]
            if part.parent is None and not self.fleet.site[item['site']].is_depot:
                yield part, item['site'], micro(item['ebo_low']), micro(item['ebo_high'])

    def base(self, base, most):
        """A base: its availability, and the line units with the most backorders there."""
        mine = sorted((item for item in self.waiting() if item[1] == base['site']), key=lambda item: -item[3])
        bars = [self.bar(part.name, low, high, most) for part, _, low, high in mine[:MOST_DRIVERS]]
        others = mine[MOST_DRIVERS:]
        count = self.fleet.site[base['site']].systems
        ready = tag('span', percent(base), ' of ', '%d system%s' % (count, '' if count == 1 else 's'))
        lines = [tag('h3', tag('span', escape(base['site'])), ready), *bars]
        if others:
            name = 'the %d other line units' % len(others) if len(others) > 1 else escape(others[0][0].name)
            rest = up(value(sum(high for _, _, _, high in others)))
            lines.append(tag('div', tag('span', name), tag('span', rest), class_='soft rest'))
        return tag('div', *lines, class_='base')

    def bases(self):
        """Each base's availability, and what drives its backorders."""
        most = max((high for _, _, _, high in self.waiting()), default=1)
        note = (
            'The share of systems that miss no line unit, and the line units with the most backorders at each base: how many '
            'are missing there on average.'
        )
        blocks = [self.base(base, most) for base in self.report.all('base')]
        return [
            tag('h2', 'Which bases wait, and for what'),
            tag('p', note, class_='soft'),
            tag('div', *blocks, class_='bases'),
        ]

    def drivers(self):
        """The line units with the most backorders in all, weighted as in the total."""
        sums = {}
        for part, _, low, high in self.waiting():
            before = sums.get(part.name, (0, 0))
            sums[part.name] = before[0] + part.weight * low, before[1] + part.weight * high
        order = sorted(sums, key=lambda name: -sums[name][1])[: 2 * MOST_DRIVERS]
        most = max((sums[name][1] for name in order), default=1)
        bars = [self.bar(name, *sums[name], most) for name in order]
        note = 'Backorders at all bases%s: the %d line units with the most.' % (self.weighted, len(order))
        return [
            tag('h2', 'Which line units drive the backorders'),
            tag('p', note, class_='soft'),
            tag('div', *bars, class_='all'),
        ]

    def sweep(self):
        if not self.words.sweep:
            return []
        points = points_of(report_in(self.words.sweep, 'sweep'))
        spent, high = self.cost + self.worth, float(self.report.one('total')['high'])
        if (
            not self.worth
            and self.aim == 'total'
            and abs(bound_at(points, int(self.budget)) - float(self.bound)) > 3e-6
            or high + 1e-6 < bound_at(points, spent)
        ):
            raise Refused('%s: it says another bound than the report: it is of other tables' % self.words.sweep)
        budget = min(int(self.budget) + self.worth, max(points[-1][0], spent))
        far = max(budget * 8 // 5, points[min(len(points) - 1, 12)][0])
        window = ticks(max(min(far, points[-1][0]), spent), spent * 2 // 5)
        picture = sweep_picture(points, window[0], window[-1], high)
        picture.upright(budget, 'this budget', MARKED)
        picture.dot(spent, high, MARKED, 5)
        note = (
            'The money is that of all stocks%s. The red dot is this plan. The stairs are plans without a gap, but for rounding; '
            'no stocks within the limits lie in the shaded region: that is proved.'
            % (', also of those on hand, and the sweep begins from nothing' if self.worth else '')
        )
        return [
            tag('h2', 'What other budgets would bring'),
            tag('p', escape(note), class_='soft'),
            tag('div', picture.text(), class_='picture'),
        ]

    def limits(self):
        full = [(pair, stock) for pair, stock in self.stocks.items() if stock == self.fleet.limit(*pair) > 0]
        if not full:
            return [tag('h2', 'Stocks at their limits'), tag('p', 'None: no limit is in the way.')]
        names = [tag('li', escape('%s at %s: ' % pair), data(stock, '%d' % stock)) for pair, stock in full]
        are = 'One stock is at its limit' if len(full) == 1 else '%d stocks are at their limits' % len(full)
        note = (
            '%s in the table of parts. The bound is said of stocks within the limits: larger ones may bring more.' % are
        )
        return [tag('h2', 'Stocks at their limits'), tag('p', note), tag('ul', *names, class_='names')]

    def certificate(self):
        if not self.checked:
            return []
        name, text = os.path.basename(self.words.certificate), read_file(self.words.certificate)
        size = ', %s bytes, SHA-256 ' % '{:,}'.format(len(text))
        note = (
            'It has the whole case, the budget and the stocks. Whoever has the file can confirm cost, upper end and bound '
            'without these tables.'
        )
        return [
            tag('h2', 'The certificate'),
            tag('p', tag('b', escape(name)), size, checksum(text)),
            tag('pre', escape('$ spares check --certificate %s\n%s' % (name, self.said.rstrip('\n')))),
            tag('p', note, class_='soft'),
        ]

    def sources(self):
        words = self.words
        paths = [('sites', words.sites), ('parts', words.parts), ('stocks on hand', words.on_hand)]
        paths += [('report', words.report), ('sweep', words.sweep)]
        rows = [
            tag('tr', tag('td', name), tag('td', escape(os.path.basename(path))), tag('td', checksum(read_file(path))))
            for name, path in paths
            if path
        ]
        head = tag('tr', *(tag('th', name, style='text-align:left') for name in ('what', 'file', 'SHA-256')))
        proved = (
            'Numbers are rounded to their safe side: availability and bound down, backorders and gap up. Proved are the '
            'intervals of the model for these tables, and the bound. Not proved is that the tables describe the fleet, and '
            'that the model does: it takes demands and times as steady averages, and shops that never queue.'
        )
        return [
            tag('h2', 'What this was made from'),
            tag('table', tag('thead', head), tag('tbody', *rows), class_='files'),
            tag('p', proved, class_='soft'),
        ]

    def text(self):
        short = [self.head(), self.gap_text()], [
            self.drivers(),
            self.sweep(),
            self.limits(),
            self.certificate(),
            self.sources(),
        ]
        long = [self.matrix(), self.bases()]  # these may go on over several sheets
        sections = [(section, 'whole') for section in short[0]] + [(section, 'long') for section in long]
        sections += [(section, 'whole') for section in short[1] if section]
        body = '\n'.join(tag('section', '\n'.join(section), class_=kind) for section, kind in sections)
        return FRAME % (escape(self.words.title), STYLE, body)


def bound_at(points, cost):
    """What the sweep proves of a cost: the lower line at it."""
    for (left, low, _), (right, high, _) in zip(points, points[1:]):
        if left <= cost <= right:
            return low + (high - low) * (cost - left) / (right - left) if right > left else high
    return points[-1][1]


def main():
    words = Words(__doc__)
    words.tables('sites', 'parts', 'on-hand', needed=('sites', 'parts'))
    for option in ('--report', '--sweep', '--certificate'):
        words.add_argument(option, metavar='F', required=option == '--report')
    words.add_argument('--title', metavar='TEXT', default='A plan of spares')
    words.program()
    words = words.parse_args()
    sys.stdout.write(Page(words).text())


if __name__ == '__main__':
    run_script(main)
