#!/usr/bin/env python3
"""Writes the tables of a made-up wind farm: python3 examples/windfarm/make.py FOLDER

A hub and 8 parks with 166 turbines of one type; 25 line units, of which 15 have one or two shop units, 20 in all.
Nothing in it was measured: the numbers are drawn from ranges that look like the field's, by a generator of its own, so
that the bytes are the same at each run. The tables are as a maintenance system exports them: a byte order mark, CRLF,
texts in quotes, rows by site, and no limits yet. The stocks of today follow no plan.
"""

import os
import sys

# park, turbines, days of order and shipment
PARKS = [
    ('Baltic 1', 40, 6),
    ('Fen', 30, 3),
    ('Dune', 24, 3),
    ('Moor', 22, 4),
    ('Heath', 18, 4),
    ('Ridge', 14, 5),
    ('Spit', 10, 8),
    ('Skerry', 8, 12),
]

# line unit, how many in a turbine, price, removals of each in a thousand years at least and at most, whether parks repair it, and
# its shop units
LINE_UNITS = """\
pitch motor/3/4500/40/80/yes/pitch brake
pitch converter/3/5200/70/110/no/pitch power board/pitch fan
pitch battery/3/380/280/420/no
pitch encoder/3/620/90/140/no
yaw motor/4/3900/35/60/yes/yaw brake
yaw encoder/1/540/60/120/no
main controller/1/9500/60/100/no/controller board/controller display
converter module/2/21000/80/140/no/driver board/capacitor bank
converter fan/4/240/300/500/no
converter filter/6/95/800/1100/no
generator/1/98000/8/16/no/slip ring unit/generator encoder
gearbox/1/148000/5/10/no/oil distributor
oil pump/1/6800/50/90/yes/oil pump motor
hydraulic unit/1/8900/40/80/yes/valve block/accumulator
brake caliper/2/2700/30/50/yes
transformer/1/64000/6/12/no/tap changer
anemometer/2/410/200/300/no
wind vane/2/390/180/260/no
aviation light/2/520/240/360/no/lamp driver
lift winch/1/7200/40/90/yes/winch brake
fire panel/1/3100/30/60/no/fire panel board
switchgear/1/15500/15/30/no/switchgear relay
blade sensor/3/290/200/320/no
UPS module/1/1300/140/220/no/UPS board
network switch/2/450/120/180/no
"""


class Draws:
    """A congruential generator, so that the bytes hang on no version of Python."""

    def __init__(self, seed):
        self.state = seed

    def between(self, least, most):
        self.state = (6364136223846793005 * self.state + 1442695040888963407) % 2**64
        return least + ((self.state >> 33) * (most - least + 1) >> 31)


def decimal(units, places):
    """A decimal without zeros at its end."""
    whole, rest = divmod(units, 10**places)
    return ('%d.%0*d' % (whole, places, rest)).rstrip('0').rstrip('.')


def row(*fields):
    """A row whose texts are in quotes."""
    return ','.join('"%s"' % field if field and not field[0].isdigit() else field for field in fields)


def unit_rates(draws, name, is_line, demands, repairs):
    """The rates of a part, by site. A shop unit has no demand of its own: it follows from its line unit."""
    share = '' if is_line else decimal(100 * draws.between(25, 60), 4)
    rates = {'Hub': row(name, 'Hub', '', '', share, '%d' % draws.between(18, 55))}
    for park, _, _ in PARKS:
        here = 100 * (draws.between(30, 60) if is_line else draws.between(0, 30)) if repairs else 0
        days = draws.between(2, 6) if repairs else 0
        rates[park] = row(
            name, park, decimal(demands[park], 4) if is_line else '', decimal(here, 4), share, '%d' % days
        )
    return rates


def stocks_of(draws, name, is_line, often, per_system):
    """What is stocked today, by site: at the hub by a rule of thumb, and one at the larger parks of what fails often."""
    at_hub = min(60, often * per_system * 166 // 12000 + draws.between(0, 1)) if is_line else draws.between(0, 2)
    stocks = {'Hub': at_hub}
    for park, turbines, _ in PARKS:
        stocks[park] = draws.between(0, 1) + (turbines * often * per_system > 15000) if is_line else 0
    return {site: row(name, site, '%d' % stock) for site, stock in stocks.items()}


def tables():
    """The lines of each table."""
    draws, others = Draws(35), Draws(36)
    parts = ['part,parent,cost,per_system,max_depot,max_base']
    by_site = {site: [] for site in ['Hub'] + [park for park, _, _ in PARKS]}
    stocks_by_site = {site: [] for site in by_site}
    for line in LINE_UNITS.splitlines():
        name, per_system, cost, least, most, repairs, *units = line.split('/')
        often = draws.between(int(least), int(most))
        demands = {
            park: 10 * turbines * int(per_system) * (often + draws.between(-often // 5, often // 5))
            for park, turbines, _ in PARKS
        }
        parts.append(row(name, '', cost, per_system, '0', '0'))
        found = [unit_rates(draws, name, True, demands, repairs == 'yes')]
        stocks = [stocks_of(others, name, True, often, int(per_system))]
        for unit in units:
            parts.append(row(unit, name, '%d' % (int(cost) * draws.between(8, 30) // 100), '', '0', '0'))
            found.append(unit_rates(draws, unit, False, demands, repairs == 'yes'))
            stocks.append(stocks_of(others, unit, False, often, 1))
        for rates, stock in zip(found, stocks):
            for site in by_site:
                by_site[site].append(rates[site])
                stocks_by_site[site].append(stock[site])
    return {
        'sites': ['site,kind,systems,ship_days', row('Hub', 'depot', '', '')]
        + [row(park, 'base', '%d' % turbines, '%d' % days) for park, turbines, days in PARKS],
        'parts': parts,
        'rates': ['part,site,demand,repair_here,share,repair_days']
        + [text for rows in by_site.values() for text in rows],
        'stocks': ['part,site,stock'] + [text for rows in stocks_by_site.values() for text in rows],
    }


def main():
    if len(sys.argv) != 2 or not os.path.isdir(sys.argv[1]):
        sys.stderr.write('make.py: one word is wanted, a folder\n')
        sys.exit(2)
    for table, rows in tables().items():
        with open(os.path.join(sys.argv[1], table + '.csv'), 'wb') as file:
            file.write(b'\xef\xbb\xbf' + ''.join(text + '\r\n' for text in rows).encode('ascii'))


main()
