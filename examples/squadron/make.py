#!/usr/bin/env python3
"""Writes the tables of a made-up case of an air force: python3 make.py FOLDER

A depot and 8 bases with 76 aircraft of one type; 60 line units, most with one or two shop units. Nothing in it was measured:
the numbers are drawn from ranges that look like the field's, by a generator of its own, so that the bytes are the same at each run.
"""

import os
import sys

# base, aircraft, days of order and shipment, flying hours of an aircraft in a year, does it repair electronics?
BASES = [
    ("Harbour", 18, 3, 260, True),
    ("Plains", 14, 4, 260, True),
    ("Ridge", 12, 4, 280, True),
    ("Lake", 12, 5, 240, True),
    ("Forest", 8, 6, 240, False),
    ("Coast", 6, 8, 300, False),
    ("Island", 4, 11, 320, False),
    ("Strip", 2, 14, 360, False),
]

# the systems, a line each: how many shop units each line unit has, what kind they are, and the line units
SYSTEMS = """\
radar 2 electronic antenna transmitter receiver processor supply
radio 2 electronic transceiver amplifier tuner panel intercom
nav 2 electronic inertial-unit air-data gps-receiver compass display
mission 2 electronic computer recorder head-up map-unit data-link
engine 1 mechanical fuel-control starter igniter sensor-box oil-pump
power 1 electronic generator control-unit inverter battery relay-box
controls 1 electronic computer actuator trim-motor servo stick-sensor
weapons 1 electronic release-unit panel gun-drive pylon-box sight
hydraulics 0 mechanical pump reservoir manifold accumulator filter-module
fuel 0 mechanical boost-pump valve gauge-unit transfer-pump probe-set
gear 0 mechanical actuator wheel brake strut-valve steering-unit
cabin 0 mechanical cooling-pack pressure-valve fan heat-exchanger seat
"""


class Draws:
    """A congruential generator, so that the bytes hang on no version of Python."""

    def __init__(self, seed):
        self.state = seed

    def between(self, least, most):
        self.state = (6364136223846793005 * self.state + 1442695040888963407) % 2**64
        return least + ((self.state >> 33) * (most - least + 1) >> 31)


def tenthousandths(units):
    return "%d.%04d" % divmod(units, 10000)


def line_unit(draws, name, shop_units, is_electronic):
    """The rows of a line unit and of its shop units: parts, rates."""
    cost = draws.between(10, 240) * 1000 if is_electronic else draws.between(4, 120) * 500
    per_system = 2 if draws.between(1, 6) == 1 else 1
    hours = draws.between(4, 40) * 50   # between removals
    depot_days = draws.between(25, 60)
    rates = ["%s,Depot,,,,%d" % (name, depot_days)]
    year = sent = 0
    for base, aircraft, _, flown, repairs in BASES:
        demand = 10000 * aircraft * per_system * flown // hours
        here = draws.between(30, 60) if repairs or not is_electronic else draws.between(0, 10)
        year += demand
        sent += demand * (100 - here) // 100
        rates.append("%s,%s,%s,%s,,%d" % (name, base, tenthousandths(demand), tenthousandths(100 * here), draws.between(2, 6)))
    at_depot = sent * depot_days // 365 // 10000
    parts = ["%s,,%d,%d,%d,%d" % (name, cost, per_system, min(6, 2 + at_depot), 1 + min(2, year // 200000))]
    for number in range(1, shop_units + 1):
        inner = "%s-%d" % (name, number)
        needed, days = draws.between(25, 45), draws.between(15, 40)
        waiting = sent * needed * days // 100 // 365 // 10000
        parts.append("%s,%s,%d,,%d,%d" % (inner, name, cost * draws.between(10, 30) // 100, min(4, 1 + waiting), 2 - number))
        rates.append("%s,Depot,,,%s,%d" % (inner, tenthousandths(100 * needed), days))
        for base, _, _, _, repairs in BASES:
            here = draws.between(10, 40) if repairs else 0
            rates.append("%s,%s,,%s,%s,%d" % (inner, base, tenthousandths(100 * here), tenthousandths(100 * needed), draws.between(2, 5)))
    return parts, rates


def main():
    draws = Draws(8)
    tables = {
        "sites": ["site,kind,systems,ship_days", "Depot,depot,,"] + ["%s,base,%d,%d" % base[:3] for base in BASES],
        "parts": ["part,parent,cost,per_system,max_depot,max_base"],
        "rates": ["part,site,demand,repair_here,share,repair_days"],
    }
    for row in SYSTEMS.splitlines():
        system, shop_units, kind, *units = row.split()
        for unit in units:
            parts, rates = line_unit(draws, "%s-%s" % (system, unit), int(shop_units), kind == "electronic")
            tables["parts"] += parts
            tables["rates"] += rates
    for table, rows in tables.items():
        with open(os.path.join(sys.argv[1], table + ".csv"), "w", newline="") as file:
            file.write("\n".join(rows) + "\n")


main()
