"""Floors at their limit: certificates whose floors are exactly the least, one unit more or one unit less, for families of many shapes.

    python3 tests/floors.py PROGRAM

The cases are drawn by fixed seeds, and the model finds the leasts. `check` must answer each certificate as the model does, and refuse it
exactly if a floor is above the least of a leaf. A certificate that is answered otherwise is kept. The last line is
'floors: N passed, M failed', and the status is 1 if one failed. PROGRAM is split like the words of a shell.
"""

import os
import random
import shlex
import shutil
import subprocess
import sys
import tempfile

TESTS = os.path.dirname(os.path.abspath(__file__))
sys.dont_write_bytecode = True
sys.path.insert(0, os.path.join(TESTS, "model"))

import spares
from cases import Case, Frame, Part, Rate, Site, pairs_of
from certificate import OBJECTIVES, Claims, certificate_text
from demands import demands_of, fault_of
from random_floors import FORMS, Leasts, claims_of, families_in, leaf_row, nothing, rows_of

# A name, the number of bases, the kind of rates, and the line units. A line unit has its limits at the depot and at each base, behind each
# `+` the limits of a shop unit, and before an `x` its weight
SHAPES = [
    ("alone", 1, "calm", "2/3"),
    ("alone, nothing at the depot", 2, "calm", "0/4"),
    ("alone, nothing at the bases", 3, "calm", "4/0"),
    ("alone, nothing anywhere", 3, "calm", "0/0"),
    ("alone, five bases", 5, "calm", "3/2"),
    ("fifteen bases", 15, "calm", "1/1+0/1"),
    ("alone, long", 1, "busy", "2/63"),
    ("alone, long at the depot", 2, "deep", "63/2"),
    ("alone, weighted", 2, "calm", "20x2/3"),
    ("one shop unit", 2, "calm", "1/2+1/2"),
    ("one shop unit, which isn't stocked", 2, "calm", "2/2+0/0"),
    ("one shop unit, the only one stocked", 2, "calm", "0/0+2/2"),
    ("two shop units", 2, "calm", "1/2+1/1+1/1"),
    ("two shop units, nothing anywhere", 2, "calm", "0/0+0/0+0/0"),
    ("two shop units, four bases", 4, "busy", "1/2+1/1+0/1"),
    ("three shop units", 1, "calm", "1/2+1/1+1/1+1/1"),
    ("three shop units, two bases", 2, "deep", "1/1+2/0+0/1+1/1"),
    ("eight shop units", 1, "calm", "1/1" + 4 * "+0/1" + 4 * "+0/0"),
    ("still bases", 3, "still", "1/2+1/1 2/2"),
    ("no demand", 2, "none", "1/2 1/1+1/1"),
    ("thin", 2, "thin", "1/2+1/1"),
    ("busy", 2, "busy", "2/9+1/1"),
    ("as much as there may be", 2, "full", "2/9 1/2+1/1"),
    ("deep", 1, "deep", "40/3+2/1"),
    ("line units alone", 2, "calm", "2/3 0/0 1/4 3/0 0/2"),
    ("all kinds", 2, "calm", "2/3 0/0+1/1 1/1+1/1+0/1 7x1/2 1/1+1/0+0/1+0/1"),
    ("all kinds, weighted", 3, "busy", "100x1/2 2x1/1+1/1 0/3 3x0/1+0/1+1/0"),
]

# The least and the largest demand, in ten-thousandths a year, days at the depot and at a base, in hundredths, and the largest chance, in
# ten-thousandths. In a deep case most units are at the depot, so that variances at the bases are larger than means
RATES = {
    "calm": ((5000, 400000), (100, 6000), (100, 6000), 10000),
    "still": ((1, 50000), (100, 6000), (100, 6000), 10000),
    "none": ((0, 0), (100, 6000), (100, 6000), 10000),
    "thin": ((1, 1000), (100, 6000), (100, 6000), 10000),
    "busy": ((500000, 3000000), (100, 6000), (100, 6000), 10000),
    "deep": ((1000000, 3000000), (2000, 9000), (1, 300), 4000),
    "full": ((9000000, 18000000), (100, 6000), (100, 6000), 10000),
}

# Cases of one base whose covers have a leaf for each stock: the kind of rates, the line unit and the aims
SINGLE = [
    ("thin", "0/3", OBJECTIVES),
    ("calm", "0/6", OBJECTIVES),
    ("calm", "2/8", OBJECTIVES),
    ("busy", "0/16", OBJECTIVES),
    ("busy", "0/24", OBJECTIVES[:1]),
    ("busy", "1/40", OBJECTIVES[:1]),
    ("full", "0/63", OBJECTIVES[:1]),
    ("deep", "40/0", OBJECTIVES[:1]),
    ("deep", "30/9", OBJECTIVES[:1]),
    ("deep", "63/9", OBJECTIVES[:1]),
    ("calm", "1/4+1/1", OBJECTIVES),
    ("busy", "1/9+1/2", OBJECTIVES),
    ("deep", "3/9+3/0", OBJECTIVES),
    ("deep", "0/6+1/2+2/0", OBJECTIVES),
]


# Cases


def parts_of(text, rng):
    """The parts of line units in the form of the table above."""
    parts = []
    for number, family in enumerate(text.split()):
        weight, _, members = family.rpartition("x")
        for i, limits in enumerate(members.split("+")):
            most_depot, most_base = map(int, limits.split("/"))
            cost = rng.choice([1, 100, rng.randint(2, 5000)])
            line = "L%d" % number
            if i == 0:
                parts.append(Part(line, "", cost, rng.choice([1, 2]), most_depot, most_base, int(weight or 1)))
            else:
                parts.append(Part("%s-%d" % (line, i), line, cost, 0, most_depot, most_base, 0))
    return parts


def rate_of(kind, part, site, rng):
    """A rate of this kind."""
    demands, depot_days, base_days, most = RATES[kind]
    is_line, chances = part.parent == "", [0, most // 2, most, rng.randint(0, most), rng.randint(1, most - 1)]
    demand = rng.choice([0, rng.randint(*demands)]) if kind == "still" else rng.randint(*demands)
    return Rate(
        demand if is_line and not site.is_depot else 0,
        0 if site.is_depot else rng.choice(chances),
        0 if is_line else rng.choice(chances),
        rng.randint(*(depot_days if site.is_depot else base_days)),
    )


def drawn_case(bases, kind, units, rng, systems=(1, 12, 400)):
    """A case whose rates are accepted. Its parts are in the order of the table or in any."""
    sites = [Site("D", True, 0, 0)]
    sites += [Site("B%d" % j, False, rng.choice(systems), rng.randint(0, 1500)) for j in range(1, bases + 1)]
    while True:
        parts = parts_of(units, rng)
        if rng.random() < 0.5:
            rng.shuffle(parts)
        rates = {(part, site): rate_of(kind, parts[part], sites[site], rng) for part, site in pairs_of(Frame(sites, parts))}
        case = Case(sites, parts, rates)
        if fault_of(case, demands_of(case)) is None:
            return case


# Rows: a name, the claims, and the fields of the refusal or None


def single_cover(limits, at):
    """A cover that has a leaf for each stock at a place."""
    nodes = []
    for stock in range(1, limits[at] + 1):
        nodes += ["split,%d,%d" % (at, stock), "whole"]
    return nodes + ["whole"]


def single_rows(name, case, objective):
    """Each stock of each place is a leaf, at no price: since backorders fall, one more than a leaf's value is refused by that leaf."""
    families = families_in(case)
    limits = families[0].limits
    for at in range(len(limits)):
        covers = [single_cover(limits, at)]
        leasts = Leasts(Claims(2, objective, case, 0, (0, 1), [], covers, nothing(case), 0, 0, None), families)
        for value in sorted(set(leasts.values[0])) if limits[at] else ():
            yield leaf_row("%s, place %d: one more than" % (name, at), leasts, 0, value, 1)


def all_rows():
    for name, bases, kind, units in SHAPES:
        case = drawn_case(bases, kind, units, random.Random(name))
        families = families_in(case)
        for form in FORMS:
            rng = random.Random("%s %s" % (name, form))
            leasts = Leasts(claims_of(case, families, *form, rng), families)
            yield from rows_of("%s, %s: " % (name, ", ".join(map(str, form))), leasts, rng)
    for kind, units, objectives in SINGLE:
        case = drawn_case(1, kind, units, random.Random(kind + units), systems=(400,))
        for objective in objectives:
            yield from single_rows("each stock, %s %s, %s" % (kind, units, objective), case, objective)


# Runs


class OneText(spares.Shelf):
    """A shelf with one file, whatever its name."""

    def __init__(self, text):
        self.text = text

    def read(self, name, most):
        return self.text


def fault_in(program, name, text, wanted):
    """How the program's answer to a certificate differs from the model's, or the model's from the wanted refusal, or None."""
    words = ["check", "--certificate", name]
    with open(name, "wb") as file:
        file.write(text.encode("latin-1"))
    run = subprocess.Popen(program + words, stdin=subprocess.DEVNULL, stdout=subprocess.PIPE, stderr=subprocess.PIPE)
    left = spares.run(words, OneText(text))
    found = *run.communicate(timeout=600), run.returncode
    line = ",".join(map(str, ("fault", "rejected", *wanted))) + "\n" if wanted else ""
    if (left.err.decode("latin-1"), left.status) != (line, 4 if line else 0):
        return "the model answers %r, the leasts say %r" % (left, line)
    modelled = left.out, left.err, left.status
    return None if found == modelled else "found %r, wanted %r" % (found, modelled)


def main():
    if len(sys.argv) != 2:
        sys.exit(__doc__)
    program = shlex.split(sys.argv[1])
    program[0] = os.path.abspath(program[0]) if os.path.exists(program[0]) else program[0]
    room = tempfile.mkdtemp(prefix="floors-")
    passed = failed = 0
    for name, claims, wanted in all_rows():
        place = os.path.join(room, "%d" % (passed + failed))
        fault = fault_in(program, place, certificate_text(claims), wanted)
        if fault is None:
            passed += 1
            os.remove(place)
        else:
            failed += 1
            print("%s: %s\n  its certificate: %s" % (name, fault, place), flush=True)
    if not failed:
        shutil.rmtree(room)
    print("floors: %d passed, %d failed" % (passed, failed))
    sys.exit(1 if failed else 0)


if __name__ == "__main__":
    main()
