#!/usr/bin/env python3
"""A second checker of certificates, apart from the program and from its rounding.

    python3 second_checker.py CERTIFICATE

All that it computes is said in docs/CERTIFICATE.md. Demands, shares, direct pipelines and
zero-stock means are exact fractions. What comes of a series is enclosed by two whole numbers in units of 2^-96, the lower
one rounded down and the upper one up, by the formulas of the definition. Where it accepts, it prints what `spares check`
prints; else it says why not in one line on the standard error, and ends with the status 1. It has no limit of work: a large case
takes it long.
"""

import re
import sys
from collections import namedtuple
from fractions import Fraction
from itertools import product

ONE = 1 << 96     # units of this checker in 1
FINER = 1 << 48   # units of this checker in a unit of the certificate
LEAST_DEPTH = 1024


class Refused(Exception):
    """Why a certificate shows nothing."""


# Bounds: pairs of whole numbers in units of 2^-96 that enclose a value which is never below 0


def up(top, bottom):
    """The quotient, rounded up."""
    return -(-top // bottom)


def bounds_of(fraction):
    return fraction.numerator * ONE // fraction.denominator, up(fraction.numerator * ONE, fraction.denominator)


def scaled(fraction, bounds):
    """Bounds of a fraction of a value."""
    top, bottom = fraction.numerator, fraction.denominator
    return bounds[0] * top // bottom, up(bounds[1] * top, bottom)


def added(*all_bounds):
    return sum(b[0] for b in all_bounds), sum(b[1] for b in all_bounds)


# One pipeline: its backorders and their variance at the stocks from 0 to a limit, at every depth from 1024 on


def weights_of(mean, excess, most):
    """Bounds of the weights from 0 to at least this one, and of the sum of all weights at any depth from 1024 on."""
    low = high = low_sum = high_sum = ONE
    weights = [(low, high)]
    for x in range(1, LEAST_DEPTH + 1):
        low = low * (mean[0] + (x - 1) * excess[0]) // (x * (ONE + excess[1]))
        high = up(high * (mean[1] + (x - 1) * excess[1]), x * (ONE + excess[0]))
        weights.append((low, high))
        low_sum += low
        high_sum += high
        if x % 16 == 0 and x >= most:
            rest = rest_after(x, high, mean, excess)
            if rest is not None and rest <= 1 + (low_sum >> 96):
                return weights, (low_sum, high_sum + rest)
    return weights, (low_sum, None if rest is None else high_sum + rest)


def rest_after(x, weight, mean, excess):
    """What the weights past this one come to at most, or None. Each is at most r times the one before, with r the larger of the
    next ratio and d/(1 + d); so they come to at most weight * r/(1 - r), and for d/(1 + d) this is weight * d."""
    top, bottom = mean[1] + x * excess[1], (x + 1) * (ONE + excess[0])
    if top >= bottom:
        return None
    return max(up(weight * top, bottom - top), up(weight * excess[1], ONE))


def chances_up_to(mean, variance, most):
    """Bounds of the chance of at most s units, for each s below this number."""
    excess = (max(0, variance[0] * ONE // mean[1] - ONE), max(0, up(variance[1] * ONE, mean[0]) - ONE))
    weights, (low_sum, high_sum) = weights_of(mean, excess, most)
    low = high = 0
    chances = []
    for weight in weights[:most]:
        low += 0 if high_sum is None else weight[0] * ONE // high_sum
        high += up(weight[1] * ONE, low_sum)
        chances.append((min(low, ONE), min(high, ONE)))
    return chances


def moments(mean, variance, most):
    """Bounds of EBO and of VBO at the stocks from 0 to this one."""
    if mean[1] == 0:
        return [((0, 0), (0, 0))] * (most + 1)
    larger = max(mean[0], variance[0]), max(mean[1], variance[1])
    first = second = (0, 0)   # the sums over x < s of (s - x) p(x) and of (s - x)^2 p(x)
    rows = []
    for stock, chance in enumerate(chances_up_to(mean, variance, most) + [(0, 0)]):
        far = mean[0] - stock * ONE, mean[1] - stock * ONE
        ebo = max(0, far[0] + first[0]), min(mean[1], far[1] + first[1])
        squares = sorted((far[0] * far[0], far[1] * far[1]))
        if far[0] < 0 < far[1]:
            squares[0] = 0
        low = larger[0] + (squares[0] - ebo[1] * ebo[1]) // ONE - second[1]
        high = larger[1] + up(squares[1] - ebo[0] * ebo[0], ONE) - second[0]
        rows.append((ebo, (max(0, low), max(0, min(high, larger[1])))))
        second = added(second, first, first, chance)
        first = added(first, chance)
    return rows


# The aim at a base


def plain_score(ebo, systems, per_system, weight):
    return weight * ebo[0], weight * ebo[1]


def loss_score(ebo, systems, per_system, weight):
    """The loss of availability: the series is cut from below where its terms vanish, and bounded from above beyond them."""
    places = systems * per_system
    cut = 7 * ONE // 8
    low, high = min(cut, ebo[0] // places), min(cut, up(ebo[1], places))
    low_sum = high_sum = 0
    low_power, high_power = low, high
    for k in range(1, LEAST_DEPTH + 1):
        low_sum += low_power // k
        high_sum += up(high_power, k)
        low_power = low_power * low // ONE
        high_power = up(high_power * high, ONE)
        if high_power <= 8:
            break
    high_sum += up(high_power * ONE, (k + 1) * (ONE - high))
    return places * low_sum, places * high_sum


SCORES = {"backorders": plain_score, "log-availability": loss_score}


# A family: a line unit (0) and its shop units, at the depot (0) and the bases


class Family:
    """The pipelines of a family, and what it aims at and costs."""

    def __init__(self, case, line):
        self.case = case
        self.members = [line] + [k for k, part in enumerate(case.parts) if part.parent == case.parts[line].name]
        self.parts = [case.parts[k] for k in self.members]
        self.shops = range(1, len(self.parts))
        self.sites = range(len(case.sites))
        self.bases = self.sites[1:]
        self.kept = {}
        self.find_rates()

    def find_rates(self):
        """Demands, shares, direct pipelines and zero-stock means, as exact fractions."""
        rate = [[self.case.rates[k, j] for j in self.sites] for k in self.members]
        line = rate[0]
        self.demand, self.share, self.direct, self.bare = ([{} for _ in self.parts] for _ in range(4))

        def sent(i, j):
            """What goes to the depot."""
            return self.demand[i][j] * (1 - rate[i][j].here)

        for j in self.bases:
            self.demand[0][j] = line[j].demand
        self.demand[0][0] = sum(sent(0, j) for j in self.bases)
        for i in self.shops:
            for j in self.bases:
                self.demand[i][j] = line[j].demand * line[j].here * rate[i][j].needed
            self.demand[i][0] = sum(sent(i, j) for j in self.bases) + self.demand[0][0] * rate[i][0].needed
            self.share[i][0] = over(self.demand[0][0] * rate[i][0].needed, self.demand[i][0])
        for i in range(len(self.parts)):
            self.direct[i][0] = self.demand[i][0] * rate[i][0].repair
            for j in self.bases:
                self.share[i][j] = over(sent(i, j), self.demand[i][0])
                ship = self.case.sites[j].ship
                self.direct[i][j] = sent(i, j) * ship + self.demand[i][j] * rate[i][j].here * rate[i][j].repair
        waits = sum(rate[i][0].needed * rate[i][0].repair for i in self.shops)
        for i in self.shops:
            self.bare[i][0] = self.direct[i][0]
            for j in self.bases:
                self.bare[i][j] = self.direct[i][j] + sent(i, j) * rate[i][0].repair
        self.bare[0][0] = self.direct[0][0] + self.demand[0][0] * waits
        for j in self.bases:
            below = sum(self.bare[i][j] for i in self.shops)
            self.bare[0][j] = self.direct[0][j] + sent(0, j) * (line[0].repair + waits) + below

    def check_rates(self):
        for i, part in enumerate(self.parts):
            for j in self.sites:
                direct, bare = self.direct[i][j], self.bare[i][j]
                if (self.demand[i][j] > 0 and direct * 10**7 < 1) or bare > 256 or bare > 1024 * direct:
                    raise Refused("the pipeline of %s at %s" % (part.name, self.case.sites[j].name))

    # pipelines: bounds of mean and variance, and the moments that follow

    def rows(self, key, limit, pipeline):
        """The moments of a pipeline, computed once."""
        if key not in self.kept:
            self.kept[key] = moments(*pipeline(), limit)
        return self.kept[key]

    def feed(self, share, moment):
        """What a share of these backorders adds to mean and variance."""
        ebo, vbo = moment
        return scaled(share, ebo), added(scaled(share * (1 - share), ebo), scaled(share * share, vbo))

    def piped(self, i, j, feeds):
        """Mean and variance: the direct part, and what is fed."""
        direct = bounds_of(self.direct[i][j])
        return added(direct, *(mean for mean, _ in feeds)), added(direct, *(variance for _, variance in feeds))

    def depot_shop(self, i):
        return self.rows(("depot", i), self.parts[i].limit(0), lambda: self.piped(i, 0, []))

    def depot_line(self, shops):
        def feeds():
            return [self.feed(self.share[i][0], self.depot_shop(i)[shops[i - 1]]) for i in self.shops]

        return self.rows(("depot", shops), self.parts[0].limit(0), lambda: self.piped(0, 0, feeds()))

    def base_shop(self, i, j, depot_stock):
        def feeds():
            return [self.feed(self.share[i][j], self.depot_shop(i)[depot_stock])]

        return self.rows(("base", i, j, depot_stock), self.parts[i].limit(j), lambda: self.piped(i, j, feeds()))

    def base_line(self, j, depot, shops):
        """At a base, with the family's stocks at the depot and those of its shop units here."""
        def feeds():
            from_depot = self.feed(self.share[0][j], self.depot_line(depot[1:])[depot[0]])
            return [from_depot] + [self.base_shop(i, j, depot[i])[shops[i - 1]] for i in self.shops]

        return self.rows(("base", j, depot, shops), self.parts[0].limit(j), lambda: self.piped(0, j, feeds()))

    # aims and floors

    def score(self, objective, j, depot, stocks):
        """Bounds of the aim at a base."""
        ebo, _ = self.base_line(j, depot, stocks[1:])[stocks[0]]
        line = self.parts[0]
        return SCORES[objective](ebo, self.case.sites[j].systems, line.per_system, line.weight)

    def aim(self, objective, vector):
        return added((0, 0), *(self.score(objective, j, vector[0], vector[j]) for j in self.bases))

    def cost(self, stocks, held):
        return sum(part.cost * (stock - least) for part, stock, least in zip(self.parts, stocks, held))

    def has_floor(self, floor, claim, low, high, held):
        """Whether no vector of a box has less than the floor, as Q * aim + P * cost: for each choice at the depot, the sum of the
        least at each base. A choice whose cost alone reaches what is looked for needs no backorders, which are never below 0."""
        floor *= FINER
        price = claim.price * FINER
        for depot in product(*ranges(low[0], high[0])):
            least = price * self.cost(depot, held[0])
            for j in self.bases:
                if least >= floor:
                    break
                least += self.least_at(claim, price, j, depot, (low[j], high[j]), held[j], floor - least)
            if least < floor:
                return False
        return True

    def least_at(self, claim, price, j, depot, box, held, enough):
        """The least at a base, or `enough` where it is more."""
        least = enough
        for stocks in product(*ranges(*box)):
            cost = price * self.cost(stocks, held)
            if cost < least:
                least = min(least, cost + claim.per * self.score(claim.objective, j, depot, stocks)[0])
        return least


def over(part, whole):
    return part / whole if whole else Fraction(0)


def ranges(low, high):
    return [range(a, b + 1) for a, b in zip(low, high)]


# The text


Site = namedtuple("Site", "name systems ship")
Rate = namedtuple("Rate", "demand here needed repair")
Certificate = namedtuple("Certificate", "format objective case budget price per floors covers stocks upper bound held")
NAME = re.compile(r'(?! )[ -~]{1,24}(?<! )')


class Part(namedtuple("Part", "name parent cost per_system max_depot max_base weight")):
    def limit(self, site):
        return self.max_base if site else self.max_depot


class Case:
    def __init__(self, sites, parts, rates):
        self.sites, self.parts, self.rates = sites, parts, rates
        self.families = [Family(self, k) for k, part in enumerate(parts) if not part.parent]


class Lines:
    """The lines of a certificate, one after the other."""

    def __init__(self, data):
        self.lines = data.decode("latin-1").split("\n")
        self.at = 0

    def bad(self):
        raise Refused("line %d" % self.at)

    def must(self, holds):
        if not holds:
            self.bad()

    def next(self):
        self.at += 1
        self.must(self.at < len(self.lines))   # the last piece follows the last line feed
        return self.lines[self.at - 1]

    def fields(self, count):
        fields = self.next().split(",")
        self.must(len(fields) == count)
        return fields

    def number(self, text, least, most):
        self.must(re.fullmatch("0|[1-9][0-9]{0,39}", text))
        self.must(least <= int(text) <= most)
        return int(text)

    def decimal(self, text, places, most):
        self.must(re.fullmatch(r"(0|[1-9][0-9]{0,9})\.[0-9]{%d}" % places, text))
        self.must(Fraction(text) <= most)
        return Fraction(text)

    def name(self, text):
        self.must(NAME.fullmatch(text) and '"' not in text)
        return text

    def keyed(self, word, least, most):
        """The number of a line `WORD,N`."""
        found, number = self.fields(2)
        self.must(found == word)
        return self.number(number, least, most)

    def listed(self, word, limits):
        """A line `WORD,COUNT`, and a line with one number for each of these limits."""
        self.keyed(word, len(limits), len(limits))
        return [self.number(self.next(), 0, most) for most in limits]

    def ends(self):
        self.must(self.next() == "end")


DAYS = Fraction(999999, 100)


def read_sites(lines):
    count = lines.keyed("sites", 2, 16)
    name, kind, systems, ship = lines.fields(4)
    lines.must((kind, systems, ship) == ("depot", "", ""))
    sites = [Site(lines.name(name), None, None)]
    for _ in range(1, count):
        name, kind, systems, ship = lines.fields(4)
        lines.must(kind == "base")
        days = lines.decimal(ship, 2, DAYS)
        sites.append(Site(lines.name(name), lines.number(systems, 1, 10000), days / 365))
    return sites


def read_parts(lines):
    head = lines.next().split(",")
    lines.must(len(head) in (2, 3) and head[0] == "parts" and head[2:] in ([], ["weights"]))
    count = lines.number(head[1], len(head) - 2, 2000)
    parts = []
    for k in range(count):
        name, parent, cost, per_system, max_depot, max_base, *weight = lines.fields(6 + len(head) - 2)
        is_line = parent == ""
        lines.must(is_line or (lines.name(parent) and per_system == ""))
        part = Part(
            lines.name(name),
            parent,
            lines.number(cost, 1, 10**8),
            lines.number(per_system, 1, 100) if is_line else None,
            lines.number(max_depot, 0, 63),
            lines.number(max_base, 0, 63),
            lines.number(weight[0], 1, 100) if weight and is_line else 1,
        )
        lines.must(is_line or weight in ([], [""]))
        parts.append(part)
    lines.must(len(head) == 2 or any(part.weight != 1 for part in parts))
    return parts


def read_rates(lines, sites, parts):
    lines.keyed("rates", len(sites) * len(parts), len(sites) * len(parts))
    rates = {}
    for k, part in enumerate(parts):
        for j, site in enumerate(sites):
            found_part, found_site, *fields, days = lines.fields(6)
            lines.must((found_part, found_site) == (part.name, site.name))
            is_line, is_base = part.parent == "", j > 0
            numbers = []
            for text, stands, most in zip(fields, (is_line and is_base, is_base, not is_line), (100000, 1, 1)):
                lines.must(stands or text == "")
                numbers.append(lines.decimal(text, 4, most) if stands else None)
            rates[k, j] = Rate(*numbers, lines.decimal(days, 2, DAYS) / 365)
    return rates


def read_covers(lines, count):
    """For each family its nodes: pairs of AT and FROM, and the words `cost` and `whole`."""
    lines.keyed("covers", count, count)
    covers = []
    for _ in range(count):
        nodes = []
        for _ in range(lines.keyed("cover", 1, 100000)):
            word, *numbers = lines.next().split(",")
            if word == "split":
                lines.must(len(numbers) == 2)
                nodes.append((lines.number(numbers[0], 0, 143), lines.number(numbers[1], 1, 63)))
            else:
                lines.must(word in ("cost", "whole") and numbers == [])
                nodes.append(word)
        covers.append(nodes)
    return covers


def check_frame(sites, parts):
    """Distinct names, and parents that are line units with at most 8 shop units."""
    lines = {part.name for part in parts if not part.parent}
    parents = [part.parent for part in parts if part.parent]
    is_frame = (
        len({site.name for site in sites}) == len(sites)
        and len({part.name for part in parts}) == len(parts)
        and all(parent in lines and parents.count(parent) <= 8 for parent in set(parents))
    )
    if not is_frame:
        raise Refused("the sites and parts make no case")


def read(data):
    """The certificate of a file's bytes, held or not."""
    lines = Lines(data)
    is_held = lines.next() == "spares-held,1"
    first = lines.next() if is_held else lines.lines[0]
    lines.must(first in (("spares-certificate,2",) if is_held else ("spares-certificate,1", "spares-certificate,2")))
    objective = "backorders"
    if first.endswith("2"):
        word, objective = lines.fields(2)
        lines.must(word == "objective" and objective in SCORES)
    sites, parts = read_sites(lines), read_parts(lines)
    rates = read_rates(lines, sites, parts)
    budget = lines.keyed("budget", 0, 10**15)
    word, price, per = lines.fields(3)
    lines.must(word == "price")
    price, per = lines.number(price, 0, 2**74), lines.number(per, 1, 10**12)
    line_count, pairs = sum(not part.parent for part in parts), len(parts) * len(sites)
    floors = lines.listed("floors", [2**115] * line_count)
    covers = read_covers(lines, line_count) if first.endswith("2") else [["whole"]] * line_count
    stocks = lines.listed("stocks", [63] * pairs)
    upper, bound = lines.keyed("upper", 0, 2**85), lines.keyed("bound", 0, 2**85)
    lines.ends()
    check_frame(sites, parts)
    held = None
    if is_held:
        held = lines.listed("held", [part.limit(j) for part in parts for j in range(len(sites))])
        lines.ends()
    lines.at += 1
    lines.must(lines.lines[lines.at - 1 :] == [""])
    form, case = int(first[-1]), Case(sites, parts, rates)
    return Certificate(form, objective, case, budget, price, per, floors, covers, stocks, upper, bound, held)


# What must be verified


def site_by_site(family, stocks):
    """A family's vector: for each site the line unit's stock and those of its shop units."""
    count = len(family.case.sites)
    return [tuple(stocks[k * count + j] for k in family.members) for j in family.sites]


def leaves_of(nodes, low, high):
    """The leaves of a cover with their boxes, whose corners are flat lists; the nodes must be a tree."""
    boxes, leaves = [(low, high)], []
    for node in nodes:
        if not boxes:
            raise Refused("a cover with nodes that are left over")
        low, high = boxes.pop()
        if node in ("cost", "whole"):
            leaves.append((node, low, high))
            continue
        at, start = node
        if at >= len(low) or not low[at] < start <= high[at]:
            raise Refused("a cover with a split that isn't lawful")
        boxes.append((low[:at] + [start] + low[at + 1 :], high))
        boxes.append((low, high[:at] + [start - 1] + high[at + 1 :]))
    if boxes:
        raise Refused("a cover that ends too early")
    return leaves


def sites_of(family, flat):
    width = len(family.parts)
    return [tuple(flat[width * j : width * (j + 1)]) for j in family.sites]


def check_stocks(claim, held):
    """Within the limits, not below what is held, within the budget. Answers the cost."""
    places = [(part, j) for part in claim.case.parts for j in range(len(claim.case.sites))]
    for (part, j), stock, least in zip(places, claim.stocks, held):
        if not least <= stock <= part.limit(j):
            raise Refused("the stock of %s at %s" % (part.name, claim.case.sites[j].name))
    cost = sum(part.cost * (stock - least) for (part, _), stock, least in zip(places, claim.stocks, held))
    if cost > claim.budget:
        raise Refused("the stocks cost more than the budget")
    return cost


def check_bound(claim):
    if claim.bound > max(0, (sum(claim.floors) - claim.price * claim.budget) // claim.per):
        raise Refused("the bound is higher than the floors show")


def check_upper(claim):
    aims = [family.aim(claim.objective, site_by_site(family, claim.stocks)) for family in claim.case.families]
    if sum(high for _, high in aims) > claim.upper * FINER:
        raise Refused("the upper end is too low")


def check_floors(claim, all_leaves, held):
    for family, floor, leaves in zip(claim.case.families, claim.floors, all_leaves):
        least = site_by_site(family, held)
        for kind, low, high in leaves:
            low, high = sites_of(family, low), sites_of(family, high)
            if kind == "cost":
                cost = sum(family.cost(low[j], least[j]) for j in family.sites)
                is_floor = floor <= claim.price * cost
            else:
                is_floor = family.has_floor(floor, claim, low, high, least)
            if not is_floor:
                raise Refused("the floor of %s is too high" % family.parts[0].name)


def check(claim):
    """Answers what the stocks cost, beyond what is held, where every claim holds."""
    held = claim.held or [0] * len(claim.stocks)
    families = claim.case.families
    for family in families:
        family.check_rates()
    all_leaves = []
    for family, nodes in zip(families, claim.covers):
        low = [stock for stocks in site_by_site(family, held) for stock in stocks]
        high = [part.limit(j) for j in family.sites for part in family.parts]
        all_leaves.append(leaves_of(nodes, low, high))
    cost = check_stocks(claim, held)
    check_bound(claim)
    check_upper(claim)
    check_floors(claim, all_leaves, held)
    return cost


def six_places(millionths):
    return "%d.%06d" % divmod(millionths, 10**6)


def report(data):
    """The lines of an accepted certificate, as `spares check` prints them."""
    claim = read(data)
    cost = check(claim)
    lines = ["accepted,%d" % claim.format, "budget,%d" % claim.budget, "cost,%d" % cost]
    if claim.held is not None:
        costs = [part.cost for part in claim.case.parts for _ in claim.case.sites]
        lines.append("on-hand,%d" % sum(stock * each for stock, each in zip(claim.held, costs)))
    lines.append("upper,%s" % six_places(up(claim.upper * 10**6, FINER)))
    lines.append("bound,%s" % six_places(claim.bound * 10**6 // FINER))
    return "\n".join(lines) + "\n"


def main():
    if len(sys.argv) != 2 or sys.argv[1] in ("-h", "--help"):
        sys.exit("usage: python3 second_checker.py CERTIFICATE")
    try:
        with open(sys.argv[1], "rb") as file:
            data = file.read()
    except OSError as reason:
        sys.exit("can't be read: %s" % reason)
    try:
        sys.stdout.write(report(data))
    except Refused as reason:
        sys.exit("refused: %s" % reason)


if __name__ == "__main__":
    main()
