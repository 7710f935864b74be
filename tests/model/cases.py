"""Frames, cases and stocks: what the rows of tables make (MODEL, A fleet's case; FORMATS, What is refused)."""

from collections import namedtuple

from intervals import decimal_text
from refusals import Refusal

MOST_SHOP_UNITS = 8

# days, demands and probabilities are in units of their last decimal
Site = namedtuple("Site", "name is_depot systems days")
# the parent of a line unit is "", the units per system and the weight of a shop unit are 0
Part = namedtuple("Part", "name parent cost per_system max_depot max_base weight")
Rate = namedtuple("Rate", "demand repair_here share days")
# the first site is the depot
Frame = namedtuple("Frame", "sites parts")
# rates by the pair of numbers of part and site
Case = namedtuple("Case", "sites parts rates")


def is_name(text):
    """1 to 24 bytes from space to `~`, without comma and double quote, and no space at either end."""
    if not 1 <= len(text) <= 24 or text != text.strip(" "):
        return False
    return all(" " <= sign <= "~" and sign not in ',"' for sign in text)


def frame_of(sites, parts):
    """The frame of rows of sites and parts, or the first rule that they break."""
    check_sites(sites)
    check_parts(parts)
    depots = [site for site in sites if site.is_depot]
    return Frame(depots + [site for site in sites if not site.is_depot], parts)


def check_sites(sites):
    for number, site in enumerate(sites):
        before = sites[:number]
        if any(other.name == site.name for other in before):
            raise Refusal(3, "double-site", number + 2)
        if site.is_depot and any(other.is_depot for other in before):
            raise Refusal(3, "two-depots", number + 2)
    if not any(site.is_depot for site in sites):
        raise Refusal(3, "no-depot")
    if all(site.is_depot for site in sites):
        raise Refusal(3, "no-base")


def check_parts(parts):
    rows = {}
    for number, part in enumerate(parts):
        if part.name in rows:
            raise Refusal(3, "double-part", number + 2)
        rows[part.name] = part
    members = {}
    for number, part in enumerate(parts):
        if part.parent == "":
            continue
        if part.parent not in rows:
            raise Refusal(3, "unknown-parent", number + 2)
        if rows[part.parent].parent != "":
            raise Refusal(3, "parent-not-line", number + 2)
        members[part.parent] = members.get(part.parent, 0) + 1
        if members[part.parent] > MOST_SHOP_UNITS:
            raise Refusal(3, "too-many-shop-units", number + 2)


def pairs_of(frame):
    """All pairs of a part and a site, by part and then by site."""
    return [(part, site) for part in range(len(frame.parts)) for site in range(len(frame.sites))]


def names_of(frame, pair):
    """The names of part and site as `PART,SITE`."""
    return frame.parts[pair[0]].name + "," + frame.sites[pair[1]].name


def case_of(frame, rows):
    """The case of a frame and the rows of rates, each a pair with its rate, or the first rule that they break."""
    rates = {}
    for number, (pair, rate) in enumerate(rows):
        if pair in rates:
            raise Refusal(3, "double-rate", number + 2)
        rates[pair] = rate
    for pair in pairs_of(frame):
        if pair not in rates:
            raise Refusal(3, "missing-rate", names_of(frame, pair))
    return Case(frame.sites, frame.parts, rates)


def limit(frame, pair):
    """The most stock of a part at a site."""
    part = frame.parts[pair[0]]
    return part.max_depot if pair[1] == 0 else part.max_base


def stocks_of(case, rows):
    """The stocks by pair of rows of stocks, or the first rule that they break."""
    stocks = {}
    for number, (pair, stock) in enumerate(rows):
        if stock > limit(case, pair):
            raise Refusal(3, "over-limit", number + 2)
        if pair in stocks:
            raise Refusal(3, "double-stock", number + 2)
        stocks[pair] = stock
    for pair in pairs_of(case):
        if pair not in stocks:
            raise Refusal(3, "missing-stock", names_of(case, pair))
    return stocks


def cost_of(case, stocks):
    """The sum of stock times cost of the part."""
    return sum(stock * case.parts[part].cost for (part, _), stock in stocks.items())


def family_of(frame, line):
    """The parts of a family: the line unit and then its shop units in part order."""
    name = frame.parts[line].name
    return [line] + [number for number, part in enumerate(frame.parts) if part.parent == name]


def lines_of(frame):
    """The line units in part order."""
    return [number for number, part in enumerate(frame.parts) if part.parent == ""]


def has_field(part, site):
    """Which fields of a row of rates are numbers: demand, repair_here, share, repair_days (FORMATS, Rates)."""
    is_line = part.parent == ""
    return (is_line and not site.is_depot, not site.is_depot, not is_line, True)


RATE_PLACES = (4, 4, 4, 2)


def case_text(case):
    """The lines of a case (CERTIFICATE, The text)."""
    lines = ["sites,%d" % len(case.sites)]
    lines += [site_line(site) for site in case.sites]
    is_weighted = any(part.parent == "" and part.weight != 1 for part in case.parts)
    lines.append("parts,%d" % len(case.parts) + ",weights" * is_weighted)
    lines += [part_line(part, is_weighted) for part in case.parts]
    lines.append("rates,%d" % len(case.rates))
    lines += [rate_line(case, pair) for pair in pairs_of(case)]
    return lines


def site_line(site):
    if site.is_depot:
        return site.name + ",depot,,"
    return "%s,base,%d,%s" % (site.name, site.systems, decimal_text(site.days, 2))


def part_line(part, is_weighted):
    is_line = part.parent == ""
    fields = [part.name, part.parent, str(part.cost), str(part.per_system) if is_line else ""]
    fields += [str(part.max_depot), str(part.max_base)]
    if is_weighted:
        fields.append(str(part.weight) if is_line else "")
    return ",".join(fields)


def rate_line(case, pair):
    used = has_field(case.parts[pair[0]], case.sites[pair[1]])
    values = zip(case.rates[pair], RATE_PLACES, used)
    return names_of(case, pair) + "," + ",".join(decimal_text(units, places) if is_used else "" for units, places, is_used in values)
