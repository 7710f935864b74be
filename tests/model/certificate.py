"""The text of a certificate, written and read (CERTIFICATE, The text, Covers, Held stocks)."""

from collections import namedtuple

from cases import Case, Frame, Part, Rate, Site, case_text, frame_of, has_field, is_name, limit, names_of, pairs_of
from intervals import ceil_div
from refusals import Refusal

OBJECTIVES = ("backorders", "log-availability")
RATE_FORMS = ((4, 10**9), (4, 10**4), (4, 10**4), (2, 999999))

# stocks and held stocks are by pair; `held` is None if the certificate has no held stocks. A node is the text of its line
Claims = namedtuple("Claims", "form objective case budget price floors covers stocks upper bound held")


# Writing


def trimmed_cover(held, limits, costs, p, floor):
    """The cover that a plan writes: at each place the stocks that are dear enough alone are cut off, and the rest is `whole`."""
    splits = []
    for place, (low, high, cost) in enumerate(zip(held, limits, costs)):
        if p > 0:
            first = low + max(1, ceil_div(floor, p * cost))
            if first <= high:
                splits.append("split,%d,%d" % (place, first))
    return splits + ["whole"] + ["cost"] * len(splits)


def claims_lines(claims):
    lines = ["spares-certificate,%d" % claims.form]
    if claims.form == 2:
        lines.append("objective," + claims.objective)
    lines += case_text(claims.case)
    lines += ["budget,%d" % claims.budget, "price,%d,%d" % claims.price]
    lines += ["floors,%d" % len(claims.floors)] + [str(floor) for floor in claims.floors]
    if claims.form == 2:
        lines.append("covers,%d" % len(claims.covers))
        for nodes in claims.covers:
            lines += ["cover,%d" % len(nodes)] + nodes
    lines += numbers_lines("stocks", claims.case, claims.stocks)
    return lines + ["upper,%d" % claims.upper, "bound,%d" % claims.bound, "end"]


def numbers_lines(word, case, stocks):
    """One number for each pair, by part and then by site."""
    return ["%s,%d" % (word, len(stocks))] + [str(stocks[pair]) for pair in pairs_of(case)]


def certificate_text(claims):
    lines = claims_lines(claims)
    if claims.held is not None:
        lines = ["spares-held,1"] + lines + numbers_lines("held", claims.case, claims.held) + ["end"]
    return "".join(line + "\n" for line in lines)


# Reading


class Lines:
    """The lines of a certificate, read one after the other. The first one that breaks a rule is refused with its number."""

    def __init__(self, text):
        *self.lines, self.rest = text.split("\n")
        self.count = 0

    def next(self):
        self.count += 1
        if self.count > len(self.lines):
            raise self.bad()
        return self.lines[self.count - 1]

    def bad(self):
        return Refusal(4, "bad-line", self.count)

    def must(self, is_right):
        if not is_right:
            raise self.bad()

    def finish(self):
        """Nothing follows the last line."""
        if self.count < len(self.lines) or self.rest:
            self.count += 1
            raise self.bad()

    def whole(self, text, low, high):
        """A whole number without leading zeros."""
        self.must(text != "" and all(sign in "0123456789" for sign in text) and (text == "0" or text[0] != "0"))
        self.must(len(text) <= 40 and low <= int(text) <= high)
        return int(text)

    def decimal(self, text, places, high):
        """A decimal with exactly its places, in units of the last one."""
        whole, point, rest = text.partition(".")
        self.must(point == "." and len(rest) == places and all(sign in "0123456789" for sign in rest))
        units = self.whole(whole, 0, 10**20) * 10**places + int(rest)
        self.must(units <= high)
        return units

    def name(self, text):
        self.must(is_name(text))
        return text

    def empty(self, text):
        self.must(text == "")
        return 0

    def fields(self, count):
        fields = self.next().split(",")
        self.must(len(fields) == count)
        return fields

    def numbered(self, word, low, high):
        """The number of a line `word,N`."""
        fields = self.fields(2)
        self.must(fields[0] == word)
        return self.whole(fields[1], low, high)


def read_certificate(text):
    """The claims of a certificate, or the first line that breaks a rule, or that the sites and parts make no frame."""
    lines = Lines(text)
    is_held = lines.next() == "spares-held,1"
    if not is_held:
        lines.count = 0
    claims = read_claims(lines, (2,) if is_held else (1, 2))
    if not is_held:
        lines.finish()
    try:
        frame = frame_of(claims.case.sites, claims.case.parts)
    except Refusal:
        raise Refusal(4, "bad-case") from None
    if is_held:
        claims = claims._replace(held=read_held(lines, frame))
        lines.finish()
    return claims


def read_held(lines, frame):
    pairs = pairs_of(frame)
    lines.numbered("held", len(pairs), len(pairs))
    held = {pair: lines.whole(lines.next(), 0, limit(frame, pair)) for pair in pairs}
    lines.must(lines.next() == "end")
    return held


def read_claims(lines, forms):
    first = lines.next()
    lines.must(first in ["spares-certificate,%d" % form for form in forms])
    form = int(first[-1])
    objective = OBJECTIVES[0]
    if form == 2:
        word, objective = lines.fields(2)
        lines.must(word == "objective" and objective in OBJECTIVES)
    case = read_case(lines)
    budget = lines.numbered("budget", 0, 10**15)
    word, p, q = lines.fields(3)
    lines.must(word == "price")
    price = (lines.whole(p, 0, 2**74), lines.whole(q, 1, 10**12))
    families = sum(part.parent == "" for part in case.parts)
    lines.numbered("floors", families, families)
    floors = [lines.whole(lines.next(), 0, 2**115) for _ in range(families)]
    covers = read_covers(lines, families) if form == 2 else []
    pairs = pairs_of(case)
    lines.numbered("stocks", len(pairs), len(pairs))
    stocks = {pair: lines.whole(lines.next(), 0, 63) for pair in pairs}
    upper = lines.numbered("upper", 0, 2**85)
    bound = lines.numbered("bound", 0, 2**85)
    lines.must(lines.next() == "end")
    return Claims(form, objective, case, budget, price, floors, covers, stocks, upper, bound, None)


def read_covers(lines, families):
    lines.numbered("covers", families, families)
    return [[read_node(lines) for _ in range(lines.numbered("cover", 1, 100000))] for _ in range(families)]


def read_node(lines):
    node = lines.next()
    if node not in ("cost", "whole"):
        fields = node.split(",")
        lines.must(len(fields) == 3 and fields[0] == "split")
        lines.whole(fields[1], 0, 143)
        lines.whole(fields[2], 1, 63)
    return node


def read_case(lines):
    """Sites, parts and rates; whether they make a frame is looked at later."""
    sites = [read_site(lines, number) for number in range(lines.numbered("sites", 2, 16))]
    parts = read_parts(lines)
    frame = Frame(sites, parts)
    pairs = pairs_of(frame)
    lines.numbered("rates", len(pairs), len(pairs))
    return Case(sites, parts, {pair: read_rate(lines, frame, pair) for pair in pairs})


def read_site(lines, number):
    name, kind, systems, days = lines.fields(4)
    lines.name(name)
    lines.must(kind == ("base" if number else "depot"))
    if number == 0:
        return Site(name, True, lines.empty(systems), lines.empty(days))
    return Site(name, False, lines.whole(systems, 1, 10000), lines.decimal(days, 2, 999999))


def read_parts(lines):
    fields = lines.next().split(",")
    is_weighted = fields[2:] == ["weights"]
    lines.must(fields[0] == "parts" and (len(fields) == 2 or is_weighted))
    count = lines.whole(fields[1], 1 if is_weighted else 0, 2000)
    parts = [read_part(lines, is_weighted) for _ in range(count)]
    lines.must(not is_weighted or any(part.parent == "" and part.weight != 1 for part in parts))
    return parts


def read_part(lines, is_weighted):
    name, parent, cost, per_system, max_depot, max_base, *weight = lines.fields(7 if is_weighted else 6)
    lines.name(name)
    is_line = parent == ""
    if not is_line:
        lines.name(parent)
    counted = 1 if is_line else 0
    if is_weighted:
        counted = lines.whole(weight[0], 1, 100) if is_line else lines.empty(weight[0])
    return Part(
        name,
        parent,
        lines.whole(cost, 1, 100000000),
        lines.whole(per_system, 1, 100) if is_line else lines.empty(per_system),
        lines.whole(max_depot, 0, 63),
        lines.whole(max_base, 0, 63),
        counted,
    )


def read_rate(lines, frame, pair):
    part, site, *fields = lines.fields(6)
    lines.must(part + "," + site == names_of(frame, pair))
    used = has_field(frame.parts[pair[0]], frame.sites[pair[1]])
    forms = zip(fields, used, RATE_FORMS)
    return Rate(*[lines.decimal(field, *form) if is_used else lines.empty(field) for field, is_used, form in forms])
