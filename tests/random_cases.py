"""Random cases for tests/differential.py: tables as lists of rows, stocks, edits. All is drawn from the random.Random that is given."""

SITE_NAMES = ["D", "North", "South", "East", "a b", "x-1", "base", "depot", "~!", "N" * 24]
PART_NAMES = ["radar", "radio", "pump", "gyro", "L", "K", "S1", "S2", "part", "o'k", "0", "w w", "whole", "end", "-"]
TABLES = ["sites", "parts", "rates"]
HEADERS = {
    "sites": ["site", "kind", "systems", "ship_days"],
    "parts": ["part", "parent", "cost", "per_system", "max_depot", "max_base"],
    "rates": ["part", "site", "demand", "repair_here", "share", "repair_days"],
    "on-hand": ["part", "site", "stock"],
}
MOST_TABLES = 1000
# mostly calm demands; wild ones that may be refused; ones near the limits; ones whose pipelines are decimals; and none
STYLES = ["calm"] * 6 + ["wild", "edge", "exact", "still"]


def decimal(rng, low, high, places):
    """The text of a decimal from low to high."""
    units = rng.randint(round(low * 10**places), round(high * 10**places))
    text = "%d.%0*d" % (units // 10**places, places, units % 10**places) if places else "%d" % units
    if places and rng.random() < 0.7:
        text = text.rstrip("0").rstrip(".")
    return text or "0"


def other_form(rng, text):
    """Now and then the same number in another form."""
    if rng.random() > 0.03 or not text.replace(".", "").isdigit():
        return text
    whole, point, rest = text.partition(".")
    return rng.choice(["00" + text, whole.lstrip("0") + "." + (rest or "0"), whole + "." + rest + "000", text if point else text + "."])


def probability(rng):
    return rng.choice(["0", "1", "0.5", decimal(rng, 0, 1, 4), decimal(rng, 0.1, 0.9, 4), decimal(rng, 0.1, 0.9, 4)])


def random_sites(rng):
    """Rows of sites: one depot anywhere among 1 to 5 bases, now and then up to 15."""
    names = rng.sample(SITE_NAMES, rng.choice([2, 2, 3, 3, 4, 5, 6]))
    if rng.random() < 0.04:
        names += ["B%d" % number for number in range(rng.randint(6, 16) - len(names))]
    rows = [[name, "base", str(rng.choice([1, 2, 12, 24, 10000])), decimal(rng, 0, 15, 2)] for name in names[1:]]
    rows.insert(rng.randint(0, len(rows)), [names[0], "depot", "", ""])
    return rows


def random_parts(rng, bases):
    """Rows of parts with a field for the weight: up to 4 line units with mostly up to 3 shop units each, or up to 6 alone."""
    names = rng.sample(PART_NAMES, len(PART_NAMES))
    is_many = rng.random() < 0.25
    rows = []
    for _ in range(rng.randint(3, 6) if is_many else rng.choice([0, 1, 1, 1, 2, 2, 3, 4])):
        line = names.pop() if names else "line %d" % len(rows)
        cost = rng.randint(5, 60) if is_many else rng.choice([1, 2, 100, 1000, rng.randint(1, 5000)])
        units = 0 if is_many else rng.choice([0, 0, 1, 1, 2, 3]) if bases < 4 else rng.choice([0, 0, 1])
        limits = [rng.choice("0124"), rng.choice("0123")]
        few = rng.random() < 0.05
        if few:
            units = rng.randint(4, 8)
        elif bases < 4 and rng.random() < 0.05:
            limits = [str(rng.randint(0, 63)), str(rng.randint(0, 63))]
        per_system, weight = rng.choice(["1", "1", "2", "100"]), rng.choice(["1", "1", "2", "100"])
        rows.append([line, "", str(cost), per_system, *limits, weight])
        for _ in range(units):
            unit_cost = rng.choice([1, 100, rng.randint(1, 1000)])
            most = ["0", rng.choice("0001")] if few else [rng.choice("012"), rng.choice("01")]
            rows.append([names.pop() if names else "unit %d" % len(rows), line, str(unit_cost), "", *most, ""])
    if rng.random() < 0.3:
        rng.shuffle(rows)
    return rows if tables_of(rows, bases) <= MOST_TABLES else random_parts(rng, bases)


def tables_of(parts, bases):
    """About how many tables a plan of these parts needs."""
    count = 0
    for line in (part for part in parts if not part[1]):
        tables = int(line[4]) + 1
        for shop in (part for part in parts if part[1] == line[0]):
            tables *= (int(shop[4]) + 1) * (int(shop[5]) + 1)
        count += tables * bases
    return count


def random_rate(rng, part, site, style):
    """A row of rates."""
    is_line, is_depot = not part[1], site[1] == "depot"
    demand = {
        "calm": decimal(rng, 0.5, 40, 4),
        "wild": rng.choice(["0", "0.0001", decimal(rng, 0, 5000, 4), decimal(rng, 0, 100, 4)]),
        "edge": rng.choice(["0.0072", "0.0073", "0.0074", "934.3999", "934.4", "934.4001"]),
        "exact": decimal(rng, 0, 3, 4),
        "still": rng.choice(["0", "0", decimal(rng, 0, 5, 4)]),
    }[style]
    days = decimal(rng, 1, 60, 2) if style == "calm" else rng.choice(["0", "0.01", decimal(rng, 0, 200, 2)])
    here = probability(rng)
    if style == "edge":
        days, here = ("0.01", "0.5") if demand.startswith("0") else ("100", "1")
    elif style == "exact":
        days, here = rng.choice(["365", "365", "182.5"]), rng.choice(["1", "1", "0"])
    return [
        part[0],
        site[0],
        demand if is_line and not is_depot else "",
        here if not is_depot else "",
        probability(rng) if not is_line else "",
        days,
    ]


def random_rates(rng, parts, sites):
    """Rows of rates by part and then by site. Near the limits shipment takes no time, or the depot takes about 1,023 times as long."""
    style = rng.choice(STYLES)
    rates = [random_rate(rng, part, site, style) for part in parts for site in sites]
    if style == "edge":
        ship = rng.choice(["0", "5"])
        for site in sites:
            site[3] = ship if site[1] == "base" else ""
        for row in rates if ship == "5" else []:
            if not row[2] and not row[4]:
                row[5] = rng.choice(["5115", "5115", "5115.01"])
            elif row[2]:
                row[2:4] = [rng.choice(["1", "2.5"]), "0"]
    return rates


def random_held(rng, part, site):
    """A row of stocks within the limit."""
    most = int(part[4] if site[1] == "depot" else part[5])
    return [part[0], site[0], str(rng.choice([0, 0, rng.randint(0, most)]))]


def twins(rng):
    """Rows of parts: a line unit with two or three shop units that are alike, and so points with equal cost and equal backorders."""
    cost, most = str(rng.choice([1, 10, rng.randint(1, 300)])), rng.choice("12")
    rows = [["L", "", str(rng.randint(1, 300)), "1", rng.choice("01"), rng.choice("012"), rng.choice("12")]]
    return rows + [[name, "L", cost, "", rng.choice("01"), most, ""] for name in ["S1", "S2", "S3"][: rng.choice([2, 2, 3])]]


def make_parts_alike(rng, parts, sites, rates):
    """Some line units, and some shop units of each, are the same but for their names: equal steps, and equal points."""
    parents = {part[1] for part in parts}
    for parent in sorted(parents):
        group = [index for index, part in enumerate(parts) if part[1] == parent]
        first, *others = rng.sample(group, rng.randint(1, len(group)))
        for index in others:
            make_alike(parts, sites, rates, first, index)


def make_alike(parts, sites, rates, first, other):
    """A part has the fields and the rates of another one."""
    parts[other][2:] = parts[first][2:]
    for site in range(len(sites)):
        rates[other * len(sites) + site][2:] = rates[first * len(sites) + site][2:]


def make_one_dear(rng, parts, sites, rates):
    """One part is dear and all others are cheap and alike, so that they fill the rest of a budget by equal changes."""
    for other in range(2, len(parts)):
        make_alike(parts, sites, rates, 1, other)
    parts[0][2], parts[0][6] = str(rng.randint(100, 900)), "100"


def make_bases_alike(rng, parts, sites, rates):
    """Two bases are the same but for their names."""
    bases = [index for index, site in enumerate(sites) if site[1] == "base"]
    first, other = rng.choice(bases), rng.choice(bases)
    sites[other][1:] = sites[first][1:]
    for part in range(len(parts)):
        rates[part * len(sites) + other][2:] = rates[part * len(sites) + first][2:]


def random_case(rng):
    """Tables as lists of rows, each with its header; some cases have equal parts or equal bases."""
    sites = random_sites(rng)
    has_twins = len(sites) < 4 and rng.random() < 0.15
    parts = twins(rng) if has_twins else random_parts(rng, len(sites) - 1)
    rates = random_rates(rng, parts, sites)
    if len(parts) > 2 and not any(part[1] for part in parts) and rng.random() < 0.5:
        make_one_dear(rng, parts, sites, rates)
    elif has_twins or rng.random() < 0.35:
        make_parts_alike(rng, parts, sites, rates)
    if rng.random() < 0.3:
        make_bases_alike(rng, parts, sites, rates)
    held = [random_held(rng, part, site) for part in parts for site in sites]
    for rows in rates, held:
        if rng.random() < 0.3:
            rng.shuffle(rows)
    is_weighted = rng.random() < 0.4
    header = HEADERS["parts"] + ["weight"] * is_weighted
    parts = [row if is_weighted else row[:6] for row in parts]
    tables = {"sites": sites, "parts": parts, "rates": rates, "on-hand": held}
    return {file: [header if file == "parts" else HEADERS[file]] + rows for file, rows in tables.items()}


def cost_of_all(case):
    """What a case's parts cost, at all sites up to their limits."""
    bases = len(case["sites"]) - 2
    return sum(int(row[2]) * (int(row[4]) + bases * int(row[5])) for row in case["parts"][1:])


def random_edits(rng, case):
    """The lines of edits: budgets, rates and plans."""
    sites, parts, rates = (case[file][1:] for file in TABLES)
    lines = []
    for _ in range(rng.randint(0, 7)):
        turn = rng.random()
        if turn < 0.35 or not rates:
            lines.append("plan")
        elif turn < 0.6:
            lines.append("budget,%d" % rng.randint(0, cost_of_all(case)))
        elif turn < 0.7:
            lines.append("rate," + ",".join(rng.choice(rates)))
        else:
            part, site = rng.choice(parts), rng.choice(sites)
            row = random_rate(rng, part, site, rng.choice(["calm"] * 8 + ["wild", "still"]))
            lines.append("rate," + ",".join(row[:2] + [other_form(rng, field) for field in row[2:]]))
    if rng.random() < 0.1:
        lines.insert(rng.randint(0, len(lines)), rng.choice(["", " ", "plan,", "budget,1.5", "rate,L", "Plan", "budget,x"]))
    return (rng.choice(["\n", "\n", "\r\n"]).join(lines + ["plan"]) + rng.choice(["\n", ""])).encode()


def long_edits(rng):
    """Edits of about as many lines, or as many plans, as there may be; some of the lines are refused."""
    if rng.random() < 0.5:
        lines = ["plan"] * rng.choice([63, 64, 65, 66])
    else:
        lines = [rng.choice(["", "", "budget,%d" % rng.randint(0, 500)]) for _ in range(rng.randint(3998, 4001))]
    if rng.random() < 0.3:
        lines.insert(rng.randint(0, len(lines)), rng.choice(["x", "rate,L,B", "plan"]))
    return ("\n".join(lines) + rng.choice(["", "\n", "\nplan", "\nx", "\n\n"])).encode()


def text_of(rng, rows):
    """The bytes of a table, in one of its forms."""
    end = rng.choice(["\n", "\n", "\n", "\r\n", "\r"])
    blank = rng.choice(["", "", "", " ", "\t"])
    quote = '"' if rng.random() < 0.05 else ""
    rows = [row[:2] + [other_form(rng, field) for field in row[2:]] for row in rows]
    text = end.join(",".join(quote + field + blank + quote for field in row) for row in rows)
    mark = "\ufeff" if rng.random() < 0.05 else ""
    return (mark + text + rng.choice([end, end, end + end, ""])).encode()


def texts_of(rng, case):
    """The tables of a case as bytes."""
    return {file: text_of(rng, rows) for file, rows in case.items()}
