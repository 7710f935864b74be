"""Random damage for tests/differential.py: to rows, to texts, to certificates and to words."""

ODD_NUMBERS = ["0", "1", "-1", "1e3", "1.5", ".5", "5.", "0.00001", "64", "101", "99999999999999999999", "100000001"]
ODD_FIELDS = ODD_NUMBERS + ["", "x", " 1", '"1"', "1" + "0" * 25, "0.10000", "D", "depot", "base", "\u00e9", "a" * 25, 'a"b', '"a""b"c"']
ODD_LINES = [b"", b" ", b",", b",,", b"x", b"1,2,3", b'"', b'""', b"-1", b"00", b"end", b"plan", b"cost", b"whole", b"split,0,1", b"\xff\x00"]
ODD_WORDS = ["", "-", "--", "---", "-1", "--x", "--help", "-h", "--sites", "--sites=", "--budget=1", "--format", "1", "2", "x", "\u00e9", "\udcff"]


# Rows


def damaged_rows(rng, rows):
    """One row lost, doubled or moved, one field changed or added, or rows that take the names of others."""
    rows = [list(row) for row in rows]
    at = rng.randrange(len(rows))
    turn = rng.randrange(8)
    if turn == 0:
        del rows[at]
    elif turn == 1:
        rows.insert(rng.randint(0, len(rows)), list(rows[at]))
    elif turn == 2:
        rows[at].append("1") if rng.random() < 0.5 else rows[at].pop()
    elif turn == 3:
        other = rng.choice(rows)
        column = rng.randrange(min(2, len(rows[at]), len(other)))
        rows[at][column] = other[rng.randrange(2) if len(other) > 1 else 0]
    elif turn == 4:
        rows += [list(rows[at]) for _ in range(rng.choice([1, 8, 17]))]
    else:
        rows[at][rng.randrange(len(rows[at]))] = rng.choice(ODD_FIELDS)
    return rows


# Rows that are well formed and wrong: rows that make no case, or no stocks of it, or too much work


def second_depot(rng, rows):
    rng.choice(rows)[1:] = ["depot", "", ""]


def no_depot(rng, rows):
    for row in rows:
        row[1:] = ["base", "3", "2"]


def no_base(rng, rows):
    rows[:] = [row for row in rows if row[1] == "depot"]


def many_sites(rng, rows):
    rows += [["more %d" % number, "base", "1", "1"] for number in range(rng.choice([15, 16, 17]) - len(rows))]


def other_parent(rng, rows):
    """A part that is the shop unit of itself, of any other or of none."""
    row = rng.choice(rows)
    row[1], row[3] = rng.choice([other[0] for other in rows] + ["none"]), ""
    row[6:] = [""] * len(row[6:])


def many_shop_units(rng, rows):
    line = [row[0] for row in rows if not row[1]][0]
    new = [["more %d" % number, line, "1", "", "0", "0"] + [""] * (len(rows[0]) - 6) for number in range(rng.choice([8, 9]))]
    at = rng.randint(0, len(rows))
    rows[at:at] = new


def large_limits(rng, rows):
    """So large that there is too much work, if a line unit has two shop units."""
    if has_two_shop_units(rows):
        for row in rows:
            row[4:6] = ["63", "63"]


def has_two_shop_units(rows):
    parents = [row[1] for row in rows if row[1]]
    return len(parents) > len(set(parents))


def same_name(rng, rows):
    rng.choice(rows)[0] = rng.choice(rows)[0]


def large_stock(rng, rows):
    rng.choice(rows)[2] = rng.choice(["3", "5", "63", "64"])


def same_pair(rng, rows):
    rows.insert(rng.randint(0, len(rows)), list(rng.choice(rows)))


def lost_pair(rng, rows):
    del rows[rng.randrange(len(rows))]


WRONG = {
    "sites": [second_depot, no_depot, no_base, many_sites, same_name],
    "parts": [other_parent, other_parent, many_shop_units, large_limits, same_name],
    "rates": [same_pair, lost_pair],
    "on-hand": [large_stock, large_stock, same_pair, lost_pair],
}


def wrong_rows(rng, file, rows):
    """Rows of a table, with its header, which are well formed and wrong."""
    header, *rows = [list(row) for row in rows]
    if rows:
        rng.choice(WRONG[file])(rng, rows)
    return [header, *rows]


# Texts


def changed_byte(rng, text):
    if not text:
        return b"x"
    at = rng.randrange(len(text))
    return text[:at] + bytes([rng.choice([rng.randrange(256), rng.choice(b'0123456789,\n\r" ')])]) + text[at + 1 :]


def changed_number(rng, text):
    """One number of the text is another one."""
    lines = text.split(b"\n")
    rows = [line.split(b",") for line in lines]
    places = [(row, at) for row, fields in enumerate(rows) for at, field in enumerate(fields) if field.isdigit()]
    if not places:
        return text
    row, at = rng.choice(places)
    value = int(rows[row][at])
    more = value + rng.randint(0, 1 << rng.randint(1, 90))
    rows[row][at] = b"%d" % rng.choice([value + 1, max(0, value - 1), 0, value // 2, value * 2, more])
    return b"\n".join(b",".join(fields) for fields in rows)


def changed_lines(rng, text):
    """Lines are lost, doubled, swapped or replaced, or the text ends early or late."""
    lines = text.split(b"\n")
    at, other = rng.randrange(len(lines)), rng.randrange(len(lines))
    turn = rng.randrange(9)
    if turn == 0:
        del lines[at]
    elif turn == 1:
        lines.insert(at, lines[at])
    elif turn == 2:
        lines[at], lines[other] = lines[other], lines[at]
    elif turn == 3:
        return b"\n".join(lines[:at]) + rng.choice([b"", b"\n"])
    elif turn == 4:
        return text + rng.choice([b"\n", b"x", b"end\n", b"\r\n", b"plan\n"])
    elif turn == 5:
        return text.replace(b"\n", rng.choice([b"\r\n", b"\r", b"\n\n"]))
    elif turn == 6:
        lines[at] = rng.choice(ODD_LINES)
    elif turn == 7:
        lines[at] = lines[other]
    else:
        lines[at] = bytes(rng.choice(b'019,.-" aZ\t\r\xff') for _ in range(rng.randint(0, 12)))
    return b"\n".join(lines)


def damaged_text(rng, text):
    return rng.choice([changed_byte, changed_number, changed_lines, changed_lines])(rng, text)


# Words


def damaged_words(rng, words):
    """A word lost, doubled, swapped, replaced or added, or an option in its other form."""
    words = list(words)
    for _ in range(rng.choice([1, 1, 2, 3])):
        at, other = (rng.randrange(len(words)) if words else 0 for _ in range(2))
        turn = rng.randrange(7)
        if turn == 0 or not words:
            words.insert(at, rng.choice(ODD_WORDS))
        elif turn == 1:
            del words[at]
        elif turn == 2:
            words.insert(at, words[other])
        elif turn == 3:
            words[at], words[other] = words[other], words[at]
        elif turn == 4:
            words[at] = rng.choice(ODD_WORDS + ODD_NUMBERS)
        elif turn == 5:
            words.append(rng.choice(["--", "--", "1", ""]))
        elif at + 1 < len(words) and words[at].startswith("--"):
            words[at : at + 2] = ["%s=%s" % (words[at], words[at + 1])]
    return [word.replace("\0", "") for word in words]


# Certificates


class Claimed:
    """The lines of a certificate by their sections, so that claims can be changed and the text stays in the grammar."""

    def __init__(self, text):
        self.lines = text.decode().split("\n")
        self.is_held = self.lines[0] == "spares-held,1"
        self.at = int(self.is_held)
        self.format = self.number()
        self.objective = self.next() if self.format == 2 else "objective,backorders"
        self.sites = self.section()
        self.parts_line = self.lines[self.at]
        self.parts = self.section()
        self.rates = self.section()
        self.budget = self.number()
        self.price = [int(field) for field in self.next().split(",")[1:]]
        self.floors = [int(line) for line in self.section()]
        self.covers = []
        if self.format == 2:
            self.at += 1
            self.covers = [self.section() for _ in self.floors]
        self.stocks = [int(line) for line in self.section()]
        self.upper = self.number()
        self.bound = self.number()
        self.at += 1
        self.held = [int(line) for line in self.section()] if self.is_held else []

    def next(self):
        self.at += 1
        return self.lines[self.at - 1]

    def number(self):
        return int(self.next().split(",")[1])

    def section(self):
        count = self.number()
        self.at += count
        return self.lines[self.at - count : self.at]

    def box(self, family):
        """The least and the most vector of a family: line unit and shop units at the depot, and then at each base."""
        rows = [line.split(",") for line in self.parts]
        line = [row for row in rows if not row[1]][family]
        members = [rows.index(line)] + [index for index, row in enumerate(rows) if row[1] == line[0]]
        count = len(self.sites)
        low, high = [], []
        for site in range(count):
            low += [self.held[index * count + site] if self.held else 0 for index in members]
            high += [int(rows[index][5 if site else 4]) for index in members]
        return low, high

    def largest_bound(self):
        return max(0, (sum(self.floors) - self.price[0] * self.budget) // self.price[1])

    def text(self):
        lines = ["spares-held,1"] if self.is_held else []
        lines.append("spares-certificate,%d" % self.format)
        if self.format == 2:
            lines.append(self.objective)
        lines += ["sites,%d" % len(self.sites), *self.sites, self.parts_line, *self.parts]
        lines += ["rates,%d" % len(self.rates), *self.rates]
        lines += ["budget,%d" % self.budget, "price,%d,%d" % tuple(self.price)]
        lines += ["floors,%d" % len(self.floors), *map(str, self.floors)]
        if self.format == 2:
            lines.append("covers,%d" % len(self.covers))
            for cover in self.covers:
                lines += ["cover,%d" % len(cover), *cover]
        lines += ["stocks,%d" % len(self.stocks), *map(str, self.stocks)]
        lines += ["upper,%d" % self.upper, "bound,%d" % self.bound, "end"]
        if self.is_held:
            lines += ["held,%d" % len(self.held), *map(str, self.held), "end"]
        return "\n".join(lines + [""]).encode()


def random_cover(rng, low, high, depth, odd=0.03):
    """A tree over this box; now and then, by the chance `odd` at each split, one that isn't."""
    places = [at for at in range(len(low)) if low[at] < high[at]]
    if depth == 0 or not places or rng.random() < 0.3:
        return [rng.choice(["whole", "cost"])]
    at = rng.choice(places)
    start = rng.randint(low[at] + 1, high[at])
    below, above = list(high), list(low)
    below[at], above[at] = start - 1, start
    parts = random_cover(rng, low, below, depth - 1, odd) + random_cover(rng, above, high, depth - 1, odd)
    if rng.random() < odd:
        parts.append(rng.choice(["whole", "cost", "split,0,1"]))
    return ["split,%d,%d" % (at, start)] + parts


def changed_claims(rng, text):
    """The claims are others, often ones that hold: lower floors, another price, other stocks, other covers, one less or more."""
    try:
        claims = Claimed(text)
    except (ValueError, IndexError):
        return text
    if rng.random() < 0.4:
        claims.format = 2
        claims.covers = [random_cover(rng, *claims.box(number), rng.choice([0, 1, 2, 4])) for number in range(len(claims.floors))]
    rng.choice(MOVES)(rng, claims)
    largest = claims.largest_bound()
    claims.bound = rng.choice([largest, largest, claims.bound, largest + 1])
    return claims.text()


def lower_floors(rng, claims):
    claims.floors = [floor * rng.randint(0, 100) // 100 for floor in claims.floors]


def move_floor(rng, claims):
    if claims.floors:
        at = rng.randrange(len(claims.floors))
        claims.floors[at] = max(0, claims.floors[at] + rng.choice([1, 1, -1, 1000]))


def move_price(rng, claims):
    claims.price = [claims.price[0] * rng.randint(0, 300) // 100, claims.price[1]]
    claims.floors = [floor * rng.randint(0, 50) // 100 for floor in claims.floors]


def move_stock(rng, claims):
    if claims.stocks:
        claims.stocks[rng.randrange(len(claims.stocks))] = rng.choice([0, 0, 1, 2, 63])
    claims.upper = rng.choice([claims.upper, 1 << 85])
    claims.budget = rng.choice([claims.budget, claims.budget, 10**6])


def move_held(rng, claims):
    if claims.held:
        claims.held[rng.randrange(len(claims.held))] = rng.choice([0, 0, 1, 2])


def move_upper(rng, claims):
    claims.upper = max(0, claims.upper + rng.choice([-1, -1, 1, -1000]))


def move_budget(rng, claims):
    claims.budget = max(0, claims.budget + rng.choice([-1, 1, -100, -1000, -(10**6)]))


def move_days(rng, claims):
    """The times of one part are others, so that its pipelines may be refused."""
    days = rng.choice(["0.00", "0.01", "9999.99"])
    if claims.rates:
        part = rng.choice(claims.rates).split(",")[0]
        claims.rates = [line.rpartition(",")[0] + "," + days if line.split(",")[0] == part else line for line in claims.rates]


def move_limits(rng, claims):
    """The limits of all parts are so large that there is too much work."""
    rows = [line.split(",") for line in claims.parts]
    large_limits(rng, rows)
    claims.parts = [",".join(row) for row in rows]


def move_name(rng, claims):
    """A site or a part has the name of another."""
    rows = rng.choice([claims.sites, claims.parts])
    if rows:
        first, other = (rng.choice(rows).split(",")[0] for _ in range(2))
        column = 1 if rows is claims.sites else 0
        claims.rates = [renamed(line, column, first, other) for line in claims.rates]
        rows[:] = [renamed(line, 0, first, other) for line in rows]


def renamed(line, column, name, other):
    fields = line.split(",")
    if fields[column] == name:
        fields[column] = other
    return ",".join(fields)


MOVES = [lower_floors, *[move_floor] * 3, move_price, *[move_stock] * 2, *[move_held] * 2, *[move_upper] * 3]
MOVES += [move_budget, move_days, move_limits, move_name]


def changed_certificate(rng, text):
    """A certificate with other claims, with damage to its text, or as it is."""
    turn = rng.random()
    if turn < 0.05:
        return text
    return changed_claims(rng, text) if turn < 0.5 else damaged_text(rng, text)
