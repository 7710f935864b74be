"""The tables of a fleet, as the scripts of this folder read them: like the program, but for all faults and not for the first alone.

This module is no script. Its calls:

    load(names)    the fleet and the stocks in these files, with all their faults, the program's first
    whole(names)   the same, or Refused with the first fault

Money and stocks are whole numbers; a rate is a whole number in units of its last decimal, as the program takes it.
"""

import csv
import io
import re
from collections import namedtuple

MOST_BYTES = 4194304
MOST_SHOP_UNITS = 8
MARK = b'\xef\xbb\xbf'

# a number of a table: its decimals, and the least and the most that it may be in units of the last one
Number = namedtuple('Number', 'places least most')
SYSTEMS = Number(0, 1, 10000)
COST = Number(0, 1, 100000000)
PER_SYSTEM = Number(0, 1, 100)
WEIGHT = Number(0, 1, 100)
STOCK = Number(0, 0, 63)
DEMAND = Number(4, 0, 100000 * 10**4)
FRACTION = Number(4, 0, 10**4)
DAYS = Number(2, 0, 999999)

HEADERS = {
    'sites': ['site', 'kind', 'systems', 'ship_days'],
    'parts': ['part', 'parent', 'cost', 'per_system', 'max_depot', 'max_base', 'weight'],
    'rates': ['part', 'site', 'demand', 'repair_here', 'share', 'repair_days'],
    'stocks': ['part', 'site', 'stock'],
}
KINDS = ('depot', 'base')
HEADERS['on-hand'] = HEADERS['stocks']
MOST_ROWS = {'sites': 16, 'parts': 2000, 'rates': 32000, 'stocks': 32000, 'on-hand': 32000}

Part = namedtuple('Part', 'name parent cost per_system max_depot max_base weight row')
Rate = namedtuple('Rate', 'demand repair_here share repair_days')
Row = namedtuple('Row', 'number line fields is_whole')
Fault = namedtuple('Fault', 'place text what')


class Site(namedtuple('Site', 'name kind systems ship_days row')):
    """A row of the table of sites; a kind or a number that isn't right or must be empty is None, as in the other tables."""

    @property
    def is_depot(self):
        return self.kind == 'depot'


class Refused(Exception):
    """What is wrong with what a script was given, in one line."""


def read_file(path):
    """The bytes of a file, or Refused."""
    try:
        with open(path, 'rb') as file:
            return file.read()
    except (OSError, ValueError) as error:
        raise Refused('%s: %s' % (path, getattr(error, 'strerror', None) or 'no file has this name'))


def records_of(data):
    """The rows of a table: the fields of each record without blanks round them, the header being row 1, and the line of the file
    on which it begins. A byte is a character here. One byte order mark is dropped, and lines that are empty; a line of blanks is
    a record. No field may hold the byte 0, which some versions of Python refuse: it is read as another that no field may hold.
    """
    csv.field_size_limit(MOST_BYTES + 1)
    text = data[len(MARK) :] if data.startswith(MARK) else data
    lines = io.StringIO(text.replace(b'\0', b'\1').decode('latin-1'), newline='')
    reader = csv.reader(lines)
    rows = []
    line = 1
    for fields in reader:
        if fields:
            rows.append(Row(len(rows) + 1, line, [field.strip(' \t') for field in fields], True))
        line = reader.line_num + 1
    return rows


def units_of(text, places):
    """A decimal in units of its last place, or None where the text is none: digits with at most one point."""
    found = re.fullmatch(r'([0-9]*)\.?([0-9]*)', text)
    if not found or not found.group(1) + found.group(2) or found.group(2)[places:].strip('0'):
        return None
    units = int(found.group(1) + found.group(2)[:places].ljust(places, '0') or '0')
    return units if units < 2**64 else None


def decimal(units, places):
    """The text of a decimal, without zeros that say nothing."""
    if not places:
        return '%d' % units
    return ('%d.%0*d' % (units // 10**places, places, units % 10**places)).rstrip('0').rstrip('.')


def is_name(text):
    return re.fullmatch(r'(?! )[ !#-+\--~]{1,24}(?<! )', text) is not None


def as_header(text):
    """A name of a column as a header spells it: in small letters, without blanks."""
    return text.lower().replace(' ', '_')


def shown(text):
    """A field as it is read by people: what isn't ASCII is spelt out."""
    try:
        text = text.encode('latin-1').decode('utf-8')
    except UnicodeDecodeError:
        pass
    return ascii(text if len(text) <= 40 else text[:37] + '...')


def counted(fields):
    return '1 field' if len(fields) == 1 else '%d fields' % len(fields)


def pair_of(row):
    """The part and the site of a row as they are written; of a row of one field the site is empty."""
    return row.fields[0], row.fields[1] if len(row.fields) > 1 else ''


def spelt(name):
    """A name as it stands, or as it is read by people where it is none."""
    return name if is_name(name) else shown(name)


def in_rows(name, lines):
    """What is said of further rows that have the same wrong name; of one alone, nothing."""
    if len(lines) == 1:
        return None
    place = len(lines), lines[0], lines[-1]
    return (shown(name) if name else 'no name') + ' in %d further rows too, from line %d to line %d' % place


def no_rows(table, name, frame):
    """What is said of the further pairs of a base, the depot or a part that has no row at all."""
    nothing = 'demand' if table == 'rates' else 'stock'
    needs = '; one without %s needs rows with %s 0' % (nothing, nothing)
    why = {
        'base': ' A closed base leaves the table of sites' + needs,
        'depot': '',
        'part': ' A part out of use leaves the table of parts' + needs,
    }
    asked = '%s has no row at all, so %d further %s none too: is it spelt otherwise here?%s'
    return lambda lines: asked % (name, len(lines), 'pair has' if len(lines) == 1 else 'pairs have', why[frame])


def rows_elsewhere(site, other, lines):
    """What is said of the further pairs of a site that have no row, while their parts have one at a site that isn't known."""
    if len(lines) == 1:
        return None
    return '%d further parts have no row at %s, but one at %s' % (len(lines), site, shown(other))


def is_header(fields, table):
    """Whether the columns of a header are known although some are spelt otherwise: as many as there must be, at least half of them
    in their places, and none in the place of another.
    """
    wanted = HEADERS[table]
    if len(fields) != len(wanted) and (table, len(fields)) != ('parts', 6):
        return False
    pairs = [(as_header(field), name) for field, name in zip(fields, wanted)]
    placed = sum(found == name for found, name in pairs)
    return 2 * placed >= len(fields) and not any(found in wanted and found != name for found, name in pairs)


def why_no_number(text, number):
    """What a planner may have meant by a text that is no number."""
    if re.fullmatch(r'[0-9]+,[0-9]+', text):
        return 'has a comma: a decimal has a point, and thousands have no separator'
    if re.fullmatch(r'[0-9]*\.[0-9]*', text) and len(text.partition('.')[2].rstrip('0')) > number.places:
        return 'has too many decimals: at most %d are taken' % number.places if number.places else 'is no whole number'
    if re.fullmatch(r'[0-9.]+', text):
        return 'has two points or no digit' if text.count('.') > 1 or text == '.' else 'is too large'
    if '\xa0' in text or ' ' in text:
        return 'has a blank in it'
    return 'is no number: write digits alone, without signs, separators or units'


def why_no_name(text):
    """What is wrong with a name."""
    if not text:
        return 'there is no name: is this row empty but for blanks or commas?'
    if '\xa0' in text:
        return '%s has a no-break space, which looks like a blank: write it anew' % shown(text)
    if ',' in text or '"' in text:
        return '%s has a comma or a double quote' % shown(text)
    if len(text) > 24:
        return '%s has over 24 bytes' % shown(text)
    return '%s has a letter that is not ASCII' % shown(text)


class Fleet:
    """Sites with the depot first, parts in the order of their table, and the rates of each pair of names."""

    def __init__(self, sites, parts, rates):
        self.sites = [site for site in sites if site.is_depot] + [site for site in sites if not site.is_depot]
        self.bases = [site for site in self.sites if not site.is_depot]
        self.parts = parts
        self.rates = rates
        self.part = {}
        self.site = {}
        for part in parts:
            self.part.setdefault(part.name, part)
        for site in self.sites:
            self.site.setdefault(site.name, site)
        self.families = [
            [part] + [unit for unit in parts if unit.parent == part.name] for part in parts if not part.parent
        ]

    def pairs(self):
        """The names of part and site, in the order of all reports."""
        return [(part.name, site.name) for part in self.parts for site in self.sites]

    def limit(self, part, site):
        """The limit of a part at a site, or None where one of them or the kind of the site isn't known."""
        if part not in self.part or site not in self.site or self.site[site].kind is None:
            return None
        return self.part[part].max_depot if self.site[site].is_depot else self.part[part].max_base

    def kinds(self, row):
        """Whether the part of a row of rates is a shop unit, and whether its site is the depot. What isn't known is taken from
        the fields: a share without a demand is that of a shop unit, and what has neither demand nor repair_here is at the depot.
        """
        part, site, demand, repair_here, share, _ = row.fields
        is_unit = self.part[part].parent is not None if part in self.part else share != '' and demand == ''
        is_depot = demand == '' and repair_here == ''
        if site in self.site and self.site[site].kind is not None:
            is_depot = self.site[site].is_depot
        return is_unit, is_depot


class Lack:
    """What pairs without a row may have in common: a site or a part that no row names, or a site that is spelt otherwise in some."""

    def __init__(self, table, named, fleet, known):
        self.table, self.fleet = table, fleet
        self.parts_at = {}
        # the unknown sites of each part
        self.unknown = {part: [] for part, _ in named}
        for part, site in named:
            self.parts_at.setdefault(site, set()).add(part)
            if site not in known:
                self.unknown[part].append(site)

    def same(self, part, site):
        """What such a pair shares with others, and what is said of these; twice None if nothing."""
        if site not in self.parts_at:
            frame = 'depot' if self.fleet.site[site].is_depot else 'base'
            return (self.table, 'site', site), no_rows(self.table, site, frame)
        if part not in self.unknown:
            return (self.table, 'part', part), no_rows(self.table, part, 'part')
        for other in self.unknown[part]:
            if self.parts_at[other].isdisjoint(self.parts_at[site]):
                return (self.table, 'elsewhere', other, site), lambda lines: rows_elsewhere(site, other, lines)
        return None, None


class Alike:
    """A fault, and further ones that are the same: these are one fault, if there is something to say of their lines."""

    def __init__(self, say):
        self.faults = []
        self.lines = []
        self.say = say

    def add(self, line, fault):
        self.faults.append(fault)
        self.lines.append(line)

    def shown(self):
        what = self.say(self.lines[1:]) if self.faults[1:] else None
        return self.faults[:1] + [self.faults[1]._replace(what=what)] if what else self.faults


class Reader:
    """Reads tables and keeps what is wrong with them, in the order in which the program looks."""

    def __init__(self, names):
        self.names = names
        self.found = []
        self.same = {}
        self.readable = set()
        # the names in rows of sites and parts that have a wrong number of fields
        self.cut = {'sites': set(), 'parts': set()}

    def fault(self, table, line, text, what, same=None, say=None):
        """Keeps a fault, together with those before that are the same; `say` tells of the lines of all but the first."""
        place = self.names[table] if line is None else '%s:%d' % (self.names[table], line)
        alike = self.same.get(same)
        if alike is None:
            alike = Alike(say)
            self.found.append(alike)
            if same is not None:
                self.same[same] = alike
        alike.add(line, Fault(place, 'fault,%s' % text, what))

    def faults(self):
        return [fault for alike in self.found for fault in alike.shown()]

    def rows_of(self, table, data):
        """The rows below the header, each after what is wrong with those before it; none if the columns aren't known. A row without
        any field that holds something has no name, and that is all that is said of it.
        """
        rows = records_of(data)
        if not rows:
            self.fault(table, None, 'no-header,%s' % table, 'the table is empty')
            return
        header = self.header_of(table, rows)
        if header is None:
            return
        columns = len(header.fields)
        self.readable.add(table)
        for row in rows[header.number :]:
            if row.number - 1 > MOST_ROWS[table]:
                self.fault(
                    table,
                    row.line,
                    'too-many-rows,%s' % table,
                    'the table has over %d rows: no further one is looked at' % MOST_ROWS[table],
                )
                return
            if len(row.fields) != columns:
                self.fault(
                    table,
                    row.line,
                    'field-count,%s,%d,%d' % (table, row.number, len(row.fields)),
                    'the row has %s, the header %d: %s' % (counted(row.fields), columns, self.why_count(row, columns)),
                )
                if table in self.cut and row.fields[0]:
                    self.cut[table].add(row.fields[0])
            elif not any(row.fields):
                self.name_in(table, row, 1)
                continue
            yield row._replace(is_whole=len(row.fields) == columns)

    def why_count(self, row, columns):
        if len(row.fields) == 1 and row.fields[0] == '':
            return 'a line of blanks is a row; delete it'
        if len(row.fields) > columns:
            return 'is there a comma in a name or a number?'
        return 'is a column missing, or a quote not closed?'

    def header_of(self, table, rows):
        """The row of the header, whose columns are known, or None. It is the first row, or below a title."""
        header, wanted = rows[0], HEADERS[table]
        columns = 7 if table == 'parts' and len(header.fields) == 7 else 6 if table == 'parts' else len(wanted)
        faults = []
        if len(header.fields) != columns:
            faults.append(
                (
                    'field-count,%s,1,%d' % (table, len(header.fields)),
                    'the header has %s, where %d are wanted' % (counted(header.fields), columns),
                )
            )
        else:
            faults += [
                (
                    'header,%s,%d' % (table, column),
                    'the name of this column is %s, where %s is wanted' % (shown(found), name),
                )
                for column, (found, name) in enumerate(zip(header.fields, wanted), 1)
                if found != name
            ]
        for text, what in faults:
            self.fault(table, header.line, text, what + self.why_header(rows, wanted))
        return next((row for row in rows[: 20 if faults else 1] if is_header(row.fields, table)), None)

    def why_header(self, rows, wanted):
        """What a header that is another may come from."""
        for row in rows[:20]:
            above = '. The header is on line %d: delete what is above it' % row.line if row.number > 1 else ''
            for separator, name in ((',', ''), (';', 'semicolons'), ('\t', 'tabs')):
                fields = row.fields if separator == ',' else row.fields[0].split(separator)
                fields = [field.strip(' \t"') for field in fields]
                if [as_header(field) for field in fields[:3]] == wanted[:3] and (above or name):
                    between = '. The fields have %s between them: save the table with commas, and decimals with points'
                    respelt = '' if fields == wanted[: len(fields)] else '. Wanted is: %s' % ','.join(wanted)
                    return above + (between % name if name else '') + respelt
        if rows[0].fields[0].startswith(MARK.decode('latin-1')):
            return '. There are two byte order marks'
        if [field.lower() for field in rows[0].fields] == wanted[: len(rows[0].fields)]:
            return '. Write it in small letters'
        return '. Wanted is: %s' % ','.join(wanted)

    # fields

    def name_in(self, table, row, column):
        text = row.fields[column - 1]
        if is_name(text):
            return text
        self.name_fault(table, row, column, 'bad-name,%s,%d,%d' % (table, row.number, column), why_no_name(text))
        return None

    def name_fault(self, table, row, column, text, what):
        """What is wrong with a name; the rows of a table that have it too are one fault."""
        name = row.fields[column - 1]
        self.fault(table, row.line, text, what, (table, column, name), lambda lines: in_rows(name, lines))

    def number_in(self, table, row, column, number):
        """A number in units of its last decimal, or None."""
        text = row.fields[column - 1]
        at = '%s,%d,%d' % (table, row.number, column)
        name = HEADERS[table][column - 1]
        if not text:
            self.fault(table, row.line, 'field-empty,%s' % at, '%s is empty: it must hold a number here' % name)
            return None
        units = units_of(text, number.places)
        if units is None:
            self.fault(
                table, row.line, 'bad-number,%s' % at, '%s: %s %s' % (name, shown(text), why_no_number(text, number))
            )
        elif not number.least <= units <= number.most:
            least, most = decimal(number.least, number.places), decimal(number.most, number.places)
            self.fault(
                table,
                row.line,
                'out-of-range,%s' % at,
                '%s: %s is not from %s to %s' % (name, shown(text), least, most),
            )
        else:
            return units
        return None

    def used_in(self, table, row, column, number, why):
        """A number, or None of a field that must be empty, for which there is a reason."""
        if not why:
            return self.number_in(table, row, column, number)
        text = row.fields[column - 1]
        if text:
            self.fault(
                table,
                row.line,
                'field-not-empty,%s,%d,%d' % (table, row.number, column),
                '%s: %s must be empty: %s' % (HEADERS[table][column - 1], shown(text), why),
            )
        return None

    def kind_in(self, row):
        """The kind of a site, also where it has other letters than it must; or None."""
        text = row.fields[1]
        kind = as_header(text)
        if text not in KINDS:
            self.fault(
                'sites', row.line, 'bad-kind,sites,%d' % row.number, 'kind: %s is neither depot nor base' % shown(text)
            )
        return kind if kind in KINDS else None

    # tables

    def sites_of(self, rows):
        sites = []
        for row in rows:
            if not row.is_whole:
                continue
            name = self.name_in('sites', row, 1)
            kind = self.kind_in(row)
            systems = ship_days = None
            if kind is not None:
                why = 'the depot has no systems' if kind == 'depot' else None
                systems = self.used_in('sites', row, 3, SYSTEMS, why)
                ship_days = self.used_in('sites', row, 4, DAYS, why and 'nothing is shipped to the depot')
            sites.append(Site(name, kind, systems, ship_days, row))
        return sites

    def parts_of(self, rows):
        parts = []
        for row in rows:
            if not row.is_whole:
                continue
            name = self.name_in('parts', row, 1)
            parent = self.name_in('parts', row, 2) if row.fields[1] else None
            why = 'a shop unit has none' if row.fields[1] else None
            cost = self.number_in('parts', row, 3, COST)
            per_system = self.used_in('parts', row, 4, PER_SYSTEM, why)
            limits = [self.number_in('parts', row, column, STOCK) for column in (5, 6)]
            weight = 1 if not why else None
            if len(row.fields) == 7:
                weight = self.used_in('parts', row, 7, WEIGHT, why)
            parts.append(Part(name, parent or row.fields[1] or None, cost, per_system, *limits, weight, row))
        return parts

    def frame_of(self, sites):
        """What is wrong with the sites together: the rows are taken one by one."""
        seen = {}
        depots = [site for site in sites if site.is_depot]
        for site in sites:
            at = ',%d' % site.row.number
            if site.name in seen:
                self.fault(
                    'sites', site.row.line, 'double-site' + at, '%s is in row %d already' % (site.name, seen[site.name])
                )
            elif site.is_depot and site is not depots[0]:
                self.fault(
                    'sites', site.row.line, 'two-depots' + at, 'row %d has a depot already' % depots[0].row.number
                )
            if site.name is not None:
                seen.setdefault(site.name, site.row.number)
        if not depots and not self.cut['sites']:
            self.fault('sites', None, 'no-depot', 'no site is the depot')
        if not any(site.kind == 'base' for site in sites) and not self.cut['sites']:
            self.fault('sites', None, 'no-base', 'no site is a base')

    def parents_of(self, parts):
        """What is wrong with the parts together."""
        first = {}
        for part in parts:
            if part.name in first:
                self.fault(
                    'parts',
                    part.row.line,
                    'double-part,%d' % part.row.number,
                    '%s is in row %d already' % (part.name, first[part.name].row.number),
                )
            if part.name is not None:
                first.setdefault(part.name, part)
        units = {}
        for part in parts:
            at = ',%d' % part.row.number
            if part.parent is None or not is_name(part.parent) or part.parent in self.cut['parts']:
                continue
            if part.parent not in first:
                self.fault(
                    'parts',
                    part.row.line,
                    'unknown-parent' + at,
                    'there is no part %s: spell the parent as in its own row' % shown(part.parent),
                )
            elif first[part.parent].parent is not None:
                self.fault('parts', part.row.line, 'parent-not-line' + at, '%s is a shop unit itself' % part.parent)
            else:
                units[part.parent] = units.get(part.parent, 0) + 1
                if units[part.parent] > MOST_SHOP_UNITS:
                    self.fault(
                        'parts',
                        part.row.line,
                        'too-many-shop-units' + at,
                        '%s has %d shop units already' % (part.parent, MOST_SHOP_UNITS),
                    )

    def pair_in(self, table, row, fleet):
        """Names the part and the site of a row that aren't known; where a table of them can't be read, all its names are taken."""
        for column, kind, known in (1, 'part', fleet.part), (2, 'site', fleet.site):
            name = self.name_in(table, row, column)
            frame = kind + 's'
            if name is not None and frame in self.readable and name not in known and name not in self.cut[frame]:
                self.name_fault(
                    table,
                    row,
                    column,
                    'unknown-%s,%s,%d' % (kind, table, row.number),
                    'there is no %s %s in the table of %s' % (kind, shown(name), frame),
                )

    def double(self, fault, table, row):
        """A pair that has a row already, by the names as they are written."""
        part, site = map(spelt, pair_of(row))
        self.fault(table, row.line, '%s,%d' % (fault, row.number), '%s at %s has a row already' % (part, site))

    def rates_of(self, rows, fleet):
        """The rates of each pair; those that were named but aren't right are None."""
        rates = {}
        doubles = []
        for row in rows:
            pair = pair_of(row)
            if not row.is_whole:
                rates.setdefault(pair, None)
                continue
            self.pair_in('rates', row, fleet)
            rate = self.rate_in(row, fleet)
            if pair in rates and all(pair):
                doubles.append(row)
            rates.setdefault(pair, rate)
        for row in doubles:
            self.double('double-rate', 'rates', row)
        return rates

    def rate_in(self, row, fleet):
        """The numbers of a row of rates, or None where one isn't right."""
        is_unit, is_depot = fleet.kinds(row)
        no_demand = 'the depot has no demand of its own' if is_depot else None
        if is_unit:
            no_demand = 'the demand of a shop unit follows from its line unit'
        before = len(self.found)
        demand = self.used_in('rates', row, 3, DEMAND, no_demand)
        repair_here = self.used_in('rates', row, 4, FRACTION, 'the depot repairs what it gets' if is_depot else None)
        share = self.used_in('rates', row, 5, FRACTION, None if is_unit else 'only a shop unit has a share')
        days = self.number_in('rates', row, 6, DAYS)
        return Rate(demand, repair_here, share, days) if len(self.found) == before else None

    def missing(self, table, named, fleet):
        """The pairs that have no row: those of a site or a part without any row are one fault beside the first."""
        lack = Lack(table, named, fleet, self.cut['sites'].union(fleet.site))
        fault = 'missing-rate' if table == 'rates' else 'missing-stock'
        for part, site in fleet.pairs():
            if (part, site) not in named:
                text = '%s,%s,%s' % (fault, part, site)
                what = 'this pair has no row; where %s' % self.row_of_nothing(table, fleet, part, site)
                self.fault(table, None, text, what, *lack.same(part, site))

    def row_of_nothing(self, table, fleet, part, site):
        """The row of a pair where nothing happens, or there is nothing."""
        if table != 'rates':
            return 'there is nothing it is %s,%s,0' % (part, site)
        is_unit, is_depot = fleet.part[part].parent is not None, fleet.site[site].is_depot
        demand, repair_here = '' if is_unit or is_depot else '0', '' if is_depot else '0'
        return 'nothing happens it is ' + ','.join([part, site, demand, repair_here, '0' if is_unit else '', '0'])

    def stocks_of(self, table, rows, fleet):
        """The stock of each pair."""
        stocks = {}
        found = []
        for row in rows:
            if not row.is_whole:
                stocks.setdefault(pair_of(row), None)
                continue
            self.pair_in(table, row, fleet)
            found.append((row, self.number_in(table, row, 3, STOCK)))
        for row, stock in found:
            part, site = pair = pair_of(row)
            limit = fleet.limit(part, site)
            if stock is not None and limit is not None and stock > limit:
                column = 'max_depot' if fleet.site[site].is_depot else 'max_base'
                self.fault(
                    table,
                    row.line,
                    'over-limit,%d' % row.number,
                    '%d of %s at %s, where %s is %d' % (stock, part, site, column, limit),
                )
            if pair in stocks and all(pair):
                self.double('double-stock', table, row)
            stocks.setdefault(pair, stock)
        return stocks


Loaded = namedtuple('Loaded', 'fleet stocks faults')


def load(names):
    """All tables of these files, by the name of their option: `sites` and `parts`, and if they are named `rates`, `stocks` and
    `on-hand`. With the faults of the files, of the tables, and of the rows together; what follows from rates isn't looked at.
    """
    reader = Reader(names)
    data = {}
    for table in HEADERS:
        if names.get(table) is None:
            continue
        try:
            data[table] = read_file(names[table])
        except Refused as error:
            reader.fault(table, None, 'read,%s' % table, str(error).rpartition(': ')[2])
            continue
        if len(data[table]) > MOST_BYTES:
            reader.fault(
                table,
                None,
                'too-long,%s' % table,
                'the file has over %d bytes: are there other sheets or empty columns in it?' % MOST_BYTES,
            )
            del data[table]
    sites = reader.sites_of(reader.rows_of('sites', data['sites'])) if 'sites' in data else []
    parts = reader.parts_of(reader.rows_of('parts', data['parts'])) if 'parts' in data else []
    has_frame = {'sites', 'parts'} <= reader.readable
    if 'sites' in reader.readable:
        reader.frame_of(sites)
    if 'parts' in reader.readable:
        reader.parents_of(parts)
    fleet = Fleet(
        [site for site in sites if site.name is not None], [part for part in parts if part.name is not None], {}
    )
    stocks = {}
    for table in ('rates', 'stocks', 'on-hand'):
        if table not in data:
            continue
        rows = reader.rows_of(table, data[table])
        named = reader.rates_of(rows, fleet) if table == 'rates' else reader.stocks_of(table, rows, fleet)
        if table == 'rates':
            fleet.rates = named
        else:
            stocks[table] = named
        if has_frame and table in reader.readable:
            reader.missing(table, named, fleet)
    return Loaded(fleet if has_frame else None, stocks, reader.faults())


def whole(names):
    """The same where nothing is wrong, and else Refused with the first fault."""
    loaded = load(names)
    if loaded.faults:
        place, text, what = loaded.faults[0]
        raise Refused('%s: %s: %s (lint.py shows all faults)' % (place, text, what))
    return loaded
