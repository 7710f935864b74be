"""The tables of sites, parts, rates and stocks, read by their bytes (FORMATS, Tables).

A text has one sign for each byte.
"""

from cases import RATE_PLACES, Part, Rate, Site, has_field, is_name
from decimals import decimal_of
from refusals import Refusal

BYTE_ORDER_MARK = "\xef\xbb\xbf"
LINE_ENDS = "\r\n"
BLANKS = " \t"
SITES = ["site", "kind", "systems", "ship_days"]
PARTS = ["part", "parent", "cost", "per_system", "max_depot", "max_base"]
RATES = ["part", "site", "demand", "repair_here", "share", "repair_days"]
STOCKS = ["part", "site", "stock"]
RATE_RANGES = ((0, 10**9), (0, 10**4), (0, 10**4), (0, 999999))


# Records


def records_of(text):
    """The records of a file, each a list of fields."""
    if text.startswith(BYTE_ORDER_MARK):
        text = text[len(BYTE_ORDER_MARK) :]
    records, at = [], 0
    while True:
        while at < len(text) and text[at] in LINE_ENDS:
            at += 1
        if at == len(text):
            return records
        record, at = record_at(text, at)
        records.append(record)


def record_at(text, at):
    """The fields from a place to the end of its line, and the place of that end."""
    fields = []
    while True:
        field, at = field_at(text, at)
        fields.append(field.strip(BLANKS))
        if at == len(text) or text[at] != ",":
            return fields, at
        at += 1


def field_at(text, at):
    """The field at a place, and the place of the comma or the end of the line after it.

    A field is quoted if its first byte is a double quote. In its quoted part two double quotes are one, and one double quote ends the
    part. What follows the end of the quoted part belongs to the field as it is.
    """
    field = ""
    if at < len(text) and text[at] == '"':
        field, at = quoted_at(text, at + 1)
    start = at
    while at < len(text) and text[at] != "," and text[at] not in LINE_ENDS:
        at += 1
    return field + text[start:at], at


def quoted_at(text, at):
    """The quoted part of a field, whose opening quote is passed, and the place after its closing quote."""
    field = ""
    while True:
        end = text.find('"', at)
        if end < 0:
            return field + text[at:], len(text)
        field += text[at:end]
        if text[end + 1 : end + 2] != '"':
            return field, end + 1
        field += '"'
        at = end + 2


# Rows


class Row:
    """A row of a table whose columns are read from left to right."""

    def __init__(self, file, number, fields):
        self.file, self.number, self.fields = file, number, fields

    def refused(self, fault, column):
        return Refusal(3, fault, self.file, self.number, column)

    def name(self, column):
        text = self.fields[column - 1]
        if not is_name(text):
            raise self.refused("bad-name", column)
        return text

    def number_in(self, column, places, low, high):
        text = self.fields[column - 1]
        if text == "":
            raise self.refused("field-empty", column)
        units = decimal_of(text, places)
        if units is None:
            raise self.refused("bad-number", column)
        if not low <= units <= high:
            raise self.refused("out-of-range", column)
        return units

    def empty(self, column):
        if self.fields[column - 1] != "":
            raise self.refused("field-not-empty", column)
        return 0


def rows_of(text, file, headers, most):
    """The rows of a table one after the other, or the first fault of its header, of the number of rows or of a number of fields."""
    records = records_of(text)
    if not records:
        raise Refusal(3, "no-header", file)
    header = [names for names in headers if len(names) == len(records[0])]
    if not header:
        raise Refusal(3, "field-count", file, 1, len(records[0]))
    for column, name in enumerate(header[0], 1):
        if records[0][column - 1] != name:
            raise Refusal(3, "header", file, column)
    for number, fields in enumerate(records[1:], 2):
        if number - 1 > most:
            raise Refusal(3, "too-many-rows", file)
        if len(fields) != len(header[0]):
            raise Refusal(3, "field-count", file, number, len(fields))
        yield Row(file, number, fields)


# The four tables


def read_sites(text):
    return [site_of(row) for row in rows_of(text, "sites", [SITES], 16)]


def site_of(row):
    name = row.name(1)
    kind = row.fields[1]
    if kind == "depot":
        return Site(name, True, row.empty(3), row.empty(4))
    if kind == "base":
        return Site(name, False, row.number_in(3, 0, 1, 10000), row.number_in(4, 2, 0, 999999))
    raise Refusal(3, "bad-kind", row.file, row.number)


def read_parts(text):
    return [part_of(row) for row in rows_of(text, "parts", [PARTS, PARTS + ["weight"]], 2000)]


def part_of(row):
    name = row.name(1)
    is_line = row.fields[1] == ""
    parent = "" if is_line else row.name(2)
    cost = row.number_in(3, 0, 1, 100000000)
    per_system = row.number_in(4, 0, 1, 100) if is_line else row.empty(4)
    max_depot = row.number_in(5, 0, 0, 63)
    max_base = row.number_in(6, 0, 0, 63)
    weight = 1 if is_line else 0
    if len(row.fields) == 7:
        weight = row.number_in(7, 0, 1, 100) if is_line else row.empty(7)
    return Part(name, parent, cost, per_system, max_depot, max_base, weight)


def read_rates(text, frame):
    numbers = numbers_of(frame)
    return [rate_of(row, frame, numbers) for row in rows_of(text, "rates", [RATES], 32000)]


def rate_of(row, frame, numbers):
    """The pair and the rate of a row."""
    part, site = pair_of(row, numbers)
    used = has_field(frame.parts[part], frame.sites[site])
    values = []
    for column in range(3, 7):
        low, high = RATE_RANGES[column - 3]
        is_number = used[column - 3]
        values.append(row.number_in(column, RATE_PLACES[column - 3], low, high) if is_number else row.empty(column))
    return (part, site), Rate(*values)


def read_stocks(text, file, frame):
    """The pairs and the stocks of a table of stocks, which is the file `stocks` or `on-hand`."""
    numbers = numbers_of(frame)
    rows = rows_of(text, file, [STOCKS], 32000)
    return [(pair_of(row, numbers), row.number_in(3, 0, 0, 63)) for row in rows]


def numbers_of(frame):
    """The numbers of the parts and of the sites by their names."""
    parts = {part.name: number for number, part in enumerate(frame.parts)}
    return parts, {site.name: number for number, site in enumerate(frame.sites)}


def pair_of(row, numbers):
    """The pair of numbers of the part and the site that a row names."""
    found = []
    for column, kind in ((1, "part"), (2, "site")):
        name = row.name(column)
        if name not in numbers[column - 1]:
            raise Refusal(3, "unknown-" + kind, row.file, row.number)
        found.append(numbers[column - 1][name])
    return tuple(found)
