"""What the scripts of this folder share beside tables: their words, the program, and the reports that it prints.

This module is no script. A number of a report stays a text until somebody computes with it: then `micro` makes it a
whole number.
"""

import argparse
import os
import re
import subprocess
import sys
import tempfile
from collections import namedtuple

from fleet_tables import Refused, read_file

# beside the folder of the script, as it was called
PROGRAM = os.path.join(os.path.dirname(os.path.dirname(os.path.abspath(sys.argv[0]))), 'spares')
NOWHERE = os.devnull

# Words


class Words(argparse.ArgumentParser):
    """The words of a script, whose faults are one line."""

    def __init__(self, doc):
        super().__init__(description=doc, formatter_class=argparse.RawDescriptionHelpFormatter, allow_abbrev=False)

    def error(self, message):
        raise Refused(message)

    def tables(self, *names, needed=('sites', 'parts', 'rates')):
        """Options that name tables."""
        for name in names:
            self.add_argument(
                '--' + name,
                metavar='F',
                required=name in needed,
                help='the table of %s' % {'on-hand': 'the stocks on hand'}.get(name, name),
            )

    def program(self):
        self.add_argument('--program', metavar='F', default=PROGRAM, help='the program, if it is not %(default)s')


def whole_number(text):
    """A whole number among the words."""
    if not re.fullmatch('[0-9]{1,16}', text) or int(text) > 10**15:
        raise argparse.ArgumentTypeError('%s is no whole number from 0 to 1000000000000000' % ascii(text))
    return int(text)


def run_script(main):
    """Runs a script: what is wrong with its input is one line on the standard error, with the status 2."""
    try:
        sys.stdout.reconfigure(encoding='utf-8', errors='surrogateescape', newline='\n')
        status = main()
        sys.stdout.flush()
    except Refused as fault:
        sys.stderr.write('%s: %s\n' % (os.path.basename(sys.argv[0]), fault))
        status = 2
    except BrokenPipeError:
        os.dup2(os.open(NOWHERE, os.O_WRONLY), 1)
        status = 2
    sys.exit(status)


def must_be_apart(path, inputs):
    """Refused where a file that is written is one of the inputs."""
    if any(name and os.path.exists(path) and os.path.exists(name) and os.path.samefile(path, name) for name in inputs):
        raise Refused('%s is one of the inputs' % path)


def write_file(path, text, inputs=()):
    """Writes a text to a file that isn't one of the inputs."""
    must_be_apart(path, inputs)
    try:
        with open(path, 'w', encoding='utf-8', newline='') as file:
            file.write(text)
    except (OSError, ValueError) as error:
        raise Refused('%s: %s' % (path, getattr(error, 'strerror', None) or 'no file has this name'))


# Reports

COUNT = r'\d+'
VALUE = r'\d+\.\d{6}'
PRICE = r'\d+\.\d{12}'
NAME = r'(?! )[ !#-+\--~]{1,24}(?<! )'
RANGE = {'low': VALUE, 'high': VALUE}
ENDS = {'%s_%s' % (name, end): VALUE for name in ('mean', 'variance', 'ebo', 'vbo') for end in ('low', 'high')}
TWO = {'ebo_low': VALUE, 'ebo_high': VALUE, 'poisson_low': VALUE, 'poisson_high': VALUE}
PLACE = {'part': NAME, 'site': NAME, 'stock': COUNT}


def line(kind, how_often='1', **fields):
    """A kind of line of a report: how often it comes (1, `?` for at most once, `*` for any number), and what its fields hold."""
    return kind, how_often, fields


FIGURES = [
    line('item', '*', **PLACE, **ENDS),
    line('base', '*', site=NAME, **RANGE),
    line('fleet', **RANGE),
    line('total', **RANGE),
]
FORMS = {
    'plan': [line('plan', budget=COUNT), line('cost', cost=COUNT), line('on-hand', '?', cost=COUNT)]
    + FIGURES
    + [
        line('loss', '?', **RANGE),
        line('bound', value=VALUE),
        line('gap', value=VALUE),
        line('rounding', value=VALUE),
        line('price', value=PRICE),
        line('hull', cost=COUNT),
        line('critical', part=NAME, cost=COUNT + '|'),
    ],
    'eval': [line('eval', bits=COUNT), line('cost', cost=COUNT)] + FIGURES,
    'compare': [line('compare', bits=COUNT), line('item', '*', **PLACE, **TWO), line('total', **TWO)],
    'sweep': [line('sweep', points=COUNT), line('point', '*', cost=COUNT, **RANGE, price=PRICE + '|none')],
    'target': [
        line('target', backorders=r'\d+\.\d{4}'),
        line('reach', cost=COUNT + '|none', low=VALUE + '|', high=VALUE + '|'),
        line('at-least', cost=COUNT + '|none'),
    ],
    'accepted': [
        line('accepted', format=COUNT),
        line('budget', budget=COUNT),
        line('cost', cost=COUNT),
        line('on-hand', '?', cost=COUNT),
        line('upper', value=VALUE),
        line('bound', value=VALUE),
    ],
}
# lines that may be shorter: the fields that are left out then
SHORTER = {'critical,none': {'part': 'none', 'cost': ''}, 'reach,none': {'cost': 'none', 'low': '', 'high': ''}}


class Report:
    """One report: its kind, and its lines in their order, each a kind and what its fields hold by their names."""

    def __init__(self, kind):
        self.kind = kind
        self.lines = []

    def all(self, kind):
        return [fields for name, fields in self.lines if name == kind]

    def one(self, kind):
        """The fields of a line that comes at most once, or None."""
        return (self.all(kind) or [None])[0]

    @property
    def aim(self):
        """What a plan makes small: the line that its bound is of."""
        return 'loss' if self.one('loss') else 'total'

    def pairs(self):
        return [(item['part'], item['site']) for item in self.all('item')]

    def stocks(self):
        return {(item['part'], item['site']): int(item['stock']) for item in self.all('item')}


def fields_of(text, form):
    """What the fields of a line hold, or None where it is no line of this form."""
    kind, _, names = form
    if text in SHORTER and text.startswith(kind + ','):
        return SHORTER[text]
    found = text.split(',')
    if found[0] != kind or len(found) != len(names) + 1:
        return None
    if not all(re.fullmatch(pattern, field) for pattern, field in zip(names.values(), found[1:])):
        return None
    return dict(zip(names, found[1:]))


def reports_of(data, name):
    """The reports in the bytes of a file, as many as there are, or Refused with the line that is none."""
    lines = data.decode('latin-1').replace('\r\n', '\n').split('\n')
    if lines.pop() != '':
        raise Refused('%s: the last line is cut off' % name)
    if not lines:
        raise Refused('%s: there is no report in it' % name)
    reports = []
    at = 0
    while at < len(lines):
        kind = lines[at].split(',')[0]
        if kind not in FORMS:
            raise Refused('%s, line %d: no report begins with %s' % (name, at + 1, ascii(lines[at])))
        at = read_report(lines, at, kind, name, reports)
    return reports


def read_report(lines, at, kind, name, reports):
    """Reads one report from a line on; the line after it."""
    report = Report(kind)
    for form in FORMS[kind]:
        often = 0
        while at < len(lines) and (form[1] == '*' or not often):
            fields = fields_of(lines[at], form)
            if fields is None:
                break
            report.lines.append((form[0], fields))
            often += 1
            at += 1
        if not often and form[1] == '1':
            found = 'is %s' % ascii(lines[at]) if at < len(lines) else 'is missing'
            raise Refused('%s, line %d: the line %s of a report of %s %s' % (name, at + 1, form[0], kind, found))
    if kind == 'sweep' and len(report.all('point')) != int(report.one('sweep')['points']):
        raise Refused('%s: there are not as many points as its first line says' % name)
    reports.append(report)
    return at


def report_in(path, *kinds):
    """The one report in a file, of one of these kinds."""
    reports = reports_of(read_file(path), path)
    if len(reports) != 1 or reports[0].kind not in kinds:
        raise Refused(
            '%s: one report of %s is wanted, and there is %s'
            % (path, ' or '.join(kinds), ', '.join('one of ' + report.kind for report in reports[:3]))
        )
    return reports[0]


def must_fit(report, fleet, path):
    """Refused where a report isn't of the parts and sites of these tables."""
    if report.pairs() != fleet.pairs():
        raise Refused('%s: its items are not the pairs of these tables of sites and parts' % path)


def micro(text):
    """A value with 6 decimals in millionths."""
    return int(text.replace('.', ''))


def value(millionths):
    """The text of a value in millionths."""
    return '%s%d.%06d' % (('-' if millionths < 0 else '',) + divmod(abs(millionths), 10**6))


# The program

Ran = namedtuple('Ran', 'status out fault')


def show_progress(line):
    sys.stderr.write(line.decode('latin-1'))
    sys.stderr.flush()


class Program:
    """The program, and the tables that it is given."""

    def __init__(self, words):
        self.path = words.program
        self.tables = [
            word for table in ('sites', 'parts', 'rates') for word in ('--' + table, getattr(words, table, None))
        ]

    def run(self, *words):
        """Runs a command: its status, its report and the line of its refusal. If the program is built first, what is said of that
        goes to the standard error."""
        with tempfile.TemporaryFile() as out:
            try:
                ran = subprocess.Popen(
                    [self.path] + [str(word) for word in words],
                    stdin=subprocess.DEVNULL,
                    stdout=out,
                    stderr=subprocess.PIPE,
                )
            except OSError as error:
                raise Refused('the program %s: %s' % (self.path, error.strerror))
            last = b''
            for line in ran.stderr:
                show_progress(last)
                last = line
            ran.stderr.close()
            if ran.wait() == 0:
                show_progress(last)
            out.seek(0)
            return Ran(ran.returncode, out.read(), last.decode('latin-1').strip())

    def reports(self, command, *words):
        """The reports of a command that is given the tables, or Refused with its fault."""
        ran = self.run(command, *self.tables, *words)
        if ran.status != 0:
            raise Refused('spares %s: %s' % (command, ran.fault or 'it ended with the status %d' % ran.status))
        return reports_of(ran.out, 'spares %s' % command)

    def report(self, command, *words):
        return self.reports(command, *words)[0]
