#!/usr/bin/env python3
"""The habits of docs/CONTRIBUTING.md that a script can see: prints each place that breaks one, and the count of these places.

    python3 tests/habits.py [ROOT]

ROOT is the top of a repository, and this one if left out. The status is 1 if a place breaks a habit.
"""
import collections
import pathlib
import re
import sys

COLUMNS = 120
IMPORT = re.compile(r'use Rattle\.([\w.]+)\.\{([^}]*)\}')
LISTED = re.compile(r'^ *(pub )?(ghost )?use [\w.:]+\{([^{}]*)\};?$', re.M)
DECLARED = re.compile(r'\s*(?:abbrev |unfoldable )?pub (?:record |data )?([^\s(:]+)')
OPERATOR = '◌'
UNSEEN = ('vec_len', 'append_known', 'index_set_len', 'tt', '[]')


def lines_of(path):
    return path.read_text().split('\n')


def opening(crates):
    """a file opens with a sentence that says what lives there"""
    for path in [*crates.glob('*/src/*.rt'), *crates.glob('*/specs/*.antt')]:
        if path.stem != 'Lib' and not path.stem.endswith('tests') and not re.match(r'(//!|--) ', path.read_text()):
            yield path, 1, 'none'


def wide(crates):
    """clauses, code and definitions have at most 120 columns; imports, tests and a line that is a text may have more"""
    for path in [*crates.glob('*/src/*.rt'), *crates.glob('*/specs/*.antt')]:
        for number, line in enumerate(lines_of(path), 1):
            free = re.match(r'\s*((pub |ghost )*(use |inverse)|#\[tactic|b?")', line) or path.stem.endswith('tests')
            if len(line) > COLUMNS and not free:
                yield path, number, '%d columns' % len(line)


def undocumented(crates):
    """each function and each type has a comment of three strokes, but for tests, `main` and what a trait documents"""
    for path in crates.glob('*/src/*.rt'):
        of_trait = False
        lines = lines_of(path)
        for number, line in enumerate(lines):
            if line.startswith('impl'):
                of_trait = ' for ' in line
            elif line == '}':
                of_trait = False
            if of_trait or not re.match(r'\s*(pub(\(crate\))? )?(const )?(fn|struct|enum|trait) \w+', line):
                continue
            above = number - 1
            while re.match(r'\s*(#\[|\)\])', lines[above]):
                above -= 1
            is_test = '#[test]' in lines[above + 1:number] or re.search(r'tests?\.rt|test_(cases|commands|tables)/', str(path))
            if not re.match(r'\s*///', lines[above]) and not is_test and ' fn main' not in ' ' + line:
                yield path, number + 1, 'no comment'


def written_by_hand(crates):
    """files of definitions and lemmas, whose names the check doesn't make"""
    for path in [*crates.glob('*/specs/**/*.antt'), *crates.glob('*/proofs/**/*.antt')]:
        if path.name not in ('Answers.antt', 'Invariants.antt') and 'out' not in path.parts:
            yield path


def hyphened(crates):
    """words of a name are joined by `_`"""
    for path in written_by_hand(crates):
        for number, line in enumerate(lines_of(path), 1):
            name = re.match(r"(?:abbrev |unfoldable )?(?:pub )?(\S*\w-\w\S*) :", line)
            if name and OPERATOR not in name.group(1):
                yield path, number, name.group(1)


def uncommented(crates):
    """what another file imports has a comment above it"""
    users = collections.defaultdict(set)
    for path in [*crates.glob('*/**/*.antt'), *crates.glob('*/src/*.rt')]:
        for module, names in IMPORT.findall(path.read_text()):
            for name in names.split(','):
                users[module, name.strip().split(' as ')[0]].add(path)
    for path in written_by_hand(crates):
        module = '.'.join(path.relative_to(crates).with_suffix('').parts)
        of_record = False
        lines = lines_of(path)
        for number, line in enumerate(lines):
            name = None if of_record else DECLARED.match(line)
            if name and users[module, name.group(1)] and not lines[number - 1].strip().startswith(('--', 'infix')):
                yield path, number + 1, name.group(1)
            of_record = bool(re.match(r'\s*(pub )?(record|data) ', line)) or of_record and line.startswith(' ')


def stands(name, text):
    """an operator stands by its symbols, which are looked for where Rust has no such ones"""
    if OPERATOR in name:
        symbols = name.replace(OPERATOR, ' ').split()
        return any(symbol.isascii() for symbol in symbols) or all(symbol in text for symbol in symbols)
    return name in UNSEEN or re.search(r'(?<![\w-])%s(?![\w-])' % re.escape(name), text) is not None


def unused(crates):
    """a name in the braces of an import stands elsewhere in its file, but for `pub use` and what is used unseen"""
    for path in [*crates.glob('*/src/**/*.rt'), *crates.glob('*/specs/**/*.antt'), *crates.glob('*/proofs/**/*.antt')]:
        text = path.read_text()
        rest = LISTED.sub('', text)
        for use in LISTED.finditer(text):
            if use.group(1) or path.suffix == '.rt' and not use.group(2) or 'out' in path.parts:
                continue
            for name in use.group(3).split(','):
                if name.strip() and not stands(name.split(' as ')[-1].strip(), rest):
                    yield path, text.count('\n', 0, use.start()) + 1, name.strip()


def foreign(crates):
    """of another crate's lemmas a file imports only those that its proofs/Public offers"""
    for path in [*crates.glob('*/src/**/*.rt'), *crates.glob('*/specs/**/*.antt'), *crates.glob('*/proofs/**/*.antt')]:
        crate = path.relative_to(crates).parts[0]
        for number, line in enumerate(lines_of(path), 1):
            used = re.match(r'\s*(?:pub |ghost )*use Rattle\.(\w+)\.proofs\.(\w+)', line)
            if used and used.group(1) != crate and (crates / used.group(1)).is_dir() and used.group(2) != 'Public':
                yield path, number, '%s.%s' % used.groups()


def untaken(crates):
    """a lemma that proofs/Public offers is imported by another crate"""
    taken = collections.defaultdict(set)
    for path in [*crates.glob('*/src/**/*.rt'), *crates.glob('*/specs/**/*.antt'), *crates.glob('*/proofs/**/*.antt')]:
        for module, names in IMPORT.findall(path.read_text()):
            taken[module].update(name.strip().split(' as ')[0] for name in names.split(','))
    for path in crates.glob('*/proofs/Public.antt'):
        module = path.parts[-3] + '.proofs.Public'
        for number, line in enumerate(lines_of(path), 1):
            for _, names in IMPORT.findall(line):
                for name in names.split(','):
                    if name.strip() not in taken[module]:
                        yield path, number, name.strip()


def stale(crates):
    """the text that a wrong body replaces stands once in its file"""
    for path in crates.glob('*/must-fail/*.edit'):
        text = ''
        for number, line in enumerate(lines_of(path), 1):
            if line.startswith('file: '):
                text = (path.parent.parent / line[6:].strip()).read_text()
            if line.startswith('old: ') and text.count(line[5:]) != 1:
                yield path, number, 'stands %d times' % text.count(line[5:])


def miscounted(crates):
    """docs/CONTRIBUTING.md says how many wrong bodies there are"""
    page, count = crates.parent / 'docs' / 'CONTRIBUTING.md', len([*crates.glob('*/must-fail/*.edit')])
    said = re.search(r'There are\s+(\d+)\s+edits', page.read_text())
    if said and int(said.group(1)) != count:
        yield page, page.read_text().count('\n', 0, said.start(1)) + 1, '%d edits' % count


def main():
    root = pathlib.Path(sys.argv[1] if len(sys.argv) > 1 else pathlib.Path(__file__).parent.parent)
    broken = 0
    for rule in (opening, wide, undocumented, hyphened, uncommented, unused, foreign, untaken, stale, miscounted):
        for path, number, what in rule(root / 'crates'):
            print('%s:%d: %s: %s' % (path.relative_to(root), number, what, rule.__doc__))
            broken += 1
    print('%d places break a habit' % broken)
    return 1 if broken else 0


sys.exit(main())
