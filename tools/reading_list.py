#!/usr/bin/env python3
"""Lists the definitions that the headline rests on, in the order to read them.

    python3 tools/reading_list.py [--write | --names]

A definition of a `specs/` folder rests on those that stand in it by name. From the clause of `run` the list goes down to fractions;
types of the code, and what the standard library defines, are left out. docs/PROVED.md has the list between two marks. Without `--write`
the script compares that list with its own, as `tests/run` does, and ends with status 1 if they differ; `--write` puts its own there.
`--names` prints the list with the names of the definitions: of a file with a star only some are in the list.
"""

import itertools
import pathlib
import re
import sys

TOP = pathlib.Path(__file__).resolve().parent.parent
PAGE = TOP / "docs/PROVED.md"
CRATES = TOP / "crates"
BEGIN, END = "<!-- by tools/reading_list.py -->", "<!-- to here -->"


def files(text):
    """The files of some lines, each of a crate and modules of its `specs/`."""
    return [(crate, module) for crate, *modules in map(str.split, text.strip().split("\n")) for module in modules]


# The definitions that stand in the clause of `run`.
ROOTS = [
    (("command_outcomes", "Promises"), "Runs"),
    (("command_outcomes", "Promises"), "errors"),
    (("command_outcomes", "State"), "scene"),
]

# The lists, each with the files that it has in their order.
LISTS = [
    (
        "**The model: %d definitions.** They are of whole numbers, fractions and lists; there is no code in them.",
        files("""
            exact_model Fraction Sums Series Shares
            fleet_model Rows Demand ZeroStock Pipelines Pairs Poisson Fleet Aims
            log_loss Loss
            fleet_model Bounds Headline Laws
        """),
    ),
    (
        "**How bytes become a case, and which cases are taken: %d definitions.**",
        files("""
            answers Steps
            refusals Causes Lines
            line_text Formats Files
            csv_tables Rest Fields Tables
            exact_ratio Decimal
            spares_input Names Rows First Frames Pairs Cases Stocks
            csv_tables Sites Parts Rates Stocks
            fleet_model Units
            demand_rates Limits RateLists Single
            case_tables Tables
        """),
    ),
    (
        "**Intervals, printed numbers, points and certificates: %d definitions.**",
        files("""
            fixed_interval Ends Text
            plan_report Texts
            case_figures Spans
            moment_table Profile Rows
            hull Curves Limits
            price_bounds Sums Certificates
            family_points Points Vectors
            price_certificate Grammar Certificates
            gap_rules Refusals Scores
            held_certificate Held
            held_work Work
            certified_plan Accepted Laws
        """),
    ),
    (
        "**What is said of it, up to the clause of `run`: %d definitions.**",
        files("""
            case_figures Shows
            metric_compare Shows
            fleet_plan Laws Plans
            case_plan Report Truth
            budget_sweep Sweep Truth
            demo_accepts Demonstrations
            spares_input Edits Limits Money
            case_edits Lines Edits
            session_report Reports
            spares_io Causes Shelf Sink
            order_inputs Files Cases
            command_outcomes Headline Held Plans Checks Task State Answer Promises
        """),
    ),
]

# Where the list stops: a subject, a link to the page that says it in words, and the definitions that are named and not followed.
STOPS = [
    ("the order of the words", "[FORMATS](FORMATS.md)", [("spares_words", "Order", "order_of")]),
    (
        "the texts of reports and refusals",
        "[FORMATS](FORMATS.md)",
        [("command_outcomes", "Texts", "done_text"), ("refusals", "Lines", "line_of_refusal")],
    ),
    ("the case of `demo`", "[FORMATS](FORMATS.md)", [("case_maker", "Demonstration", "made")]),
    (
        "rates and exact ends",
        "[MODEL](MODEL.md)",
        [
            ("demand_rates", "Rates", "rates_of"),
            ("moment_table", "Profile", "table_rows"),
            ("case_figures", "Figures", "figures_of"),
            ("case_figures", "Figures", "case_total_of"),
            ("metric_compare", "Report", "comparison_of"),
            ("log_loss", "Profile", "loss_ends"),
            ("case_plan", "Report", "lo_at"),
            ("fleet_plan", "Families", "hi_at"),
        ],
    ),
    (
        "the points of a case, its plan, sweep and target",
        "[MODEL](MODEL.md)",
        [
            ("fleet_plan", "Families", "case_points"),
            ("fleet_plan", "Families", "points_at"),
            ("marginal_alloc", "Plans", "IsPlan"),
            ("budget_sweep", "Cases", "IsCaseSweep"),
            ("budget_sweep", "Cases", "IsCaseTarget"),
        ],
    ),
    (
        "the count of tables",
        "[MODEL](MODEL.md)",
        [("family_points", "Counts", "work_of"), ("held_work", "Work", "held_work_of")],
    ),
    (
        "a certificate's text, cover and rules",
        "[CERTIFICATE](CERTIFICATE.md)",
        [
            ("price_certificate", "Certificates", "cert_of"),
            ("held_certificate", "Held", "held_of"),
            ("certified_plan", "Certificates", "certificate_of"),
            ("certified_plan", "Certificates", "text_of"),
            ("gap_rules", "Refusals", "reject_of"),
        ],
    ),
]
STOPPED = {((crate, module), name) for _, _, stops in STOPS for crate, module, name in stops}
HEAD = re.compile(r"^(?:unfoldable |abbrev |opaque )?pub (?:(?:record|data) )?(?P<name>[^\s:(]+)(?: [({].*|\s*):", re.M)
MODULE = re.compile(r"^module _ .* where\n((?:(?:  .*)?\n)*)", re.M)
FIELD = re.compile(r"(?<=[\w)\]])\.\w+|^ *pub \S+ :|(?<=[{; ])\w+ =(?= )", re.M)
WHOLE = re.compile(r"^use Rattle\.(\w+)\.specs\.([\w.]+) as (\w+)", re.M)
USE = re.compile(r"^use Rattle\.(\w+)\.specs\.([\w.]+)\.\{([^}]*)\}", re.M)


def blocks_of(text):
    """The definitions of a file: name and text, in their order."""
    text = MODULE.sub(lambda block: re.sub("^  ", "", block[1], flags=re.M), text)
    heads = list(HEAD.finditer(text))
    ends = [head.start() for head in heads[1:]] + [len(text)]
    return {head["name"]: without_comments(text[head.start() : end]) for head, end in zip(heads, ends)}


def without_comments(text):
    return re.sub(r"--.*", "", text)


def words_of(text):
    """The names in a text, but for those of fields; an operator ◌+◌ stands as its middle."""
    return set(re.split(r"[\s(){};,.]+", FIELD.sub(" ", text)))


def stands_in(name, words):
    return name in words or name.strip("◌") in words


class Specs:
    def __init__(self):
        self.blocks, self.names, self.prefixes = {}, {}, {}
        for path in sorted(CRATES.glob("*/specs/*.antt")):
            text = path.read_text()
            file = path.parts[-3], path.stem
            self.blocks[file] = blocks_of(text)
            self.names[file] = {
                name.strip(): (crate, module) for crate, module, names in USE.findall(text) for name in names.split(",")
            }
            self.prefixes[file] = [((crate, module), prefix) for crate, module, prefix in WHOLE.findall(text)]

    def below(self, definition):
        """The definitions that stand in this one."""
        file, name = definition
        words = words_of(self.blocks[file][name])
        local = [(file, other) for other in self.blocks[file] if other != name and stands_in(other, words)]
        used = [(home, other) for other, home in self.names[file].items() if stands_in(other, words)]
        for home, prefix in self.prefixes[file]:
            used += [(home, other) for other in re.findall(r"\b%s\.(\w+)" % prefix, self.blocks[file][name])]
        return local + [d for d in used if d[1] in self.blocks.get(d[0], ())]

    def reached(self, roots, stops=()):
        """All definitions that the roots rest on, themselves included; those of `stops` aren't followed."""
        found, left = set(), list(roots)
        while left:
            definition = left.pop()
            if definition not in found:
                found.add(definition)
                if definition not in stops:
                    left += self.below(definition)
        return found


def spelled(names):
    return " ".join("`%s`" % name.replace("◌", "") for name in names)


def part_of(specs, listed, file, names_too):
    """How much of a file is listed: its name, with a star if not all of it, or with the names in the shortest words."""
    names = [name for name in specs.blocks.get(file, ()) if (file, name) in listed]
    if not names:
        raise SystemExit("nothing of %s, %s is listed" % file)
    others = [name for name in specs.blocks[file] if (file, name) not in listed]
    if not others:
        return "`%s`" % file[1]
    if not names_too:
        return "`%s`\\*" % file[1]
    if len(others) < len(names):
        return "`%s` (without %s)" % (file[1], spelled(others))
    return "`%s` (only %s)" % (file[1], spelled(names))


def list_of(specs, listed, heading, files, names_too):
    """A list with its heading: a line for each crate, with its files and how much of each is listed."""
    count = sum(file in files for file, _ in listed)
    lines = [
        "- `%s`: %s" % (crate, ", ".join(part_of(specs, listed, file, names_too) for file in of_crate))
        for crate, of_crate in itertools.groupby(files, lambda file: file[0])
    ]
    return heading % count + "\n\n" + "\n".join(lines)


def stops_of(specs, found):
    """The definitions that aren't followed, with the number of those below them that aren't listed."""
    rows = []
    for subject, page, stops in STOPS:
        names = " ".join("`%s/%s`" % (crate, name) for crate, _, name in stops)
        below = specs.reached(((crate, module), name) for crate, module, name in stops) - found
        rows.append("- %s (%s; %d below): %s" % (subject, page, len(below), names))
    return "\n".join(rows)


def subjects():
    """The subjects of the definitions that aren't followed, behind a link to the page of each."""
    by_page = itertools.groupby(STOPS, lambda stop: stop[1])
    return "\n".join("- %s: %s" % (page, "; ".join(stop[0] for stop in stops)) for page, stops in by_page)


def section(names_too):
    """The text of the page between its marks, or the same with the names of the definitions."""
    specs = Specs()
    found = specs.reached(ROOTS, STOPPED)
    if STOPPED - found:
        raise SystemExit("these aren't reached: %s" % sorted(STOPPED - found))
    listed = found - STOPPED
    in_no_list = {file for file, _ in listed} - {file for _, files in LISTS for file in files}
    if in_no_list:
        raise SystemExit("these are in no list: %s" % sorted(in_no_list))
    return "\n\n".join([
        BEGIN,
        *[list_of(specs, listed, *each, names_too) for each in LISTS],
        "**Where the lists stop.** The lists name all that they use but %d definitions, which rest on %d more. These say in full "
        "which bytes,\nnumbers and refusals come out; a page says the same in words:" % (len(STOPPED), len(specs.reached(ROOTS) - found)),
        stops_of(specs, found) if names_too else subjects(),
        END,
    ])


def main():
    if sys.argv[1:] == ["--names"]:
        print(section(True))
        return
    text = PAGE.read_text()
    before, rest = text.split(BEGIN)
    new = before + section(False) + rest.split(END)[1]
    if sys.argv[1:] == ["--write"]:
        PAGE.write_text(new)
    elif new != text:
        raise SystemExit("%s has another list: run tools/reading_list.py --write" % PAGE.name)


if __name__ == "__main__":
    main()
