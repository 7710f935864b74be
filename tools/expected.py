"""Says where the expected outputs of pages, examples and tests differ from the model's, or makes them anew.

    python3 tools/expected.py [--write] [--all | PAGE..]

They are the examples `$ ..` of the pages, the reports beside the cases with the pictures of sweeps, and the texts in `tests/expected`; with
`--all` also the pages of the larger cases and the scripts that make many plans, which take minutes. If pages are named, these alone are
looked at, with all their examples. A line that a page shows is found again by its first field and its names; `..` stays. `--write` writes
anew each output that differs, and names an example that it can't write. Without it the status is 1 if an output differs, as `tests/run`
needs it.
"""

import difflib
import os
import subprocess
import sys
import tempfile

TOP = os.path.dirname(os.path.dirname(os.path.abspath(__file__)))
TESTS = os.path.join(TOP, "tests")
MODEL = os.path.join(TESTS, "model")
sys.path[:0] = [TESTS, MODEL]

import pages
import spares

PAGES = [
    "README.md",
    "docs/GUIDE.md",
    "docs/FORMATS.md",
    "docs/CERTIFICATE.md",
    "examples/fleet/README.md",
]
# what makes large plans, or many
SLOW_PAGES = ["examples/squadron/README.md", "examples/windfarm/README.md"]
SLOW_SCRIPTS = ["examples/availability.py", "examples/best_of.py", "examples/sensitivity.py"]
# the files that hold reports, each with its command and the options beside the tables of its folder; a file `F` there is `@F`. With LIMITS
# the table of parts has the limits that examples/limits.py proposes
REPORTS = {
    "examples/fleet/report.txt": "eval --stocks @stocks.csv",
    "examples/fleet/plan.txt": "plan --budget 1475000",
    "examples/fleet/sweep.txt": "sweep",
    "examples/squadron/plan.txt": "plan --budget 52000000",
    "examples/squadron/sweep.txt": "sweep",
    "tests/harbour/compare.txt": "compare --stocks @stocks.csv",
    "tests/harbour/loss.txt": "plan --budget 150000 --objective log-availability",
    "tests/harbour/more.txt": "plan --budget 60000 --on-hand @stocks.csv",
    "tests/harbour/plan.txt": "plan --budget 150000",
    "tests/harbour/session.txt": "session --edits @edits.txt",
    "tests/harbour/sweep.txt": "sweep",
    "tests/harbour/target.txt": "target --backorders 1.5",
    "tests/harbour/worth.txt": "eval --stocks @stocks.csv",
}
SLOW_REPORTS = {
    "examples/windfarm/plan.txt": "plan LIMITS --on-hand @stocks.csv --budget 60000",
    "examples/windfarm/sweep.txt": "sweep LIMITS",
}
# the pictures of sweeps, each with the options of examples/sweep.py
PICTURES = {
    "examples/fleet/sweep.svg": [],
    "examples/squadron/sweep.svg": [],
    "examples/windfarm/sweep.svg": ["--to", "1000000"],
}


def read(name):
    with open(os.path.join(TOP, name), "rb") as file:
        return file.read()


def write(name, data):
    with open(os.path.join(TOP, name), "wb") as file:
        file.write(data)


class NoCertificate(spares.Shelf):
    """Files that are read; no certificate is kept."""

    def write(self, name, text):
        pass


def report_of(name, words):
    """The model's report that a file holds."""
    folder = os.path.dirname(name)
    tables = {file: "%s/%s.csv" % (folder, file) for file in ("sites", "parts", "rates")}
    command, *more = words.replace("@", folder + "/").split()
    with tempfile.TemporaryDirectory() as room:
        if "LIMITS" in more:
            more.remove("LIMITS")
            tables["parts"] = limited_parts(tables, room)
        more += [word for file, place in tables.items() for word in ("--" + file, place)]
        left = spares.run([command, *more, *(["--certificate", "none"] if command == "plan" else [])], NoCertificate())
    if left.status:
        sys.exit("%s: %s" % (name, left.err.decode()))
    return left.out


def limited_parts(tables, room):
    """A table of parts with the limits that examples/limits.py proposes."""
    place = os.path.join(room, "parts.csv")
    words = [word for file, table in tables.items() for word in ("--" + file, table)]
    script = os.path.join(TOP, "examples", "limits.py")
    subprocess.run([sys.executable, script, *words, "--write-parts", place], stdout=subprocess.DEVNULL, check=True)
    return place


def key_of(line):
    """What a line of a report is found by: its first field, and the names of an item or a base."""
    fields = line.split(",")
    return fields[: {"item": 3, "base": 2}.get(fields[0], 1)]


def renewed(shown, printed):
    """The lines that a page shows, as they are printed now, or None if one of them is no longer printed.

    Between two lines that the page shows without `..` between them, all lines that are printed now are shown.
    """
    lines, at, is_open = [], 0, False
    for line in shown:
        if line == "..":
            is_open = True
            lines.append(line)
            continue
        place = next((k for k in range(at, len(printed)) if key_of(printed[k]) == key_of(line)), None)
        if place is None:
            return None
        lines += printed[place if is_open else at : place + 1]
        at, is_open = place + 1, False
    return lines if is_open else lines + printed[at:]


def check_page(page, is_written, left_out=()):
    """How many examples of a page differ; with `is_written` they are written anew, but for those whose run fails."""
    lines = read(page).decode().split("\n")
    changes, found = [], 0
    places = [os.path.join(*names) for names in ((MODEL, "spares.py"), (TOP, "examples"), (TOP, page))]
    for example, ran in pages.runs_of(*places, left_out):
        if pages.is_right(example.lines, ran):
            continue
        found += 1
        print(pages.difference(example, ran, page))
        printed = (ran.stdout or ran.stderr).decode().splitlines()
        is_failed = ran.returncode != 0 and not any(line.startswith("fault,") for line in example.lines)
        changes.append((example, None if is_failed else renewed(example.lines, printed)))
    for example, renewed_lines in reversed(changes if is_written else []):
        if renewed_lines is None:
            print("%s:%d: this example can't be written anew" % (page, example.place))
            continue
        place = slice(example.place, example.place + len(example.lines))
        lines[place] = ["    " + line for line in renewed_lines]
    if is_written and changes:
        write(page, "\n".join(lines).encode())
    return found


def check_file(name, data, is_written):
    """Whether a file differs from these bytes; with `is_written` it is written anew."""
    there = read(name) if os.path.exists(os.path.join(TOP, name)) else b""
    if there == data:
        return False
    lines = [text.decode().splitlines() for text in (there, data)]
    print("%s differs\n%s" % (name, "\n".join(difflib.unified_diff(*lines, "expected", "model", lineterm=""))))
    if is_written:
        write(name, data)
    return True


def picture_of(name, options):
    """The picture of the sweep beside it."""
    script = os.path.join(TOP, "examples", "sweep.py")
    sweep = read(name.replace(".svg", ".txt"))
    return subprocess.run([sys.executable, script, *options], input=sweep, capture_output=True, check=True).stdout


def check_texts(is_written):
    """How many files of expected texts of the tests differ."""
    with tempfile.TemporaryDirectory() as room:
        subprocess.run(["bash", os.path.join(TESTS, "run"), "--write", room, os.path.join(MODEL, "spares.py")], check=True)
        found = 0
        for name in sorted(os.listdir(room)):
            with open(os.path.join(room, name), "rb") as file:
                found += check_file("tests/expected/" + name, file.read(), is_written)
    return found


def main():
    is_written, is_all = "--write" in sys.argv[1:], "--all" in sys.argv[1:]
    named = [os.path.abspath(word) for word in sys.argv[1:] if not word.startswith("--")]
    os.chdir(TOP)
    found = 0
    if not named:
        reports = {**REPORTS, **(SLOW_REPORTS if is_all else {})}
        found += sum(check_file(name, report_of(name, words), is_written) for name, words in reports.items())
        found += sum(check_file(name, picture_of(name, options), is_written) for name, options in PICTURES.items())
        found += check_texts(is_written)
    left_out = [] if named or is_all else SLOW_SCRIPTS
    found += sum(check_page(page, is_written, left_out) for page in named or PAGES + SLOW_PAGES * is_all)
    print("%d expected outputs %s" % (found, "differed" if is_written else "differ"))
    sys.exit(1 if found and not is_written else 0)


if __name__ == "__main__":
    main()
