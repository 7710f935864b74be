"""The scripts of the folder of examples do what they say, on a fleet whose tables a spreadsheet would write.

    python3 tests/scripts.py PROGRAM EXAMPLES FLEET CHECK
    python3 tests/scripts.py --list

FLEET is a folder with tables that have a byte order mark, CRLF, quotes and a depot of another name, with the model's
reports of them, and with the outputs that the scripts must write in the folder `wanted`, made by hand.
`--list` names the checks.
"""

import csv
import hashlib
import io
import os
import re
import subprocess
import sys
import tempfile
import xml.etree.ElementTree


class Wrong(Exception):
    """What isn't as it must be."""


class Trial:
    """The scripts, run in an empty folder."""

    def __init__(self, program, examples, fleet, room):
        self.program, self.examples, self.fleet, self.room = program, examples, fleet, room

    def file(self, name):
        return os.path.join(self.fleet, name)

    def tables(self, *names):
        return [
            word for name in names or ("sites", "parts", "rates") for word in ("--" + name, self.file(name + ".csv"))
        ]

    def text(self, path):
        with open(os.path.join(self.room, path), newline="") as file:
            return file.read()

    def put(self, name, text):
        path = os.path.join(self.room, name)
        with open(path, "wb") as file:
            file.write(text if isinstance(text, bytes) else text.encode())
        return path

    def run(self, script, *words, status=0, into=b""):
        """Runs a script twice: what it puts out, which must be the same; with its fault if it ends with another status than 0."""
        found = []
        for _ in range(2):
            ran = subprocess.run(
                [sys.executable, "-B", os.path.join(self.examples, script)] + [str(word) for word in words],
                cwd=self.room,
                input=into,
                capture_output=True,
            )
            found.append((ran.returncode, ran.stdout.decode(), ran.stderr.decode()))
        if found[0] != found[1]:
            raise Wrong("%s %s: two runs differ" % (script, words))
        code, out, err = found[0]
        if code != status or (err != "") != (status == 2) or status == 2 and (out or err.count("\n") != 1):
            raise Wrong("%s %s ends with the status %d, %r, %r" % (script, words, code, out, err))
        return err if status == 2 else out

    def wants(self, name, found):
        """What was put out is what stands in a file of the wanted ones."""
        wanted = self.text(os.path.join(self.fleet, "wanted", name))
        if found != wanted:
            raise Wrong("%s: found\n%s\nwanted\n%s" % (name, found, wanted))

    def refuses(self, script, *words, says=""):
        """The script refuses these words in one line that has this text."""
        line = self.run(script, *words, status=2)
        if not line.startswith(script + ": ") or says not in line:
            raise Wrong("%s %s says %r" % (script, words, line))

    def spares(self, *words):
        ran = subprocess.run(
            [self.program] + [str(word) for word in words], cwd=self.room, capture_output=True, stdin=subprocess.DEVNULL
        )
        return ran.stdout.decode() + ran.stderr.decode()


def must(holds, what):
    if not holds:
        raise Wrong(what)


def rows_of(text, separator=","):
    return list(csv.DictReader(io.StringIO(text), delimiter=separator))


def limits(trial):
    """First limits and a table without stocks, which the program takes; its means are the ones of the first limits."""
    found = trial.run("limits.py", *trial.tables(), "--write-parts", "first.csv", "--write-stocks", "none.csv")
    trial.wants("limits.txt", found)
    trial.wants("first.csv", trial.text("first.csv"))
    report = trial.spares("eval", *trial.tables(), "--stocks", "none.csv")
    means = {
        tuple(line.split(",")[1:3]): line.split(",")[4:6] for line in report.split("\n") if line.startswith("item,")
    }
    for line in found.split("\n"):
        if line.startswith("first,"):
            _, part, _, _, at_depot, at_bases = line.split(",")
            low, high = means[part, "Dock 1"]
            must(float(low) <= float(at_depot) <= float(high) + 1e-4, "the mean of %s at the depot" % part)
            highest = max(float(high) for (name, site), (_, high) in means.items() if name == part and site != "Dock 1")
            must(abs(float(at_bases) - highest) <= 1e-4, "the mean of %s at the bases" % part)
    trial.wants(
        "at_limits.txt", trial.run("limits.py", *trial.tables("sites", "parts"), "--report", trial.file("worth.txt"))
    )


def limits_too_wide(trial):
    """Limits that the program refuses have its count of tables, and those that are written instead are taken."""
    with open(trial.file("parts.csv"), "rb") as file:
        wide = trial.put(
            "wide.csv", re.sub(rb"900,,5,2", b"900,,63,63", re.sub(rb"2500,,2,1", b"2500,,63,20", file.read()))
        )
    words = trial.tables("sites") + ["--parts", wide] + trial.tables("rates")
    found = trial.run("limits.py", *words, "--write-parts", "first.csv")
    count = re.search(r"^work,(\d+),", found, re.M).group(1)
    refused = trial.spares("plan", *words, "--budget", "0", "--certificate", os.devnull)
    must(refused == "fault,work,%s\n" % count, "the program says %s of a work of %s" % (refused, count))
    lowered = {
        tuple(line.split(",")[1:3]): line.split(",")[3:] for line in found.split("\n") if line.startswith("lower,")
    }
    must(
        set(lowered) == {(part, column) for part in ("injector", "governor") for column in ("max_depot", "max_base")},
        found,
    )
    with open(wide, "rb") as file:
        rows = list(csv.reader(io.StringIO(file.read().decode("utf-8-sig"), newline="")))
    for row in rows[1:]:
        for column, place in (("max_depot", 4), ("max_base", 5)):
            if row and (row[0], column) in lowered:
                now, then = lowered[row[0], column]
                must(row[place] == now, "%s was %s, not %s" % (row[0], row[place], now))
                row[place] = then
    trial.put("lower.csv", "".join(",".join(row) + "\n" for row in rows))
    for parts in ("lower.csv", "first.csv"):
        said = trial.run("lint.py", *trial.tables("sites"), "--parts", parts, *trial.tables("rates"))
        must(said == "no faults\n", said)
    trial.refuses("limits.py", *words, "--write-parts", wide, says="is one of the inputs")


def lint(trial):
    """All faults at once, with lines and rows: those of several tables, with an empty line above the row."""
    with open(trial.file("rates.csv"), "rb") as file:
        rates = (
            file.read()
            .replace(b"4.5,0.25", b"\"4,5\",25%")
            .replace(b"winch,Dock 1,,,,40\r\n", b"\r\n")
            .replace(b"\t33", b"-33")
        )
    with open(trial.file("stocks.csv"), "rb") as file:
        stocks = file.read().replace(b"injector,Dock 1,2", b"injector,Dock 1,6")
    trial.put("rates.csv", rates)
    trial.put("stocks.csv", stocks)
    found = trial.run(
        "lint.py", *trial.tables("sites", "parts"), "--rates", "rates.csv", "--stocks", "stocks.csv", status=1
    )
    trial.wants("lint.txt", found)
    must(
        trial.run("lint.py", *trial.tables("sites", "parts", "rates", "stocks")) == "no faults\n",
        "sound tables have faults",
    )
    trial.put("titled.csv", b"Sites;;;\r\n\"Site\";\"Kind\";\"Systems\";\"Ship days\"\r\n")
    said = trial.run("lint.py", "--sites", "titled.csv", *trial.tables("parts", "rates"), status=1)
    must(
        all(words in said for words in ("The header is on line 2", "semicolons", "Wanted is: site,kind,")),
        "a title above a header of another spelling: %s" % said,
    )
    said = trial.run("lint.py", *trial.tables("sites", "parts"), "--rates", "nowhere.csv", status=1)
    must(said.startswith("nowhere.csv: fault,read,rates: "), said)
    trial.refuses("lint.py", *trial.tables("sites", "parts"), says="--rates")
    trial.refuses("lint.py", *trial.tables(), "--stoks", "x", says="--stoks")
    for cost, says in ((b"38.5", "is no whole number"), (b"3.8.5", "has two points"), (b"9" * 30, "is too large")):
        said = linted(trial, parts=[(b"40000", cost)])
        must(says in said, "of a cost of %s lint says %s" % (cost, said))


def linted(trial, **changes):
    """What lint says of changed tables with stocks, whose first fault is what the program says. A change is a list of texts and
    what stands in their place, or a text that is added."""
    words = []
    for table in ("sites", "parts", "rates", "stocks"):
        with open(trial.file(table + ".csv"), "rb") as file:
            data = file.read()
        for old, new in changes.get(table, []):
            must(old in data, "%s hasn't %r" % (table, old))
            data = data.replace(old, new) if old else data + new
        words += ["--" + table, os.path.basename(trial.put(table + ".csv", data))]
    found = trial.run("lint.py", *words, status=1)
    refusal = trial.spares("eval", *words)
    must(": %s: " % refusal.rstrip() in found.split("\n")[0], "the program says %s of\n%s" % (refusal, found))
    return found


def lint_names(trial):
    """Rows with an unknown name are two lines, and are judged in their other fields and as doubles."""
    found = linted(
        trial,
        rates=[
            (b"Pier East", b"Pier Est"),
            (b"gen-set,Pier Est,6,", b"gen-set,Pier Est,,"),
            (b"injector,Pier Est,,0.2", b"injector,Pier Est,,20 %"),
            (b"", b"winch,Pier Est,4.5,0.25,,6\r\n"),
        ],
        stocks=[(b"winch", b"wench"), (b"wench,Pier East,0", b"wench,Pier East,64")],
    )
    trial.wants("lint_names.txt", found)
    # a share without a demand is that of a shop unit; a name that is none is as an unknown one
    found = linted(trial, rates=[(b"injector", b"inj\xc3\xa9ctor"), (b"0.7,21", b"7,21"), (b"gen-set", b"genset")])
    faults = [",".join(line.split(": ")[1:2]) for line in found.split("\n") if ": fault,missing" not in line]
    wanted = "unknown-part,rates,5 unknown-part,rates,6 bad-name,rates,8,1 bad-name,rates,9,1 out-of-range,rates,8,5"
    must(faults == ["fault," + fault for fault in wanted.split()] + ["", ""], found)


def lint_base(trial):
    """The pairs of a base without any row are two lines, and so are those whose rows name an unknown site."""
    found = linted(trial, sites=[(b"", b"Quay 7,base,4,2\r\n")], rates=[(b",Pier West;2", b",Pier West 2")])
    trial.wants("lint_base.txt", found)
    # rows of a base that was closed hide no pairs of another
    closed = [
        (b'gen-set,Pier West;2,3.6,"0.5",,9\r\n', b""),
        (b"injector,Pier West;2,,0,0.6,0\r\n", b""),
        (b"governor,Pier West;2,,0,0.2000,0\r\n", b""),
    ]
    found = linted(
        trial,
        sites=[(b'"Pier East",base,5,3.5\r\n', b"")],
        rates=closed,
        stocks=[(b"Pier East", b"Pier West;2")],
    )
    must(found.count("rates.csv: fault,missing-rate,") == 3, found)
    must("rates.csv:6: fault,unknown-site,rates,6: 'Pier East' in 3 further rows" in found, found)
    must(found.count("stocks.csv:") == 4 and found.count("double-stock") == 4, found)
    found = linted(trial, sites=[(b"Dock 1", b"Dock One")])
    hint = "Dock One has no row at all, so 3 further pairs have none too: is it spelt otherwise here?\n"
    must(found.count(hint) == 2 and found.endswith("\n8 faults\n"), found)


def lint_headers(trial):
    """A header that is another, and a row of another number of fields, hide no faults of other rows and tables."""
    found = linted(
        trial,
        sites=[(b"kind", b"Type"), (b",3.5", b""), (b",12", b",")],
        parts=[(b",", b";")],
        rates=[
            (b"part,site", b"Rates\r\npart,site"),
            (b'"Pier West;2"', b"Pier"),
            (b"injector,Pier East,,0.2", b"injector,Pier East,,20 %"),
            (b"", b",,,,,\r\n" * 3),
        ],
        stocks=[(b'"winch",Pier West;2,0', b"winch,Pier West;2,0.5"), (b"", b"winch,Dock 1,1\r\n")],
    )
    trial.wants("lint_headers.txt", found)
    alone = {
        "sites": [(b",3.5", b""), (b"depot,,", b"depot,"), (b"depot", b"Depot"), (b"systems", b"Systems")],
        "parts": [(b",40000", b""), (b",2500,,", b",2500,"), (b",parent", b",unit of")],
    }
    for table, changes in alone.items():
        for change in changes:
            found = linted(trial, **{table: [change]})
            must(found.endswith("\n1 fault\n"), "%s: %s" % (change, found))


def tables(trial):
    """The tables of reports, turned back into lines, are the reports."""
    names = ["session.txt", "sweep.txt", "compare.txt", "target.txt", "loss.txt", "worth.txt"]
    whole = "".join(trial.text(trial.file(name)) for name in names)
    trial.put("all.txt", whole.replace("\n", "\r\n"))
    trial.run("tables.py", "all.txt", "out", *trial.tables("sites", "parts"))
    found = {name: rows_of(trial.text("out/%s.csv" % name)) for name in ("items", "bases", "points", "reports")}
    lines = {name: [] for name in found}
    for row in found["items"]:
        ends = [row[name] for name in row if re.search("_(low|high)$", name) and row[name]]
        lines["items"].append(",".join(["item", row["part"], row["site"], row["stock"]] + ends))
    for row in found["bases"]:
        lines["bases"].append(",".join(["base", row["site"], row["availability_low"], row["availability_high"]]))
    for row in found["points"]:
        lines["points"].append(",".join(["point", row["cost"], row["total_low"], row["total_high"], row["price"]]))
    for name, kind in (("items", "item"), ("bases", "base"), ("points", "point")):
        wanted = [line for line in whole.split("\n") if line.startswith(kind + ",")]
        must(
            lines[name] == wanted,
            "%s: %s" % (name, [pair for pair in zip(lines[name], wanted) if pair[0] != pair[1]][:2]),
        )
    must(
        [row["kind"] for row in found["reports"]] == ["plan", "plan", "sweep", "compare", "target", "plan", "eval"],
        "the kinds of reports",
    )
    totals = [
        ",".join(row[name] for name in row if name.startswith("total_") and row[name]) for row in found["reports"]
    ]
    must(
        ["total," + total for total in totals if total]
        == [line for line in whole.split("\n") if line.startswith("total,")],
        "the totals",
    )
    kinds = {
        (row["part"], row["part_kind"], row["line_unit"], row["site_kind"], row["unit_cost"], row["stock_limit"])
        for row in found["items"]
    }
    must(
        ("governor", "shop unit", "gen-set", "base", "2500", "1") in kinds
        and ("winch", "line unit", "winch", "depot", "7300", "2") in kinds,
        "the kinds of parts",
    )
    trial.run("tables.py", trial.file("loss.txt"), "comma", "--decimal-comma")
    for name in ("bases", "reports"):
        trial.wants("comma_%s.csv" % name, trial.text("comma/%s.csv" % name))


def tables_refused(trial):
    report = trial.text(trial.file("plan.txt"))
    for old, new, says in (
        ("total,", "total;", "line 18: the line total of a report of plan is 'total;"),
        ("critical,winch,7300\n", "", "line 24: the line critical of a report of plan is missing"),
        ("7300\n", "7300", "the last line is cut off"),
        ("plan,", "plann,", "line 1: no report begins with 'plann,"),
        ("0.989620", "0.98962", "line 15"),
    ):
        trial.put("bad.txt", report.replace(old, new, 1) if old != "7300\n" else report[:-1])
        trial.refuses("tables.py", "bad.txt", "out", says=says)
    trial.refuses("tables.py", "nowhere.txt", "out", says="nowhere.txt: No such file")
    trial.put("short.txt", trial.text(trial.file("sweep.txt")).replace("sweep,33", "sweep,34"))
    trial.refuses("tables.py", "short.txt", "out", says="not as many points")
    trial.put("other.csv", trial.text(trial.file("parts.csv")).replace("winch", "wench"))
    trial.refuses(
        "tables.py",
        trial.file("plan.txt"),
        "out",
        *trial.tables("sites"),
        "--parts",
        "other.csv",
        says="are not the pairs"
    )


def buy(trial):
    """The lists of what is bought, and reports that are refused."""
    frame = trial.tables("sites", "parts")
    held = ["--on-hand", trial.file("stocks.csv")]
    trial.wants("buy.csv", trial.run("buy.py", trial.file("plan.txt"), *frame))
    trial.wants("buy_by_part.csv", trial.run("buy.py", trial.file("plan.txt"), *frame, "--by-part"))
    trial.wants("buy_more.csv", trial.run("buy.py", trial.file("more.txt"), *frame, *held))
    nothing = trial.run("buy.py", trial.file("worth.txt"), *frame, *held)
    must(nothing == "part,site,have,buy,then,unit_cost,cost\ntotal,,,0,,,0\n", nothing)
    trial.refuses("buy.py", trial.file("more.txt"), *frame, says="name their table by --on-hand")
    trial.refuses("buy.py", trial.file("plan.txt"), *frame, *held, says="begins from nothing")
    trial.refuses("buy.py", trial.file("sweep.txt"), *frame, says="there is one of sweep")
    trial.put("dear.csv", trial.text(trial.file("parts.csv")).replace("7300", "7400"))
    trial.refuses(
        "buy.py",
        trial.file("plan.txt"),
        *trial.tables("sites"),
        "--parts",
        "dear.csv",
        says="it costs 148000, and by these tables 148300"
    )
    trial.put("more.csv", trial.text(trial.file("stocks.csv")).replace("winch,Dock 1,1", "winch,Dock 1,2"))
    trial.refuses(
        "buy.py",
        trial.file("more.txt"),
        *frame,
        "--on-hand",
        "more.csv",
        says="begins from stocks that cost 92500, and these on hand cost 99800"
    )
    trial.refuses(
        "buy.py",
        trial.file("worth.txt"),
        *frame,
        "--on-hand",
        "more.csv",
        says="winch at Dock 1: 2 are on hand, and the report has 1"
    )


def svg_of(text):
    root = xml.etree.ElementTree.fromstring(text)
    must(root.tag == "{http://www.w3.org/2000/svg}svg", "the picture is no SVG")
    return root


def drawn(root, name):
    return root.findall(".//{http://www.w3.org/2000/svg}" + name)


def changed_rates(trial, pattern, text):
    """The table of rates with a change, as a file."""
    with open(trial.file("rates.csv"), "rb") as file:
        found, count = re.subn(pattern, text, file.read())
    must(count > 0, "no rate has %r" % pattern)
    return trial.put("changed.csv", found)


def lines_of(report, kind):
    return [line.split(",")[1:] for line in report.split("\n") if line.startswith(kind + ",")]


def sweep(trial):
    """A window of a sweep, and what its steps buy: after all steps the stocks are the plan at the last cost."""
    with open(trial.file("sweep.txt"), "rb") as file:
        report = file.read()
    root = svg_of(trial.run("sweep.py", "--from", "53400", "--to", "158000", into=report))
    points = [point for point in lines_of(report.decode(), "point") if 53400 <= int(point[0]) <= 158000]
    must(len(drawn(root, "circle")) == len(points) > 0, "a window has not as many dots as points")
    heights = [float(circle.get("cy")) for circle in drawn(root, "circle")]
    must(heights == sorted(heights) and len(set(heights)) > 4, "the dots of a window don't fall")
    must("8 points" in "".join(root.itertext()), "the title of a window")
    rows = rows_of(
        trial.run(
            "sweep.py",
            "--steps",
            "--from",
            "53400",
            "--to",
            "158000",
            "--program",
            trial.program,
            *trial.tables(),
            into=report
        )
    )
    costs = [int(point[0]) for point in points]
    plans = [
        trial.spares("plan", *trial.tables(), "--budget", cost, "--certificate", os.devnull)
        for cost in (costs[0], costs[-1])
    ]
    first, last = ({(part, site): int(stock) for part, site, stock, *_ in lines_of(plan, "item")} for plan in plans)
    for row in rows:
        pair = row["part"], row["site"]
        must(first[pair] == int(row["before"]), "%s is not %s before" % (pair, row["before"]))
        first[pair] = int(row["after"])
    must(first == last, "after all steps the stocks are others")
    for before, after, point in zip(costs, costs[1:], points[1:]):
        some = [row for row in rows if int(row["from_cost"]) == before]
        must(sum(int(row["money"]) for row in some) == after - before, "the step from %d" % before)
        must(
            {(row["to_cost"], row["total_low"], row["total_high"]) for row in some} == {tuple(point[:3])},
            "the step from %d ends otherwise" % before,
        )
    with open(os.path.join(trial.examples, "fleet", "sweep.txt"), "rb") as file:
        ran = subprocess.run(
            [
                sys.executable,
                "-B",
                os.path.join(trial.examples, "sweep.py"),
                "--steps",
                "--program",
                trial.program,
                *trial.tables(),
            ],
            input=file.read(),
            capture_output=True,
        )
    must(
        ran.returncode == 2 and b"the sweep is of other tables" in ran.stderr,
        "the sweep of another fleet: %r" % ran.stderr,
    )
    for words in (["--from", "5", "--to", "5"], ["--from", "400000"], ["--steps"], ["--from", "1.5"]):
        ran = subprocess.run(
            [sys.executable, "-B", os.path.join(trial.examples, "sweep.py"), *words], input=report, capture_output=True
        )
        must(ran.returncode == 2 and ran.stderr.count(b"\n") == 1 and not ran.stdout, "%s: %r" % (words, ran.stderr))


def availability(trial):
    """The table over the budgets from nothing and from stocks on hand, the least that reaches a share, and the picture."""
    words = [*trial.tables(), "--program", trial.program, "--picture", "picture.svg"]
    trial.wants("availability.csv", trial.run("availability.py", *words, "--from", "50000", "--to", "160000"))
    root = svg_of(trial.text("picture.svg"))
    must(len(drawn(root, "circle")) == 16, "not one dot for each plan")
    must(
        {"fleet", "Pier East", "Pier West;2", "by backorders", "by log-availability"} <= set(root.itertext()),
        "names of lines are missing",
    )
    held = ["--on-hand", trial.file("stocks.csv")]
    trial.wants("availability_more.csv", trial.run("availability.py", *words, *held, "--to", "60000", "--points", "4"))
    for share, budget, cost, low in ("0.97", "108000", "108000", "0.970865"), ("0.975", "130500", "129900", "0.975050"):
        found = rows_of(trial.run("availability.py", *words, "--from", "50000", "--to", "160000", "--reach", share))
        must(len(found) == 1, found)
        row = found[0]
        must((row["aim"], row["budget"], row["cost"], row["fleet_low"]) == ("backorders", budget, cost, low), row)
    thin = rows_of(trial.run("availability.py", *words, "--points", "5", "--to", "341900"))
    must(
        [row["aim"] for row in thin] == ["backorders"] * 5 + ["log-availability"] * 5
        and thin[0]["budget"] == "0"
        and thin[4]["budget"] == "341900",
        "five points",
    )
    far = rows_of(trial.run("availability.py", *words, *held, "--points", "2"))
    half = "%d" % (int(far[1]["budget"]) // 2)
    near = rows_of(trial.run("availability.py", *words, *held, "--points", "2", "--to", half))
    must(
        far[0]["budget"] == "0" and near[1]["fleet_low"] < "0.99" <= far[1]["fleet_low"],
        "from stocks on hand the window ends where 0.99 is reached, or not twice as far",
    )
    shown = rows_of(trial.run("availability.py", *words, "--points", "8"))
    must(shown[5]["fleet_low"] >= "0.99" and int(shown[5]["budget"]) < 341900, "from nothing the window ends sooner")
    ran = subprocess.run(
        [
            sys.executable,
            "-B",
            os.path.join(trial.examples, "availability.py"),
            *words,
            "--to",
            "50000",
            "--reach",
            "1",
        ],
        cwd=trial.room,
        capture_output=True,
    )
    must(
        ran.returncode == 1 and ran.stdout.count(b"\n") == 1 and ran.stderr.count(b"\n") == 1,
        "nothing reaches a share of 1: %r" % (ran,),
    )
    for words_more in (["--reach", "1.1"], ["--points", "1"], ["--from", "9", "--to", "8"]):
        trial.refuses("availability.py", *words, *words_more)


def best_of(trial):
    """Better stocks keep to the budget and to what is on hand, and lie under the bound of the plan: eval, check and the certificate say so."""
    for held, budget, report in ([], 150000, "plan.txt"), (["--on-hand", trial.file("stocks.csv")], 40000, None):
        words = [
            *trial.tables(),
            "--budget",
            str(budget),
            *held,
            "--program",
            trial.program,
            "--certificate",
            "best.certificate",
            "--write-stocks",
            "best.csv",
        ]
        found = trial.run("best_of.py", *words)
        plan = trial.spares("plan", *trial.tables(), "--budget", budget, *held, "--certificate", "plan.certificate")
        must(report is None or plan == trial.text(trial.file(report)), "the plan is another")
        cost, low, high = lines_of(found, "best")[0]
        worth = trial.spares("eval", *trial.tables(), "--stocks", "best.csv")
        on_hand = int((lines_of(plan, "on-hand") or [["0"]])[0][0])
        must(
            lines_of(worth, "cost") == [["%d" % (int(cost) + on_hand)]] and lines_of(worth, "total") == [[low, high]],
            "eval says other numbers",
        )
        must(
            int(cost) <= budget and float(high) <= float(lines_of(plan, "total")[0][1]),
            "the best stocks are worse than the plan",
        )
        bound = lines_of(plan, "bound")[0][0]
        must(
            lines_of(found, "bound") == [[bound]]
            and abs(float(high) - float(bound) - float(lines_of(found, "gap")[0][0])) < 1e-9,
            "bound and gap",
        )
        checked = trial.spares("check", "--certificate", "best.certificate")
        must(
            lines_of(checked, "cost") == [[cost]]
            and lines_of(checked, "upper") == [[high]]
            and lines_of(checked, "bound") == [[bound]],
            checked,
        )
        both = [trial.text(name).split("\n") for name in ("plan.certificate", "best.certificate")]
        place = both[0].index("stocks,12")
        others = [k for k, pair in enumerate(zip(*both)) if pair[0] != pair[1]]
        must(
            len(both[0]) == len(both[1]) and all(place < k <= place + 13 for k in others),
            "the certificate differs in other lines",
        )
        starts = lines_of(found, "start")
        must(
            ["backorders", str(budget)] in [start[:2] for start in starts]
            and len({tuple(start[2:]) for start in starts}) == len(starts),
            "the plans that were made",
        )
        must(float(high) <= min(float(start[-1]) for start in starts), "a start is better than the best")
    trial.refuses(
        "best_of.py",
        *trial.tables(),
        "--budget",
        "1",
        "--program",
        trial.program,
        "--certificate",
        trial.file("parts.csv"),
        says="is one of the inputs"
    )


def fall_of_a_gap(trial):
    """On the shipped fleet the proved gap falls from over 1 to under a tenth."""
    folder = os.path.join(trial.examples, "fleet")
    words = [
        word for name in ("sites", "parts", "rates") for word in ("--" + name, os.path.join(folder, name + ".csv"))
    ]
    found = trial.run(
        "best_of.py", *words, "--budget", "1360000", "--certificate", "best.certificate", "--program", trial.program
    )
    must(
        ["backorders", "1360000", "1358500", "3.897084", "3.897085"] in lines_of(found, "start"), "the plan is another"
    )
    must(lines_of(found, "bound") == [["2.837577"]] and float(lines_of(found, "gap")[0][0]) < 0.08, found)
    second = trial.run("second_checker.py", "best.certificate")
    must(second == trial.spares("check", "--certificate", "best.certificate"), "the second checker says %s" % second)
    must(lines_of(second, "upper")[0][0] == lines_of(found, "best")[0][2], second)


def sensitivity(trial):
    """A row is the plan of tables with a larger demand, and bars have the lengths of the table."""
    words = [*trial.tables(), "--budget", "60000", "--program", trial.program]
    found = rows_of(trial.run("sensitivity.py", *words, "--picture", "bars.svg"))
    must([row["line_unit"] for row in found] == ["as it is", "gen-set", "winch"], "the rows")
    must([found[0]["total_low"], found[0]["total_high"]] == ["1.156724", "1.156725"], "the plan as it is")
    changed = changed_rates(
        trial,
        rb"winch,(\"?Pier [^,]*),(4.5|2.7)",
        lambda hit: b"winch,%s,%s" % (hit.group(1), {b"4.5": b"5.4", b"2.7": b"3.24"}[hit.group(2)]),
    )
    plan = trial.spares(
        "plan", *trial.tables("sites", "parts"), "--rates", changed, "--budget", "60000", "--certificate", os.devnull
    )
    must(lines_of(plan, "total") == [[found[2]["total_low"], found[2]["total_high"]]], "the plan with more demand")
    stocks = {
        tuple(item[:2]): item[2] for item in lines_of(trial.text(trial.file("session.txt")).split("plan,")[1], "item")
    }
    others = sum(stocks[tuple(item[:2])] != item[2] for item in lines_of(plan, "item"))
    must(found[2]["stocks"] == "%d" % others, "the number of stocks that are others")
    for row in found[1:]:
        must(abs(float(row["total_high"]) - float(found[0]["total_high"]) - float(row["more"])) < 1e-9, "more")
    bars = [
        float(bar.get("width")) for bar in drawn(svg_of(trial.text("bars.svg")), "rect") if bar.get("width") != "100%"
    ]
    mores = sorted((float(row["more"]) for row in found[1:]), reverse=True)
    must(len(bars) == 2 and abs(bars[1] / bars[0] - mores[1] / mores[0]) < 1e-3, "the bars")
    must(rows_of(trial.run("sensitivity.py", *words, "--percent", "1"))[1]["more"] < found[1]["more"], "one percent")
    trial.refuses("sensitivity.py", *words, "--percent", "0")
    # a larger demand that isn't taken, and tables that no plan takes
    for demand, says in (
        (b"2500", "winch: 50 percent more demand is refused (fault,edit-rate,"),
        (b"5000", "fault,pipeline-too-large,winch,"),
    ):
        made = changed_rates(trial, rb"winch,(\"?Pier East\"?),4.5", lambda hit: b"winch,%s,%s" % (hit.group(1), demand))
        words = [*trial.tables("sites", "parts"), "--rates", made, "--budget", "60000", "--program", trial.program]
        trial.refuses("sensitivity.py", *words, "--percent", "50", says=says)


def drivers(trial):
    trial.wants("drivers.csv", trial.run("drivers.py", trial.file("worth.txt"), *trial.tables()))
    trial.wants(
        "drivers_by_base.csv",
        trial.run("drivers.py", trial.file("worth.txt"), *trial.tables("sites", "parts"), "--by-base"),
    )
    trial.refuses("drivers.py", trial.file("compare.txt"), *trial.tables(), says="there is one of compare")


class Html:
    """A page, read as XML."""

    def __init__(self, text):
        must("http" not in text.replace("http://www.w3.org/", ""), "the page names an address")
        self.root = xml.etree.ElementTree.fromstring(text.replace("<!DOCTYPE html>\n", "", 1))
        names = {element.tag.rpartition("}")[2] for element in self.root.iter()}
        must(
            not names & {"script", "link", "img", "iframe", "object", "audio", "video"}
            and "url(" not in text
            and "@import" not in text,
            "the page isn't self-contained",
        )

    def section(self, title):
        """The section with this heading, or None."""
        for section in self.root.iter(XHTML + "section"):
            if [heading.text for heading in section.iter(XHTML + "h2")][:1] == [title]:
                return section
        return None

    def numbers(self, element):
        return [number.get("value") for number in element.iter(XHTML + "data")]


XHTML = "{http://www.w3.org/1999/xhtml}"


def must_show(trial, page, report, frame, bought, bound, gap):
    """The page has the numbers of a report, of what is bought, and of bound and gap."""
    items = lines_of(report, "item")
    table = page.section("What to buy, and where it lies").find(".//" + XHTML + "tbody")
    shown = {}
    for row in table:
        cells = list(row)
        shown[cells[0].text] = [page.numbers(cell) for cell in cells[1:]]
    for part in {item[0] for item in items}:
        stocks = [[item[2]] for item in items if item[0] == part]
        count = bought.get(part, (0, 0))
        must(shown[part][1:] == stocks + [["%d" % count[0]], ["%d" % count[1]]], "%s: %s" % (part, shown[part]))
    bases = {
        block.find(XHTML + "h3")[0].text: block
        for block in page.section("Which bases wait, and for what").iter(XHTML + "div")
        if block.get("class") == "base"
    }
    for site, low, high in lines_of(report, "base"):
        numbers = page.numbers(bases[site])
        must(numbers[0] == "%s,%s" % (low, high), "the availability of %s" % site)
        must(
            set(numbers[1:])
            == {",".join(item[7:9]) for item in items if item[1] == site and item[0] in ("gen-set", "winch")},
            "the drivers at %s" % site,
        )
    must(
        {",".join(lines_of(report, "fleet")[0]), ",".join(lines_of(report, "total")[0]), bound}
        <= set(page.numbers(page.root)),
        "the numbers at the top",
    )
    must({bound, gap} <= set(page.numbers(page.section("How good it is"))), "bound and gap")
    sums = [
        [row["ebo_low"] + "," + row["ebo_high"]]
        for row in rows_of(trial.run("drivers.py", trial.put("shown.txt", report), *frame))
    ]
    bars = [
        bar
        for bar in page.section("Which line units drive the backorders").iter(XHTML + "div")
        if bar.get("class") == "bar"
    ]
    must([page.numbers(bar) for bar in bars] == sums, "the line units that drive the backorders")


def bought_of(trial, *words):
    return {
        row["part"]: (int(row["buy"]), int(row["cost"])) for row in rows_of(trial.run("buy.py", *words, "--by-part"))
    }


def report(trial):
    """The page of a plan, read by a parser: its numbers are those of the report, of the list of what is bought and of check."""
    frame = trial.tables("sites", "parts")
    program = ["--program", trial.program]
    trial.spares("plan", *trial.tables(), "--budget", "150000", "--certificate", "plan.certificate")
    words = [
        *frame,
        "--report",
        trial.file("plan.txt"),
        "--sweep",
        trial.file("sweep.txt"),
        "--certificate",
        "plan.certificate",
        *program,
    ]
    text = trial.run("report.py", *words, "--title", "Ferries & <quays>")
    page = Html(text)
    plan = trial.text(trial.file("plan.txt"))
    must_show(trial, page, plan, frame, bought_of(trial, trial.file("plan.txt"), *frame), "0.142941", "0.006721")
    must([page.root.find(".//" + XHTML + "h1").text] == ["Ferries & <quays>"], "the title")
    certificate = "".join(page.section("The certificate").itertext())
    with open(os.path.join(trial.room, "plan.certificate"), "rb") as file:
        must(hashlib.sha256(file.read()).hexdigest() in certificate, "the checksum")
    must(
        trial.spares("check", "--certificate", "plan.certificate").rstrip() in certificate
        and "plan.certificate" in certificate,
        "what check said",
    )
    picture = page.section("What other budgets would bring").find(".//{http://www.w3.org/2000/svg}svg")
    must(picture is not None and "this budget" in "".join(picture.itertext()), "the sweep")
    must(
        "None: no limit is in the way." in "".join(page.section("Stocks at their limits").itertext()),
        "stocks at limits",
    )
    # from stocks on hand, by the other aim
    held = ["--on-hand", trial.file("stocks.csv")]
    page = Html(trial.run("report.py", *frame, "--report", trial.file("more.txt"), *held, *program))
    must_show(
        trial,
        page,
        trial.text(trial.file("more.txt")),
        frame,
        bought_of(trial, trial.file("more.txt"), *frame, *held),
        "0.137835",
        "0.006721",
    )
    must(
        page.section("The certificate") is None and page.section("What other budgets would bring") is None,
        "sections of what wasn't given",
    )
    limits = page.section("Stocks at their limits")
    must(
        [item.text for item in limits.iter(XHTML + "li")] == ["governor at Pier West;2: "]
        and page.numbers(limits) == ["1"],
        "stocks at limits",
    )
    page = Html(trial.run("report.py", *frame, "--report", trial.file("loss.txt"), *program))
    must_show(
        trial,
        page,
        trial.text(trial.file("loss.txt")),
        frame,
        bought_of(trial, trial.file("loss.txt"), *frame),
        "0.085694",
        "0.006741",
    )
    must("0.092435,0.092436" in page.numbers(page.root), "the loss")
    # better stocks under the bound of a plan
    trial.run(
        "best_of.py",
        *trial.tables(),
        "--budget",
        "40000",
        *held,
        *program,
        "--certificate",
        "best.certificate",
        "--write-stocks",
        "best.csv"
    )
    best = trial.spares("eval", *trial.tables(), "--stocks", "best.csv")
    trial.put("best.txt", best)
    page = Html(
        trial.run("report.py", *frame, "--report", "best.txt", *held, "--certificate", "best.certificate", *program)
    )
    bound = lines_of(trial.spares("check", "--certificate", "best.certificate"), "bound")[0][0]
    gap = "%.6f" % (float(lines_of(best, "total")[0][1]) - float(bound))
    must_show(trial, page, best, frame, bought_of(trial, "best.txt", *frame, *held), bound, gap)
    # what doesn't belong together
    trial.refuses(
        "report.py",
        *frame,
        "--report",
        trial.file("more.txt"),
        *held,
        "--certificate",
        "plan.certificate",
        *program,
        says="of other stocks than the report"
    )
    trial.refuses("report.py", *frame, "--report", trial.file("worth.txt"), *program, says="needs the certificate")
    trial.refuses(
        "report.py", *words, "--certificate", trial.put("bad", "x\n"), says="spares check refuses it: fault,bad-line,1"
    )
    trial.refuses(
        "report.py",
        *frame,
        "--report",
        trial.file("plan.txt"),
        "--sweep",
        os.path.join(trial.examples, "fleet", "sweep.txt"),
        *program,
        says="of other tables"
    )


def wind_farm(trial):
    """The tables of the wind farm, its plan, sweep, pictures and page are made again."""
    folder = os.path.join(trial.examples, "windfarm")
    shipped = {
        name: open(os.path.join(folder, name), "rb").read() for name in os.listdir(folder) if not name.startswith("__")
    }
    trial.run("windfarm/make.py", ".")
    os.rename(os.path.join(trial.room, "parts.csv"), os.path.join(trial.room, "export.csv"))
    trial.run(
        "limits.py",
        "--sites",
        "sites.csv",
        "--parts",
        "export.csv",
        "--rates",
        "rates.csv",
        "--write-parts",
        "parts.csv",
    )
    tables = ["--sites", "sites.csv", "--parts", "parts.csv", "--rates", "rates.csv"]
    held = ["--on-hand", "stocks.csv"]
    program = ["--program", trial.program]
    trial.put(
        "plan.txt", trial.spares("plan", *tables, *held, "--budget", "60000", "--certificate", "wind.certificate")
    )
    trial.put("sweep.txt", trial.spares("sweep", *tables))
    trial.put("sweep.svg", trial.run("sweep.py", "--to", "1000000", into=trial.text("sweep.txt").encode()))
    trial.put(
        "availability.csv",
        trial.run("availability.py", *tables, *held, "--to", "200000", "--picture", "availability.svg", *program),
    )
    trial.put(
        "report.html",
        trial.run(
            "report.py",
            *tables[:4],
            *held,
            "--report",
            "plan.txt",
            "--sweep",
            "sweep.txt",
            "--certificate",
            "wind.certificate",
            "--title",
            "Wind farm: 60,000 of spares",
            *program
        ),
    )
    for name, data in shipped.items():
        if name not in ("make.py", "README.md"):
            with open(os.path.join(trial.room, "export.csv" if name == "parts.csv" else name), "rb") as file:
                must(file.read() == data, "%s is made otherwise" % name)
    must(len(shipped) == 12, "the files of the wind farm: %s" % sorted(shipped))


def at_least(trial):
    """For a unit of money less than `at-least` of a target says, the bound of the plan reaches the target."""
    tried = 0
    for folder in trial.fleet, os.path.join(trial.examples, "fleet"), os.path.join(trial.examples, "squadron"):
        tables = [
            word for name in ("sites", "parts", "rates") for word in ("--" + name, os.path.join(folder, name + ".csv"))
        ]
        for target in "0.05", "0.3", "1", "2.5", "7", "20":
            least = lines_of(trial.spares("target", *tables, "--backorders", target), "at-least")[0][0]
            if least not in ("none", "0"):
                less = "%d" % (int(least) - 1)
                plan = trial.spares("plan", *tables, "--budget", less, "--certificate", os.devnull)
                must(float(lines_of(plan, "bound")[0][0]) >= float(target), "the bound for %s of %s" % (less, folder))
                tried += 1
    must(tried >= 9, "only %d targets were tried" % tried)


CHECKS = {
    check.__name__: check
    for check in (
        limits,
        limits_too_wide,
        lint,
        lint_names,
        lint_base,
        lint_headers,
        tables,
        tables_refused,
        buy,
        sweep,
        availability,
        best_of,
        fall_of_a_gap,
        sensitivity,
        drivers,
        report,
        wind_farm,
        at_least,
    )
}


def main():
    if sys.argv[1:] == ["--list"]:
        print("\n".join(CHECKS))
        return
    program, examples, fleet = map(os.path.abspath, sys.argv[1:4])
    with tempfile.TemporaryDirectory() as room:
        try:
            CHECKS[sys.argv[4]](Trial(program, examples, fleet, room))
        except Wrong as wrong:
            sys.exit("%s: %s" % (sys.argv[4], wrong))


main()
