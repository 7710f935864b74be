"""Compares the program with the model in tests/model on random cases: output, errors, status and all files must be the same.

    python3 tests/differential.py PROGRAM [TRIALS] [SEED]
    python3 tests/differential.py PROGRAM SEED/NUMBER

There are trials of several kinds, drawn at random: of sound tables (a plan, its certificate and damaged ones under `check`, and further
commands), of certificates with floors exactly at the least or one unit beside it, of damaged tables and edits, of damaged words, of single
pipelines, and of generated cases. A trial depends on its seed and number alone, so the second form runs one of them again. Each
difference is printed with the trial's name and a folder that keeps its files. The status is 1 if there was one. PROGRAM is split like the
words of a shell.
"""

import difflib
import os
import random
import shlex
import shutil
import signal
import subprocess
import sys
import tempfile
import time
from collections import Counter

sys.path.insert(0, os.path.join(os.path.dirname(os.path.abspath(__file__)), "model"))

import spares
from certificate import certificate_text
from demands import demands_of, fault_of
from random_cases import TABLES, cost_of_all, decimal, long_edits, other_form, random_case, random_edits, texts_of
from random_damage import changed_certificate, damaged_rows, damaged_text, damaged_words, wrong_rows
from random_floors import Leasts, claims_of, families_in, random_form, rows_of

TABLE_WORDS = [word for file in TABLES for word in ("--" + file, file)]
CHECK_WORDS = ["check", "--certificate", "certificate"]
MOST_DIFFERENCES = 10
# seconds of the processor; a run that takes the model longer isn't compared
LONGEST_RUN = 5


# Runs


class FolderShelf(spares.Shelf):
    """The files of a folder."""

    def __init__(self, folder):
        self.folder = folder

    def read(self, name, most):
        return spares.Shelf.read(self, self.place(name), most)

    def write(self, name, text):
        spares.Shelf.write(self, self.place(name), text)

    def place(self, name):
        if name == "":
            raise OSError("no name")
        return os.path.join(self.folder, name)


class TooLong(Exception):
    pass


def stop(number, frame):
    raise TooLong


def modelled(words, folder):
    """What the model leaves, or None if it takes too long."""
    return in_time(lambda: spares.run(words, FolderShelf(folder)))


def in_time(work):
    """The answer of some work, or None if it takes too long."""
    signal.signal(signal.SIGVTALRM, stop)
    signal.setitimer(signal.ITIMER_VIRTUAL, LONGEST_RUN)
    try:
        return work()
    except TooLong:
        return None
    finally:
        signal.setitimer(signal.ITIMER_VIRTUAL, 0)


class Trial:
    """A trial: its random numbers, its two folders, and what its runs ended with."""

    def __init__(self, program, seed, number):
        self.program, self.name = program, "%s/%s" % (seed, number)
        self.rng = random.Random(self.name)
        self.room = tempfile.mkdtemp(prefix="trial-%s-%s-" % (seed, number))
        self.folders = [os.path.join(self.room, who) for who in ("program", "model")]
        for folder in self.folders:
            os.mkdir(folder)
        self.ends, self.differences = [], []

    def put(self, files):
        """Puts files into both folders."""
        for folder in self.folders:
            for name, text in files.items():
                with open(os.path.join(folder, name), "wb") as file:
                    file.write(text)

    def compare(self, words):
        """Runs both with these words, and answers the certificate that is left, or None."""
        left = modelled(words, self.folders[1])
        if left is None:
            self.ends.append(("left out", "left out"))
            return None
        self.ends.append(end_of(words, left))
        ran = subprocess.run(self.program + words, cwd=self.folders[0], stdin=subprocess.DEVNULL, capture_output=True, timeout=600)
        both = [
            ("standard output", ran.stdout, left.out),
            ("standard error", ran.stderr, left.err),
            ("status", ran.returncode, left.status),
            ("files", *map(files_in, self.folders)),
        ]
        for what, found, wanted in both:
            if found != wanted:
                self.differences.append("%s: %s\n%s" % (" ".join(map(repr, words)), what, shown(found, wanted)))
        return left.certificate

    def finish(self):
        if not self.differences:
            shutil.rmtree(self.room)


def shown(found, wanted):
    """How what the program leaves differs from what the model does, line by line if they are texts."""
    if not isinstance(found, bytes):
        return "  program: %r\n  model: %r" % (found, wanted)
    lines = [repr(text.decode("latin-1")).replace("\\n", "\n").split("\n") for text in (found, wanted)]
    return "\n".join("  " + line for line in difflib.unified_diff(*lines, "program", "model", lineterm="", n=0))


def files_in(folder):
    """The bytes of all files in a folder by their names."""
    found = {}
    for name in sorted(os.listdir(folder)):
        with open(os.path.join(folder, name), "rb") as file:
            found[name] = file.read()
    return found


def end_of(words, left):
    """The command of a run, or none, and the kind of its refusal, or that there is a report."""
    command = words[0] if words and words[0] in spares.COMMANDS else "no command"
    kind = "a report" if left.status == 0 else left.err.decode("latin-1").strip()
    fields = kind.split(",")
    return command, ",".join(fields[: 3 if fields[1:2] == ["rejected"] else 2])


# Words


def plan_words(rng, most):
    """The words of `plan`, with a budget that is seldom over this cost."""
    budget = rng.choice([10**15, 10**15 + 1, 0]) if rng.random() < 0.05 else rng.randint(0, most * 9 // 8)
    words = ["plan", *TABLE_WORDS, "--certificate", "certificate"]
    written = other_form(rng, str(budget))
    words += ["--budget=" + written] if rng.random() < 0.2 else ["--budget", written]
    form = "3" if rng.random() < 0.02 else rng.choice([None, "1", "2", "2"])
    more = ["--on-hand", "on-hand"] * (rng.random() < 0.3)
    if rng.random() < 0.4:
        more += ["--objective", rng.choice(["log-availability"] * 6 + ["backorders", "backorder"])]
    if more and rng.random() < 0.9:
        form = rng.choice([None, "2"])
    return words + more + (["--format", form] if form else [])


def further_words(rng, totals=()):
    """The words of a further command over the same tables; a target is often one of these totals, or one ten-thousandth beside it."""
    command = rng.choice(["eval", "sweep", "target", "target", "session", "session", "compare"])
    target = rng.choice([decimal(rng, 0, 20, 4), decimal(rng, 0, 2000, 1), "0", "1000000000"])
    if totals and rng.random() < 0.8:
        units = max(0, rng.choice([totals[1], *rng.sample(totals, 2)]) + rng.choice([0, 0, 0, 1, -1]))
        target = "%d.%04d" % (units // 10**4, units % 10**4)
    more = {
        "eval": ["--stocks", "on-hand", *rng.choice([[], ["--bits", rng.choice(["32", "48", "52", "40", "48.0", "052"])]])],
        "sweep": [],
        "target": ["--backorders", target],
        "session": ["--edits", "edits"],
        "compare": ["--stocks", "on-hand"],
    }[command]
    return [command, *TABLE_WORDS, *more]


def totals_in(folder):
    """The totals of the sweep of a folder's tables, in whole ten-thousandths."""
    left = modelled(["sweep", *TABLE_WORDS], folder)
    lines = left.out.decode("latin-1").splitlines() if left else []
    return [int(float(field) * 10**4) for line in lines[1:] for field in line.split(",")[2:4]]


def single_words(rng):
    """The words of `single`, some of them near the limits."""
    mean = rng.choice([decimal(rng, 0, 256, 4), decimal(rng, 0, 10, 4), "0", "0.0001", "256", "256.0001", "1", "0.25"])
    stock = str(rng.choice([rng.randint(0, 63), rng.randint(0, 8), 0, 63, 64]))
    words = ["single", other_form(rng, mean), other_form(rng, stock)]
    if rng.random() < 0.6:
        near = "%.4f" % (float(mean) * 1024 + rng.choice([0, 0.0001]))
        words += ["--variance", rng.choice([decimal(rng, 0, 256, 4), decimal(rng, 0, 10, 4), mean, near, "256"])]
    return words


# Kinds of trials


def try_tables(trial):
    """A plan of sound tables, its certificate and changed ones, and three further commands."""
    rng = trial.rng
    case = random_case(rng)
    trial.put({**texts_of(rng, case), "edits": random_edits(rng, case)})
    certificate = trial.compare(plan_words(rng, cost_of_all(case)))
    totals = totals_in(trial.folders[1])
    for _ in range(3):
        trial.compare(further_words(rng, totals))
    if certificate is not None:
        try_certificates(trial, certificate.encode("latin-1"))


def try_certificates(trial, certificate):
    """A certificate and changed ones under `check`."""
    trial.compare(CHECK_WORDS)
    for _ in range(6):
        trial.put({"certificate": changed_certificate(trial.rng, certificate)})
        trial.compare(CHECK_WORDS)


def try_floors(trial):
    """Certificates whose floors are exactly the least of a case's families, one unit more or one unit less, under `check`."""
    rng = trial.rng
    case = accepted_case(rng)
    families = families_in(case)
    for _ in range(3):
        leasts = in_time(lambda: Leasts(claims_of(case, families, *random_form(rng), rng), families))
        rows = list(rows_of("", leasts, rng)) if leasts else []
        for _, claims, _ in rng.sample(rows, min(5, len(rows))):
            trial.put({"certificate": certificate_text(claims).encode("latin-1")})
            trial.compare(CHECK_WORDS)


def accepted_case(rng):
    """A random case whose rates are accepted."""
    while True:
        texts = texts_of(rng, random_case(rng))
        case = spares.read_case({file: text.decode("latin-1") for file, text in texts.items()})
        if fault_of(case, demands_of(case)) is None:
            return case


def try_damage(trial):
    """Damaged tables and edits: each of some damages alone, under a command that reads them."""
    rng = trial.rng
    case = random_case(rng)
    edits = random_edits(rng, case)
    for _ in range(8):
        texts = {**texts_of(rng, case), "edits": edits}
        file = rng.choice([*TABLES, *TABLES, "on-hand", "edits"])
        if file != "edits" and rng.random() < 0.75:
            rows = rng.choice([damaged_rows(rng, case[file]), wrong_rows(rng, file, case[file])])
            texts[file] = texts_of(rng, {file: rows})[file]
        else:
            texts[file] = damaged_text(rng, texts[file])
        trial.put(texts)
        is_edits = file == "edits"
        trial.compare(["session", *TABLE_WORDS, "--edits", "edits"] if is_edits else damage_words(rng, cost_of_all(case)))


def damage_words(rng, most):
    """The words of a command that reads stocks too, or of any other."""
    held = ["plan", *TABLE_WORDS, "--certificate", "certificate", "--budget", str(most // 2), "--on-hand", "on-hand"]
    return rng.choice([held, ["compare", *TABLE_WORDS, "--stocks", "on-hand"], further_words(rng)])


def try_edits(trial):
    """Long files of edits over a small case."""
    rng = trial.rng
    sites = [["site", "kind", "systems", "ship_days"], ["D", "depot", "", ""], ["B", "base", "12", "10"]]
    parts = [["part", "parent", "cost", "per_system", "max_depot", "max_base"], ["L", "", "100", "1", "2", "3"]]
    rates = [["part", "site", "demand", "repair_here", "share", "repair_days"], ["L", "D", "", "", "", "20"], ["L", "B", "36.5", "0", "", "0"]]
    trial.put(texts_of(rng, {"sites": sites, "parts": parts, "rates": rates}))
    for _ in range(3):
        trial.put({"edits": long_edits(rng)})
        trial.compare(["session", *TABLE_WORDS, "--edits", "edits"])


def try_words(trial):
    """Damaged words of any command, over sound tables."""
    rng = trial.rng
    case = random_case(rng)
    trial.put({**texts_of(rng, case), "edits": random_edits(rng, case)})
    for _ in range(8):
        sound = rng.choice([plan_words(rng, 1000), further_words(rng), single_words(rng), ["demo", "7", "1"], ["check", "--certificate", "sites"]])
        trial.compare(damaged_words(rng, sound))


def try_single(trial):
    """Single pipelines."""
    for _ in range(8):
        trial.compare(single_words(trial.rng))


def try_demo(trial):
    """A generated case."""
    rng = trial.rng
    trial.compare(["demo", other_form(rng, str(rng.randrange(1 << 32))), other_form(rng, str(rng.randint(0, 5)))])


def try_files(trial):
    """A file that is missing, has as many bytes as it may, or one more; and names that can't be read or written."""
    rng = trial.rng
    case = random_case(rng)
    texts = texts_of(rng, case)
    file = rng.choice(list(texts))
    texts[file] = texts[file].ljust(4194304 + rng.randint(0, 1), b"\n")
    trial.put(texts)
    words = plan_words(rng, cost_of_all(case))
    trial.compare(words)
    for name in ("none", "none/none", ".", ""):
        for file in ("certificate", rng.choice([file for file in texts if file in words])):
            trial.compare([name if word == file else word for word in words])


KINDS = [try_tables] * 60 + [try_floors] * 20 + [try_damage] * 20 + [try_words] * 10
KINDS += [try_single] * 4 + [try_demo] * 2 + [try_edits] * 3 + [try_files]


def run_trial(program, seed, number):
    """The kind of a trial, what its runs ended with, and its differences."""
    trial = Trial(program, seed, number)
    kind = trial.rng.choice(KINDS)
    kind(trial)
    trial.finish()
    for difference in trial.differences:
        print("trial %s: %s\n%s\n  its files: %s" % (trial.name, kind.__doc__, difference, trial.room), flush=True)
    return kind.__name__.split("_")[1], trial


def said(counts):
    return ", ".join("%s %d" % (name, count) for name, count in sorted(counts.items(), key=lambda item: (-item[1], item[0])))


def main():
    if len(sys.argv) < 2:
        sys.exit(__doc__)
    program = shlex.split(sys.argv[1])
    program[0] = os.path.abspath(program[0]) if os.path.exists(program[0]) else program[0]
    if "/" in "".join(sys.argv[2:3]):
        seed, number = sys.argv[2].split("/")
        numbers = [number]
    else:
        seed, numbers = (sys.argv[3] if len(sys.argv) > 3 else "1"), range(int(sys.argv[2]) if len(sys.argv) > 2 else 100)
    kinds, runs, refusals, different, start = Counter(), Counter(), Counter(), 0, time.time()
    for number in numbers:
        kind, trial = run_trial(program, seed, number)
        kinds[kind] += 1
        for command, end in trial.ends:
            runs[command] += 1
            refusals[end] += 1
        different += bool(trial.differences)
        if different >= MOST_DIFFERENCES:
            break
    reports = refusals.pop("a report", 0)
    print("%d trials of seed %s in %d s: %s" % (sum(kinds.values()), seed, time.time() - start, said(kinds)))
    print("%d runs: %s" % (sum(runs.values()), said(runs)))
    print("%d reports, and %d kinds of refusals: %s" % (reports, len(refusals), said(refusals)))
    print("%d trials differ" % different)
    sys.exit(1 if different else 0)


if __name__ == "__main__":
    main()
