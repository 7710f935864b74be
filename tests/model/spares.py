#!/usr/bin/env python3
"""The model of the program: it takes the same words, prints the same bytes and ends with the same status.

    python3 tests/model/spares.py WORDS..

It is written from docs/MODEL.md, docs/FORMATS.md and docs/CERTIFICATE.md alone, as plainly as these pages say it, and is slow. Each
file follows sections of the pages, which its first line names.
"""

import os
import sys
from collections import namedtuple
from fractions import Fraction

from cases import case_of, cost_of, frame_of, stocks_of
from certificate import certificate_text, read_certificate
from checking import check_lines
from demands import accepted_demands
from demonstration import demonstration_lines
from figures import comparison_lines, figures_lines, figures_of
from intervals import of_ratio, text_of
from pipelines import table
from planning import check_work, claims_of, curves_of, plan_lines, planned
from refusals import Refusal
from sessions import session_lines
from sweeping import sweep_lines, sweep_of, target_lines
from tables import read_parts, read_rates, read_sites, read_stocks
from words import bits_of, demo_numbers, plan_numbers, single_numbers, split_words, target_of

LONGEST_TABLE = 4194304
LONGEST_CERTIFICATE = 16777216
FILES = ("sites", "parts", "rates", "stocks", "on-hand", "edits", "certificate")

# what a run leaves: the bytes on the standard output and the standard error, the status, and the certificate that was written
Left = namedtuple("Left", "out err status certificate")


class Shelf:
    """The files of the system, as texts with one sign for each byte."""

    def read(self, name, most):
        """At most this number of bytes and one more."""
        with open(name, "rb") as file:
            return file.read(most + 1).decode("latin-1")

    def write(self, name, text):
        with open(name, "wb") as file:
            file.write(text.encode("latin-1"))


# Reading


def read_files(shelf, command, options):
    """The texts of the files that a command reads, in the order of the files."""
    texts = {}
    for file in FILES:
        if file not in options or file == "certificate" and command == "plan":
            continue
        most = LONGEST_CERTIFICATE if file == "certificate" else LONGEST_TABLE
        try:
            texts[file] = shelf.read(options[file], most)
        except (OSError, ValueError):
            raise Refusal(5, "read", file) from None
        if len(texts[file]) > most:
            raise Refusal(8, "too-long", file)
    return texts


def read_case(texts):
    """The case of the tables, or the first fault in the order sites, parts, frame, rates, case."""
    sites = read_sites(texts["sites"])
    frame = frame_of(sites, read_parts(texts["parts"]))
    return case_of(frame, read_rates(texts["rates"], frame))


def read_case_with(texts, file):
    """The case and the stocks of a table of that name, or None for the stocks if there is no such table."""
    case = read_case(texts)
    return case, stocks_of(case, read_stocks(texts[file], file, case)) if file in texts else None


# The commands. Each takes its plain words, its options and what reads its files; it answers the lines of its report and a certificate or None.


def run_single(plain, options, texts):
    mean, variance, stock = single_numbers(plain, options)
    for units in (mean, variance):
        if units > 256 * 10**4:
            raise Refusal(3, "pipeline-too-large", "single")
    if variance > 1024 * mean:
        raise Refusal(3, "pipeline-ratio", "single")
    rows = table(48, *[of_ratio(48, Fraction(units, 10**4)) for units in (mean, variance)])
    return ["backorders," + text_of(48, rows.backorders[stock]), "variance," + text_of(48, rows.variances[stock])], None


def run_eval(plain, options, texts):
    bits = bits_of(options)
    case, stocks = read_case_with(texts(), "stocks")
    figures = figures_of(case, accepted_demands(case), stocks, bits)
    return ["eval,%d" % bits, "cost,%d" % cost_of(case, stocks)] + figures_lines(case, figures), None


def run_plan(plain, options, texts):
    budget, form, objective = plan_numbers(options)
    case, held = read_case_with(texts(), "on-hand")
    demands = accepted_demands(case)
    check_work(case, held)
    plan, stocks = planned(case, demands, budget, objective, held)
    claims = claims_of(case, demands, plan, stocks, form, objective, held)
    return plan_lines(case, demands, plan, stocks, objective, held), certificate_text(claims)


def states_of(texts):
    """The points of the sweep of the tables."""
    case = read_case(texts)
    demands = accepted_demands(case)
    check_work(case)
    return sweep_of(curves_of(case, demands))


def run_sweep(plain, options, texts):
    return sweep_lines(states_of(texts())), None


def run_target(plain, options, texts):
    target = target_of(options)
    return target_lines(states_of(texts()), target), None


def run_session(plain, options, texts):
    texts = texts()
    case = read_case(texts)
    check_work(case)
    return session_lines(case, texts["edits"]), None


def run_compare(plain, options, texts):
    case, stocks = read_case_with(texts(), "stocks")
    return comparison_lines(case, accepted_demands(case), stocks), None


def run_check(plain, options, texts):
    return check_lines(read_certificate(texts()["certificate"])), None


def run_demo(plain, options, texts):
    return demonstration_lines(*demo_numbers(plain)), None


COMMANDS = {
    "single": run_single,
    "eval": run_eval,
    "plan": run_plan,
    "sweep": run_sweep,
    "target": run_target,
    "session": run_session,
    "compare": run_compare,
    "check": run_check,
    "demo": run_demo,
}


def run(words, shelf):
    """What the program leaves of these words."""
    try:
        command, plain, options = split_words(words)
        lines, certificate = COMMANDS[command](plain, options, lambda: read_files(shelf, command, options))
        if certificate is not None:
            write_certificate(shelf, options["certificate"], certificate)
        return Left("".join(line + "\n" for line in lines).encode("latin-1"), b"", 0, certificate)
    except Refusal as refusal:
        return Left(b"", refusal.line.encode("latin-1") + b"\n", refusal.status, None)


def write_certificate(shelf, name, text):
    try:
        shelf.write(name, text)
    except (OSError, ValueError):
        raise Refusal(6, "write") from None


def put(number, data):
    """Writes all bytes to a standard stream."""
    while data:
        data = data[os.write(number, data) :]


def main():
    left = run(sys.argv[1:], Shelf())
    err, status = left.err, left.status
    try:
        put(1, left.out)
    except OSError:
        err, status = b"fault,write\n", 6
    try:
        put(2, err)
    except OSError:
        pass
    sys.exit(status)


if __name__ == "__main__":
    main()
