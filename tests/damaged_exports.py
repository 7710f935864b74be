"""The lint of tables judges as the program does: 50 damaged exports of a fleet, and 50 with several damages at once.

    python3 tests/damaged_exports.py PROGRAM EXAMPLES FLEET

FLEET is a folder with tables that are right. The first fault of lint.py must be the program's refusal, and lint.py
must find no fault exactly if the program takes the tables.
"""

import os
import random
import re
import subprocess
import sys
import tempfile

TABLES = ["sites", "parts", "rates", "stocks", "on-hand"]

# the table, a pattern that it has, and what stands in its place
DAMAGES = [
    # whole files as spreadsheets and people leave them
    ("sites", rb"\A", rb"Fleet of 2026\r\n"),
    ("rates", rb"\A", rb"Rates,,,,,\r\n"),
    ("parts", rb"\A", b"\xef\xbb\xbf"),
    ("rates", rb",", rb";"),
    ("parts", rb",", rb"\t"),
    ("stocks", rb"\r\n", rb"\n\n"),
    ("rates", rb"\r\n", rb"\r"),
    ("rates", rb"\r\n\Z", rb"\r\n   \r\n"),
    ("parts", rb"\r\n\Z", rb"\r\n,,,,,,\r\n"),
    ("sites", rb"(?s)\A.*\Z", rb""),
    ("rates", rb"(?s)\r\n.*\Z", rb""),
    ("sites", rb"ship_days", rb"Ship_days"),
    ("stocks", rb"part,site", rb"site,part"),
    ("parts", rb",weight", rb""),
    ("parts", rb"(?m),([12]?)\r$", rb"\r"),
    ("rates", rb"(?m)\r$", rb",\r"),
    ("rates", rb"(?s)\A.*\Z", rb"part,site,demand,repair_here,share,repair_days\n" + rb"winch,Dock 1,,,,1\n" * 32001),
    # names
    ("parts", rb"winch", b"winch\xc2\xa0"),
    ("rates", rb"winch,Pier East", rb"Winch,Pier East"),
    ("sites", rb"Pier West;2", rb"Pier West"),
    ("rates", rb"Pier West;2,3.6", rb"Pier West,3.6"),
    ("parts", rb"governor", rb"governor of the gen-set, aft"),
    ("parts", rb"governor", rb"\"governor, aft\""),
    ("parts", rb"injector", b"injecteur\xe9"),
    ("stocks", rb"winch,Dock 1", rb"winch ,Dock 2"),
    ("on-hand", rb"injector,Dock 1", rb",Dock 1"),
    # kinds and frames
    ("sites", rb"depot", rb"Depot"),
    ("sites", rb"base,5", rb"depot,5"),
    ("sites", rb"Dock 1,depot,,", rb"Dock 1,base,4,2"),
    ("sites", rb"\"Pier East\",base,5,3.5", rb"Dock 2,depot,,"),
    ("sites", rb"Pier West;2", rb"Pier East"),
    ("parts", rb"injector,\"gen-set\"", rb"injector,\"genset\""),
    ("parts", rb"governor,gen-set", rb"governor,injector"),
    ("parts", rb"governor,gen-set", rb"injector,gen-set"),
    ("parts", rb"\Z", b"".join(b"unit%d,gen-set,1,,0,0,\n" % k for k in range(7))),
    # numbers
    ("rates", rb"4\.5", rb"\"4,5\""),
    ("rates", rb"4\.5", rb"4.50001"),
    ("rates", rb"55\.25", rb"55.255"),
    ("rates", rb"4\.5", rb""),
    ("rates", rb"Dock 1,,,,40", rb"Dock 1,4.5,,,40"),
    ("rates", rb"0\.7", rb"70%"),
    ("rates", rb"0\.7", rb"1.1"),
    ("parts", rb"40000", rb"40 000"),
    ("parts", rb",2,3,2,2", rb",2,3,64,2"),
    ("stocks", rb"injector,Dock 1,2", rb"injector,Dock 1,6"),
    # rows
    ("rates", rb"winch,Dock 1,,,,40\r\n", rb""),
    ("rates", rb"(winch,Dock 1,,,,40\r\n)", rb"\1\1"),
    ("on-hand", rb"(governor,Dock 1,0\r\n)", rb"\1\1"),
    # rates that a plan refuses, and limits that need too many tables
    ("rates", rb"4\.5", rb"4500"),
    ("parts", rb"900,,5,2", rb"900,,63,63"),
]


# whole sites and parts, only among several damages
WIDE = [
    ("rates", rb"Pier East", rb"Pier Est"),
    ("rates", rb"gen-set", rb"genset"),
    ("sites", rb"Pier East", rb"Pier Est"),
    ("sites", rb"Pier East", b"Pi\xe9r East"),
    ("sites", rb",3.5", rb""),
    ("sites", rb"site,kind", rb"Site,type"),
    ("sites", rb",", rb";"),
    ("parts", rb"winch", rb"winches"),
    ("parts", rb",40000", rb""),
    ("parts", rb"part,parent", rb"part,line unit"),
    ("rates", rb"(?m)^[^,]*,Pier East.*\r\n", rb""),
    ("rates", rb"(?m)^winch.*\r\n", rb""),
    ("rates", rb"0\.2,0\.6", rb"20 %,0.6"),
    ("rates", rb"\Z", rb"winch,Pier Est,4.5,0.25,,6\r\n" * 2),
    ("rates", rb"\Z", rb",,,,,\r\n" * 3),
    ("stocks", rb"Pier East", rb"Pier Est"),
    ("stocks", rb"(?m)^[^,]*,Pier East.*\r\n", rb""),
    ("on-hand", rb"(?m)^winch.*\r\n", rb""),
    ("on-hand", rb"\Z", rb",,\r\n" * 3),
]


def damaged(data, pattern, text):
    found, count = re.subn(pattern, text, data)
    if not count or found == data:
        sys.exit("nothing is damaged by %r" % (pattern,))
    return found


class Judges:
    """The program and the lint, on tables in a folder."""

    def __init__(self, program, examples, room):
        self.program, self.lint = program, os.path.join(examples, "lint.py")
        self.room = room

    def files(self, tables, data):
        """Writes the tables; the options that name them."""
        words = []
        for table in tables:
            name = os.path.join(self.room, table + ".csv")
            with open(name, "wb") as file:
                file.write(data[table])
            words += ["--" + table, name]
        return words

    def compare(self, what, data, stocks):
        """Both on sites, parts and rates, with a table of stocks or of stocks on hand, or none."""
        words = self.files(["sites", "parts", "rates"] + ([stocks] if stocks else []), data)
        command = ["eval"] if stocks == "stocks" else ["plan", "--budget", "0", "--certificate", os.devnull]
        judged = subprocess.run([self.program] + command + words, capture_output=True, stdin=subprocess.DEVNULL)
        linted = subprocess.run([sys.executable, self.lint] + words, capture_output=True, stdin=subprocess.DEVNULL)
        said = linted.stdout.decode("latin-1").split("\n")[0]
        refusal = judged.stderr.decode("latin-1").rstrip("\n")
        if stocks == "stocks" and not refusal and ": fault,work," in said:
            return refusal  # eval needs no tables, and lint says that a plan would
        is_same = said == "no faults" if not refusal else ": %s: " % refusal in said
        if not is_same or linted.stderr or linted.returncode != (1 if refusal else 0):
            sys.exit("%s: the program says %r, lint %r, %r" % (what, refusal, said, linted.stderr.decode("latin-1")))
        return refusal


def main():
    program, examples, fleet = map(os.path.abspath, sys.argv[1:4])
    sound = {}
    for table in TABLES:
        with open(os.path.join(fleet, ("stocks" if table == "on-hand" else table) + ".csv"), "rb") as file:
            sound[table] = file.read()
    draws = random.Random(35)
    refused = 0
    with tempfile.TemporaryDirectory() as room:
        judges = Judges(program, examples, room)
        for stocks in (None, "stocks", "on-hand"):
            if judges.compare("the fleet as it is", sound, stocks):
                sys.exit("the fleet as it is, is refused")
        for number, (table, pattern, text) in enumerate(DAMAGES, 1):
            data = {**sound, table: damaged(sound[table], pattern, text)}
            refused += judges.compare("damage %d" % number, data, table if table in TABLES[3:] else None) != ""
        for number in range(1, 51):
            data = dict(sound)
            for table, pattern, text in draws.sample(DAMAGES + WIDE, draws.choice([2, 2, 3, 5])):
                if re.search(pattern, data[table]):
                    data[table] = re.sub(pattern, text, data[table])
            judges.compare("mixture %d" % number, data, draws.choice(TABLES[3:]))
    print("%d of %d damaged exports are refused, each as the program refuses it" % (refused, len(DAMAGES)))
    if len(DAMAGES) != 50 or refused < 40:
        sys.exit(1)


main()
