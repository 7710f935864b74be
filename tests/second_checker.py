"""A second checker agrees with the program about certificates: of the examples, of the page, and 50 damaged ones.

    python3 tests/second_checker.py PROGRAM EXAMPLES PAGE CERTIFICATE..

EXAMPLES is the folder of the example cases, with the second checker; PAGE is CERTIFICATE.md, whose certificate is accepted too, as are
the further ones.
"""

import os
import re
import subprocess
import sys
import tempfile

KINDS = {
    "plain": "fleet --budget 1475000",
    "covered": "fleet --budget 1475000 --format 2",
    "loss": "fleet --budget 500000 --objective log-availability",
    "held": "fleet --budget 250000 --on-hand fleet/stocks.csv",
    "squadron": "squadron --budget 52000000",
    "squadron's loss": "squadron --budget 52000000 --objective log-availability",
}


class Text:
    """A certificate as a list of lines, with the places where its parts begin."""

    def __init__(self, data):
        self.lines = data.decode().split("\n")[:-1]

    def at(self, begin, after=0):
        """The place of the first line that begins so."""
        return next(k for k, line in enumerate(self.lines) if k >= after and line.startswith(begin))

    def put(self, place, line):
        self.lines[place] = line

    def add(self, begin, by, field=1):
        """Adds to a number of the line that begins so."""
        fields = self.lines[self.at(begin)].split(",")
        fields[field] = str(int(fields[field]) + by)
        self.put(self.at(begin), ",".join(fields))

    def add_after(self, begin, place, by):
        """Adds to the number of a line after the one that begins so: that of a floor, a stock, what is held."""
        place += 1 + self.at(begin)
        self.put(place, str(int(self.lines[place]) + by))

    def swap(self, begin, old, new):
        """Another text in the line that begins so."""
        line = self.lines[self.at(begin)]
        assert old in line, line
        self.put(self.at(begin), line.replace(old, new))

    def per(self):
        return int(self.lines[self.at("price,")].split(",")[2])

    def data(self):
        return "".join(line + "\n" for line in self.lines).encode()


# a clear step: 2^-24 of the aim, far more than the width of an interval
CLEAR = 1 << 24


def raise_floor(text, family):
    text.add_after("floors,", family, CLEAR * text.per())


def raise_all_floors(text):
    """The bound is raised too, so that it follows from them."""
    count = int(text.lines[text.at("floors,")].split(",")[1])
    for family in range(count):
        raise_floor(text, family)
    text.add("bound,", CLEAR * count)


def change_cover(text, first, change):
    """Changes the nodes of the first cover whose first node begins so."""
    place = text.at("covers,")
    while True:
        place = text.at("cover,", place)
        if text.lines[place + 1].startswith(first):
            break
        place += 1
    end = place + 1 + int(text.lines[place].split(",")[1])
    nodes = change(text.lines[place + 1 : end])
    text.lines[place:end] = ["cover,%d" % len(nodes)] + nodes


def double_line(text, begin):
    text.lines.insert(text.at(begin), text.lines[text.at(begin)])


def drop(text, begin):
    del text.lines[text.at(begin)]


def exchange(text, begin):
    place = text.at(begin)
    text.lines[place : place + 2] = reversed(text.lines[place : place + 2])


# what is done to which certificate: each makes it false, or no certificate
DAMAGES = [
    # claims that say more than is true
    ("plain", lambda t: t.add("bound,", 1)),
    ("covered", lambda t: t.add("bound,", 1)),
    ("loss", lambda t: t.add("bound,", 1)),
    ("held", lambda t: t.add("bound,", 1)),
    ("plain", lambda t: t.add("upper,", -CLEAR)),
    ("covered", lambda t: t.add("upper,", -CLEAR)),
    ("loss", lambda t: t.add("upper,", -CLEAR)),
    ("held", lambda t: t.add("upper,", -CLEAR)),
    ("plain", lambda t: raise_floor(t, 0)),
    ("plain", lambda t: raise_floor(t, 5)),
    ("covered", lambda t: raise_floor(t, 1)),
    ("loss", lambda t: raise_floor(t, 2)),
    ("held", lambda t: raise_floor(t, 3)),
    ("plain", raise_all_floors),
    ("covered", raise_all_floors),
    ("held", raise_all_floors),
    # a budget and a price that the other claims don't follow from
    ("plain", lambda t: t.swap("budget,", "1475000", "1470499")),
    ("plain", lambda t: t.swap("budget,", "1475000", "1476000")),
    ("plain", lambda t: t.add("price,", t.per())),
    ("plain", lambda t: t.add("price,", -CLEAR * t.per())),
    ("covered", lambda t: t.add("price,", 1, 2)),
    ("covered", lambda t: t.add("price,", -1, 2)),
    # stocks that cost too much, are too many, too few or below what is held
    ("plain", lambda t: t.add_after("stocks,", 0, 1)),
    ("plain", lambda t: t.add_after("stocks,", 1, 1)),
    ("plain", lambda t: t.add_after("stocks,", 0, -1)),
    ("held", lambda t: t.add_after("held,", 3, 1)),
    ("held", lambda t: t.add_after("held,", 1, -1)),
    # another fleet
    ("plain", lambda t: t.swap("radar,North", "23.2000", "46.4000")),
    ("plain", lambda t: t.swap("radar,North", "23.2000", "11.6000")),
    ("covered", lambda t: t.swap("pump,D", "60.00", "30.00")),
    ("covered", lambda t: t.swap("radar,,80000", "80000", "70000")),
    ("loss", lambda t: t.swap("North,base,24", "24", "12")),
    ("loss", lambda t: t.swap("objective,", "log-availability", "backorders")),
    ("covered", lambda t: t.swap("objective,", "backorders", "log-availability")),
    # covers that are no trees, or leaves that show less
    ("covered", lambda t: change_cover(t, "split", lambda nodes: ["cost"])),
    ("covered", lambda t: change_cover(t, "split", lambda nodes: nodes[:-1])),
    ("covered", lambda t: change_cover(t, "split", lambda nodes: nodes + ["whole"])),
    ("covered", lambda t: change_cover(t, "split", lambda nodes: ["split,143,1"] + nodes[1:])),
    # texts that are no certificate
    ("plain", lambda t: t.swap("spares", "1", "3")),
    ("plain", lambda t: t.swap("sites,", "4", "5")),
    ("plain", lambda t: t.swap("North,base", "2.00", "2.0")),
    ("plain", lambda t: t.put(t.at("stocks,") + 2, "02")),
    ("plain", lambda t: t.swap("end", "end", "end\r")),
    ("plain", lambda t: t.lines.append("end")),
    ("plain", lambda t: exchange(t, "radar,North")),
    ("plain", lambda t: double_line(t, "floors,")),
    ("covered", lambda t: drop(t, "objective,")),
    ("held", lambda t: t.lines.pop()),
    # texts whose sites and parts make no case
    ("plain", lambda t: t.lines.__setitem__(slice(None), [line.replace("South", "North") for line in t.lines])),
    ("plain", lambda t: t.swap("radar-rf,radar", ",radar,", ",radio-board,")),
]


def check_page(page, checkers):
    """The numbered certificate of a page is accepted with the report that the page shows, and so are its held form and format 2."""
    with open(page) as file:
        text = file.read()
    plain = "".join(line + "\n" for line in re.findall(r"^ {4,5}\d{1,2}  (.+)$", text, re.M))
    report = checkers.accepted(plain.encode())
    if report is None or re.sub("^", "    ", report.rstrip("\n"), flags=re.M) + "\n" not in text:
        sys.exit("the page's certificate gives %s" % report)
    covered = plain.replace("certificate,1\n", "certificate,2\nobjective,backorders\n").replace("stocks,", "covers,1\ncover,1\nwhole\nstocks,")
    for data in covered, "spares-held,1\n" + covered + "held,2\n0\n0\nend\n":
        if checkers.accepted(data.encode()) is None:
            sys.exit("the page's certificate is refused in another form")


class Checkers:
    """The program's check and the second checker, on bytes."""

    def __init__(self, program, checker, room):
        self.program, self.checker = program, checker
        self.name = os.path.join(room, "certificate")

    def accepted(self, data):
        """What both print of an accepted certificate, or None where both refuse it."""
        with open(self.name, "wb") as file:
            file.write(data)
        words = [self.program, "check", "--certificate", self.name]
        ran = subprocess.run(words, capture_output=True, stdin=subprocess.DEVNULL)
        try:
            found = self.checker.report(data)
        except self.checker.Refused:
            found = None
        if (ran.returncode, ran.stdout.decode()) != ((0, found) if found else (4, "")):
            sys.exit("the second checker finds %s, the program %r" % (found, ran))
        return found


def planned(program, examples, words, name):
    """The certificate that the program writes of the case in a folder of the examples."""
    folder, *words = words.split()
    tables = [word for table in ("sites", "parts", "rates") for word in ("--" + table, "%s/%s.csv" % (folder, table))]
    subprocess.run([program, "plan", "--certificate", name] + tables + words, cwd=examples, capture_output=True, check=True)
    with open(name, "rb") as file:
        return file.read()


def main():
    program, examples, page = map(os.path.abspath, sys.argv[1:4])
    sys.dont_write_bytecode = True
    sys.path.insert(0, examples)
    checker = __import__("second_checker")
    with tempfile.TemporaryDirectory() as room:
        checkers = Checkers(program, checker, room)
        written = {kind: planned(program, examples, words, checkers.name) for kind, words in KINDS.items()}
        check_page(page, checkers)
        for name in sys.argv[4:]:
            with open(name, "rb") as file:
                if checkers.accepted(file.read()) is None:
                    sys.exit("%s is refused" % name)
        for kind, data in written.items():
            if checkers.accepted(data) is None:
                sys.exit("the certificate %s is refused" % kind)
        for number, (kind, damage) in enumerate(DAMAGES, 1):
            text = Text(written[kind])
            damage(text)
            if text.data() == written[kind] or checkers.accepted(text.data()) is not None:
                sys.exit("damage %d of the certificate %s is accepted" % (number, kind))
    print("%d damaged certificates are refused" % len(DAMAGES))


main()
