"""Runs the examples of a page: each must print what the page shows.

    python3 tests/pages.py PROGRAM EXAMPLES PAGE

An example is an indented line `$ ..`, continued if it ends with a backslash, and the lines up to the next
blank one or the next command: what is put out. A line `fault,..` is put on the standard error, alone and with a status that
isn't 0; all else on the standard output, with the status 0. A line `..` is any lines. The examples of a page
run in their order in one folder, which has the program as `spares`, the folder `examples`, and the files of the page:
each indented block that begins with the header of a table is the file of that table, and one whose lines are numbered is the file
`certificate`.
"""

import os
import re
import subprocess
import sys
import tempfile

HEADERS = {
    "site,kind,systems,ship_days": "sites.csv",
    "part,parent,cost,per_system,max_depot,max_base": "parts.csv",
    "part,site,demand,repair_here,share,repair_days": "rates.csv",
    "part,site,stock": "stocks.csv",
}
NUMBERED = re.compile(" {0,1}[0-9]{1,2}  ")


class Example:
    """A command, the lines that it must print, and the place of the first of these among the lines of the page."""

    def __init__(self, command, place):
        self.command, self.lines, self.place = command, [], place


def blocks_of(text):
    """The indented blocks of a page, as lists of lines with their places among the lines of the page."""
    blocks = [[]]
    for place, line in enumerate(text.split("\n")):
        if line.startswith("    "):
            blocks[-1].append((place, line[4:]))
        elif blocks[-1]:
            blocks.append([])
    return [block for block in blocks if block]


def examples_of(block):
    """The examples of a block."""
    found = []
    is_open = False
    for place, line in block:
        if is_open:
            found[-1].command += "\n" + line
            found[-1].place = place + 1
            is_open = line.endswith("\\")
        elif line.startswith("$ "):
            found.append(Example(line[2:], place + 1))
            is_open = line.endswith("\\")
        elif found:
            found[-1].lines.append(line)
    return found


def fill(room, program, examples, blocks):
    """Puts into a folder what the examples of a page need."""
    os.symlink(program, os.path.join(room, "spares"))
    os.symlink(examples, os.path.join(room, "examples"))
    for block in blocks:
        lines = [line for _, line in block]
        name = HEADERS.get(lines[0])
        if all(NUMBERED.match(line) for line in lines):
            name, lines = "certificate", [NUMBERED.sub("", line, count=1) for line in lines]
        if name:
            with open(os.path.join(room, name), "w") as file:
                file.write("\n".join(lines) + "\n")


def run(example, room):
    return subprocess.run(["bash", "-c", example.command], cwd=room, stdin=subprocess.DEVNULL, capture_output=True)


def is_shown(lines, printed):
    """Whether a text is these lines; `..` is any lines."""
    parts = ["(?:.*\n)*" if line == ".." else re.escape(line + "\n") for line in lines]
    return re.fullmatch("".join(parts), printed) is not None


def is_right(lines, ran):
    """Whether a run put out the shown lines on the right stream, with the right status."""
    is_fault = lines[:1] != [] and lines[0].startswith("fault,")
    shown, other = (ran.stderr, ran.stdout) if is_fault else (ran.stdout, ran.stderr)
    return is_shown(lines, shown.decode()) and not other and (ran.returncode != 0) == is_fault


def runs_of(program, examples, page, left_out=()):
    """The examples of a page, each with what its run put out; but for the commands that have one of the words `left_out`."""
    with open(page) as file:
        blocks = blocks_of(file.read())
    with tempfile.TemporaryDirectory() as room:
        fill(room, program, examples, blocks)
        for example in (example for block in blocks for example in examples_of(block)):
            if not any(word in example.command for word in left_out):
                yield example, run(example, room)


def difference(example, ran, page):
    """What a reader is told of an example that is wrong."""
    printed = (ran.stdout + ran.stderr).decode()
    shown = "\n".join(example.lines)
    return "$ %s\nprints\n%swith status %d, not what %s shows:\n%s" % (example.command, printed, ran.returncode, page, shown)


def main():
    program, examples, page = map(os.path.abspath, sys.argv[1:4])
    count, failures = 0, 0
    for example, ran in runs_of(program, examples, page):
        count += 1
        if not is_right(example.lines, ran):
            failures += 1
            print(difference(example, ran, page))
    if failures or not count:
        sys.exit("%d examples, %d of them wrong" % (count, failures))


if __name__ == "__main__":
    main()
