#!/usr/bin/env python3
"""Measures what each crate costs the gate, and writes the table of docs/CONTRIBUTING.md from it.

    python3 tools/costs.py watch LOG COMMAND..   runs the command, say `rt ci`, and writes the processor seconds of each
                                                 check that it starts to LOG; ends with the command's status
    python3 tools/costs.py table LOG             prints the table of a log
    python3 tools/costs.py table LOG --write     puts it between the two marks in docs/CONTRIBUTING.md
    python3 tools/costs.py functions CRATE       prints the seconds of the crate's dearest functions and lemma files in its
                                                 last check; the check begins with no out/incremental and has one job
    python3 tools/costs.py paths                 prints the crates from which the most paths lead down through crates.txt:
                                                 some kits sum up a library's files anew for each path, twice

A check is a process of the prover. Its folder tells what it is for: a crate's own folder for its proof or, with --test, for
its tests, and a temporary copy for a wrong body. Its seconds are read twice a second, so up to half a second of each is lost.
"""
import collections
import os
import re
import subprocess
import sys
import time

TOP = os.path.dirname(os.path.dirname(os.path.realpath(__file__)))
PAGE = f"{TOP}/docs/CONTRIBUTING.md"
BEGIN, END = "<!-- costs: made by tools/costs.py -->", "<!-- end of costs -->"
KINDS = ("proof", "tests", "wrong bodies")
SHOWN = 10  # crates in the table
DEAREST = 25  # functions in the list
# A function's modules: its control flow, the proof of its goals, and smaller ones.
OF_FUNCTION = re.compile(r"(.+?)\.(Lts|Proof|Tie|Layout|Reads|Goals|Named|Kinds|Code|Met|TheLink|Answers|Invariants)\b")
TICKS = os.sysconf("SC_CLK_TCK")


def read_bytes(path):
    """Returns a file of /proc, or nothing if its process has ended."""
    try:
        with open(path, "rb") as it:
            return it.read()
    except OSError:
        return b""


def check_of(process):
    """Returns the crate and the kind of a prover's process, or None for any other process."""
    words = read_bytes(f"/proc/{process}/cmdline").decode(errors="replace").split("\0")
    if not words[0].endswith("/rattle") or "--crate-name" not in words:
        return None
    try:
        folder = os.readlink(f"/proc/{process}/cwd")
    except OSError:
        return None
    kind = "wrong bodies" if "/rt-edit-" in folder else "tests" if "--test" in words else "proof"
    return words[words.index("--crate-name") + 1], kind


def seconds_of(process):
    """Returns when a process began, in ticks since the start of the machine, and its processor seconds so far."""
    fields = read_bytes(f"/proc/{process}/stat").rpartition(b")")[2].split()
    return (int(fields[19]), (int(fields[11]) + int(fields[12])) / TICKS) if fields else None


def look(found):
    """Notes each prover's process that runs now."""
    for process in filter(str.isdigit, os.listdir("/proc")):
        check, used = check_of(process), seconds_of(process)
        if check and used:
            found[process, used[0]] = (*check, used[1])


def watch(log, command):
    """Runs a command, writes its checks to the log, and returns its status."""
    found, begun = {}, time.monotonic()
    with subprocess.Popen(command) as ran:
        while ran.poll() is None:
            look(found)
            time.sleep(0.5)
    spent = os.times()
    with open(log, "w", encoding="utf-8") as it:
        it.writelines(f"{crate}\t{kind}\t{seconds:.2f}\n" for crate, kind, seconds in found.values())
        it.write(f"# {' '.join(command)}: {(time.monotonic() - begun) / 60:.1f} minutes by the clock, ")
        it.write(f"{(spent.children_user + spent.children_system) / 60:.1f} processor minutes in all\n")
    return ran.returncode


def minutes_in(log):
    """Returns the processor minutes of each crate and kind, and the log's last line."""
    minutes, last = collections.Counter(), ""
    with open(log, encoding="utf-8") as lines:
        for line in lines:
            if line.startswith("# "):
                last = line[2:].strip()
                continue
            crate, kind, seconds = line.rstrip("\n").split("\t")
            minutes[crate, kind] += float(seconds) / 60
    return minutes, last


def table_of(log):
    """Returns the table: the dearest crates, the dearest first, and the sum of all."""
    minutes, last = minutes_in(log)
    crates = sorted({crate for crate, _ in minutes}, key=lambda it: (-sum(minutes[it, kind] for kind in KINDS), it))
    lines = [f"`{last.partition(':')[0]}`:{last.partition(':')[2]}.", "", f"| crate | {' | '.join(KINDS)} |", "|---|---|---|---|"]
    for crate in crates[:SHOWN]:
        cells = [f"{minutes[crate, kind]:.1f}" if (crate, kind) in minutes else "" for kind in KINDS]
        lines.append(f"| `{crate}` | {' | '.join(cells)} |")
    sums = [sum(minutes[crate, kind] for crate in crates) for kind in KINDS]
    return "\n".join([*lines, f"| all {len(crates)} | {' | '.join(f'{it:.0f}' for it in sums)} |"])


def write(table):
    """Puts the table between its marks in the page."""
    with open(PAGE, encoding="utf-8") as it:
        text = it.read()
    marked = re.compile(f"{re.escape(BEGIN)}\n.*?{re.escape(END)}", re.S)
    if len(marked.findall(text)) != 1:
        sys.exit(f"costs: {PAGE} has no place for the table: two lines, {BEGIN} and {END}")
    with open(PAGE, "w", encoding="utf-8") as it:
        it.write(marked.sub(lambda _: f"{BEGIN}\n{table}\n{END}", text))


def modules_of(crate):
    """Returns each module that the crate's last check has written, and the seconds since the one before it."""
    written = []
    for at, _, names in os.walk(f"{TOP}/crates/{crate}/out/incremental"):
        written += [(os.stat(f"{at}/{name}").st_mtime, name) for name in names if name.startswith(f"Rattle-{crate}-")]
    written.sort()
    modules = [name.removeprefix(f"Rattle-{crate}-").removesuffix(".oantt").removesuffix(".decls") for _, name in written]
    return list(zip(modules[1:], (after - before for (before, _), (after, _) in zip(written, written[1:]))))


def functions_of(crate):
    """Returns a line for each of the dearest functions and lemma files: all its seconds, of these control flow and goals."""
    seconds = collections.defaultdict(collections.Counter)
    for module, spent in modules_of(crate):
        found = OF_FUNCTION.match(module)
        seconds[found[1] if found else module][found[2] if found else "Proof"] += spent
    dearest = sorted(seconds.items(), key=lambda it: -sum(it[1].values()))[:DEAREST]
    total = sum(sum(spent.values()) for spent in seconds.values())
    head = f"{total:.0f} seconds in all; of each: all, control flow (Lts), goals or lemmas (Proof)"
    return "\n".join([head, *(f"{sum(it.values()):6.1f} {it['Lts']:6.1f} {it['Proof']:6.1f}  {name}" for name, it in dearest)])


def libraries_of():
    """Returns the libraries of this repository that each crate names, from crates.txt."""
    with open(f"{TOP}/crates.txt", encoding="utf-8") as listed:
        lines = [line.partition("#")[0].strip() for line in listed]
    named = {line.partition(":")[0]: line.partition(":")[2].split() for line in lines if line}
    return {crate: [it for it in below if it in named] for crate, below in named.items()}


def paths():
    """Returns a line for each of the crates from which the most paths lead down, the path of no step counted too."""
    libraries, counted = libraries_of(), {}

    def count(crate):
        if crate not in counted:
            counted[crate] = 1 + sum(count(it) for it in libraries[crate])
        return counted[crate]

    most = sorted(libraries, key=lambda it: (-count(it), it))[:DEAREST]
    return "\n".join(f"{count(it):7}  {it}" for it in most)


def main(words):
    """Does what the words ask for, and returns the exit status."""
    if words[:1] == ["watch"] and len(words) > 2:
        return watch(words[1], words[2:])
    if words[:1] == ["table"] and words[2:] in ([], ["--write"]):
        table = table_of(words[1])
        write(table) if words[2:] else print(table)
        return 0
    if words[:1] == ["functions"] and len(words) == 2:
        print(functions_of(words[1]))
        return 0
    if words == ["paths"]:
        print(paths())
        return 0
    print(__doc__.strip(), file=sys.stderr)
    return 2


if __name__ == "__main__":
    sys.exit(main(sys.argv[1:]))
