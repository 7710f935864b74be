#!/usr/bin/env python3
"""Proves and builds the program of this checkout: python3 tools/build.py

The script `spares` calls it when the program is missing or older than its sources. It copies the crates that the program
needs, without their wrong bodies, to a folder of its own, and has the kit's gate (by rt.py) prove them there, without its
search for contracts that no call can meet: as many side by side as there are processors and as memory holds, the longest
chain of crates first. Each crate that is proved is kept, so an interrupted run goes on where it stopped, and of two runs
at once each takes what the other has proved.

One line on the standard error for each crate that is proved; nothing on the standard output. Ends with status 0 when the
program is built, and else with 1, after the log of the run.
"""
import os
import re
import shutil
import signal
import subprocess
import sys
import tempfile
import time

TOP = os.path.dirname(os.path.dirname(os.path.realpath(__file__)))
PROGRAM = "spares"
PARTS = ("src", "specs", "proofs")


def libraries_of():
    """Returns the libraries that each crate names, from crates.txt."""
    with open(f"{TOP}/crates.txt", encoding="utf-8") as listed:
        lines = [line.partition("#")[0].strip() for line in listed]
    pairs = [line.partition(":")[::2] for line in lines if line]
    return {name.strip(): below.split() for name, below in pairs}


def needed_by(name, libraries, found=()):
    """Returns the crates found so far, then those that this crate stands on, lowest first, and the crate itself."""
    found = [*found]
    for below in libraries[name]:
        if below in libraries and below not in found:
            found = needed_by(below, libraries, found)
    return [*found, name]


def copy_crates(crates, libraries, to):
    """Writes the crates to the folder `to`, as the top of a repository that has no others."""
    os.mkdir(f"{to}/.git")
    shutil.copyfile(f"{TOP}/HANDLES", f"{to}/HANDLES")
    with open(f"{to}/crates.txt", "w", encoding="utf-8") as listed:
        listed.writelines(f"{name}: {' '.join(libraries[name])}\n" for name in crates)
    for name in crates:
        for part in PARTS:
            if os.path.isdir(f"{TOP}/crates/{name}/{part}"):
                shutil.copytree(f"{TOP}/crates/{name}/{part}", f"{to}/crates/{name}/{part}")
    for stream in ("stdin", "stdout", "args", "status"):
        if os.path.isfile(f"{TOP}/crates/{PROGRAM}/{stream}"):
            shutil.copyfile(f"{TOP}/crates/{PROGRAM}/{stream}", f"{to}/crates/{PROGRAM}/{stream}")


def say(text):
    """Writes a line to the standard error."""
    print(f"spares: {text}", file=sys.stderr, flush=True)


def prove(folder, count):
    """Runs the gate in the folder, says how far it is, and returns its status and its log."""
    begun, log, proved = time.monotonic(), [], 0
    words = [sys.executable, f"{TOP}/tools/rt.py", "--build", "ci"]
    how = {"stdin": subprocess.DEVNULL, "stdout": subprocess.PIPE, "stderr": subprocess.STDOUT}
    with subprocess.Popen(words, cwd=folder, text=True, errors="replace", **how) as gate:
        try:
            for line in gate.stdout:
                log.append(line)
                ended = re.match(r"rt: (\w+) (proved$|is kept: |NOT PROVED)", line)
                if ended and "NOT PROVED" not in line:
                    proved += 1
                    kept = " (kept from an earlier run)" if "is kept" in line else ""
                    minutes = (time.monotonic() - begun) / 60
                    say(f"{proved} of {count} crates proved after {minutes:.1f} minutes: {ended[1]}{kept}")
                elif ended or "waiting for it" in line:
                    say(line.strip().removeprefix("rt: "))
        except BaseException:
            gate.terminate()
            raise
    return gate.returncode, "".join(log)


def put_program(folder):
    """Puts the built program in its place at once, so that no other run meets half of it."""
    out = f"{TOP}/crates/{PROGRAM}/out"
    os.makedirs(out, exist_ok=True)
    part = f"{out}/{PROGRAM}.{os.getpid()}"
    shutil.copyfile(f"{folder}/crates/{PROGRAM}/out/{PROGRAM}", part)
    os.chmod(part, 0o755)
    os.replace(part, f"{out}/{PROGRAM}")


def main():
    """Proves, builds, and returns the exit status."""
    libraries = libraries_of()
    crates = needed_by(PROGRAM, libraries)
    say(f"proving {len(crates)} crates, once; docs/CONTRIBUTING.md says how long this takes")
    with tempfile.TemporaryDirectory(prefix="spares-build-") as folder:
        copy_crates(crates, libraries, folder)
        status, log = prove(folder, len(crates))
        if status == 0:
            put_program(folder)
        else:
            print(log, end="", file=sys.stderr)
            say("the program is not built: the lines above say why")
    return min(status, 1)


def stop(signal_number, _):
    """Ends the run: the folder goes, and so does the gate with all that it started."""
    say("stopped; the next run goes on from here")
    sys.exit(128 + signal_number)


if __name__ == "__main__":
    for it in (signal.SIGINT, signal.SIGTERM, signal.SIGHUP):
        signal.signal(it, stop)
    sys.exit(main())
