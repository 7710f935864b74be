#!/usr/bin/env python3
"""Runs the kit's command with these words, for less: python3 tools/rt.py [--build] WORDS..

It is `rt WORDS..`, but for four things that say nothing about what is proved, and a fifth that a build asks for:
- It finds the crates below a crate, and the sum of all their files, once for each crate. The kit does both anew for each
  of the 190,000 paths from the program down to a crate, which takes minutes.
- Both compilers of a proved program work side by side. The kit has one wait for the other.
- The kit begins with the crates that the most lines of others wait for. Here each crate counts some lines more, for what
  the prover loads at each, and in a build only lines of code, so that it begins with those that the most work waits for.
- Some kits keep nothing that their gate proves. With these, each library that is proved stays in a folder of the user's,
  and is taken from there while its text, the kit, and all that was built below it are the same.
- `--build` leaves out what the gate does besides proofs: the search for contracts that no call can meet, about a tenth of
  the work, and the program by the second compiler. It proves and compiles the program in one step, where the gate reads
  all libraries for each, and gives the processors that no proof waits for to those that run. What a build keeps stays in
  that folder too, and serves builds alone.
With a kit that works otherwise this is `rt` as it is.
"""
import concurrent.futures
import contextlib
import copy
import hashlib
import importlib.machinery
import importlib.util
import os
import shutil
import sys
import tempfile

FOUND_ONCE = ("below", "stamp")
LINES_TO_LOAD = 100  # with so many, the order is nearest to that by the seconds of each crate, in a build too
KEEPS = "rattle-kept"  # the folder of a kit that keeps what its gate proves
GIVES = "def give(self, crate, tests, key):"  # how such a kit takes something from there
KEPT_EACH = 1  # so many texts of a crate stay, and as many of builds alone
TEXTS = ("src", "specs", "proofs")
SEARCH = "--empty-contracts"
OF_BUILD = ".built"  # ends the places that serve builds alone
SHAPE = (
    "rtlib.Crate",
    "BACKENDS = {",
    "self.compile_by(",
    "def in_lanes(tasks):",
    "def main(words):",
    'if __name__ == "__main__":',
)


def load(path):
    """Loads the kit's command as a module, or raises an error if it isn't one that can be loaded."""
    with open(path, encoding="utf-8") as it:
        text = it.read()
    if not all(part in text for part in SHAPE):
        raise ImportError(path)
    loader = importlib.machinery.SourceFileLoader("kit_command", path)
    module = importlib.util.module_from_spec(importlib.util.spec_from_loader(loader.name, loader))
    loader.exec_module(module)
    module.keeps_nothing = KEEPS not in text and "def ci(self, flags, tests):" in text
    module.keeps_proofs = KEEPS in text and GIVES in text and "\nSTORE = " in text
    return module


def find_once(owner, name):
    """Has a method without arguments keep its answer for each object."""
    method = getattr(owner, name)

    def answer(self):
        kept = self.__dict__.setdefault("_found_once", {})
        if name not in kept:
            kept[name] = method(self)
        return [*kept[name]] if isinstance(kept[name], list) else kept[name]

    setattr(owner, name, answer)


def compile_at_once(owner, compilers):
    """Has all compilers begin when the first is asked for what it made of a program."""
    compile_by = owner.compile_by

    def answer(self, compiler, *words):
        if "_compiling" not in self.__dict__:
            pool = concurrent.futures.ThreadPoolExecutor(len(compilers))
            self._compiling = {it: pool.submit(compile_by, self, it, *words) for it in compilers}
        return self._compiling[compiler].result()

    owner.compile_by = answer


def leave_out(kit):
    """Has the kit prove without a search for contracts that no call can meet, and prove and compile a program in one step,
    by LLVM alone."""
    help_of, prove = kit.rtlib.help_of, kit.Crate.ci
    kit.BACKENDS = {"llvm": kit.BACKENDS["llvm"]}
    kit.rtlib.help_of = lambda command: help_of(command).replace(SEARCH, "")

    def answer(self, flags, tests):
        if tests or not self.is_program:
            return prove(self, flags, tests)
        made, tools = f"out/{self.name}", ["--toolchain", f"{kit.KIT}/toolchain", "--backend", "llvm"]
        status = self.prove(["build", *self.words(flags, keeps=False), *tools, "-o", f"{made}.o"])
        return status or self.link(f"{made}.o", made)

    kit.Crate.ci = answer


def leave_out_tests(kit):
    """Has no task wait for the tests of crates that have none: the kit leaves a processor free for each, so that a proof that
    nothing runs beside gets two of four."""
    in_lanes = kit.in_lanes

    def answer(tasks):
        none = [key for key, (_, lines, *_) in tasks.items() if key[1] == "tests" and not lines]
        left = {key: ([it for it in waits if it not in none], *rest) for key, (waits, *rest) in tasks.items() if key not in none}
        return {**in_lanes(left), **dict.fromkeys(none, True)}

    kit.in_lanes = answer


def keep_apart(kit):
    """Has a kit that keeps proofs keep those of this build in the user's folder, and take libraries from both places. The
    gate's program, by two compilers, would count as damaged here, and be dropped."""
    of_gate, give = kit.STORE, kit.Kept.give

    def answer(self, crate, tests, key):
        if give(self, crate, tests, key):
            return True
        if crate.is_program:
            return False
        gate = copy.copy(self)
        gate.at = of_gate if is_own(of_gate) else None
        return give(gate, crate, tests, key)

    kit.STORE, kit.Kept.give = users_folder(), answer


def is_own(folder):
    """Returns whether the folder is there and the user's."""
    return os.path.isdir(folder) and not os.path.islink(folder) and os.stat(folder).st_uid == os.geteuid()


def lines_of_code(crate):
    """Returns how many lines of code a crate below this folder has."""
    total = 0
    for at, _, files in os.walk(f"crates/{crate}/src"):
        for name in files:
            with open(f"{at}/{name}", "rb") as it:
                total += it.read().count(b"\n")
    return total


def start_longest(kit, is_build):
    """Has each crate count some lines more, and in a build, which has no wrong bodies, lines of code alone."""
    in_lanes = kit.in_lanes

    def answer(tasks):
        counted = {}
        for key, (waits, lines, *rest) in tasks.items():
            own = lines_of_code(key[0]) if is_build else lines
            counted[key] = (waits, lines and own + LINES_TO_LOAD, *rest)
        return in_lanes(counted)

    kit.in_lanes = answer


def sum_of(*folders):
    """Returns a sum of all files below the folders, with their paths."""
    total = hashlib.sha256()
    for folder in folders:
        for at, inside, files in os.walk(folder):
            inside.sort()
            for name in sorted(files):
                path = f"{at}/{name}"
                with open(path, "rb") as it:
                    data = it.read()
                total.update(f"{os.path.basename(folder)} {os.path.relpath(path, folder)} {len(data)}\n".encode())
                total.update(data)
    return total.hexdigest()


def drop(place):
    """Removes a folder at once, so that no other run takes half of it."""
    with contextlib.suppress(OSError):
        with tempfile.TemporaryDirectory(prefix=".part-", dir=os.path.dirname(place)) as part:
            os.rename(place, f"{part}/gone")


class Store:
    """A folder with what is proved of libraries: of each text of a crate over the same libraries, its statements."""

    def __init__(self, folder, kit, is_build):
        self.folder, self.kit, self.sums, self.is_build = folder, kit_identity(kit), {}, is_build

    def built(self, crate):
        """Returns a sum of what is built of a library."""
        if crate.rlib not in self.sums:
            self.sums[crate.rlib] = sum_of(crate.rlib)
        return self.sums[crate.rlib]

    def places(self, crate):
        """Returns the places of what is proved of a crate as it is now: where a run like this one keeps it, and, for a
        build, where the gate does."""
        text = sum_of(*(f"{crate.folder}/{it}" for it in TEXTS))
        below = [(it.name, self.built(it)) for it in crate.below()]
        made_from = self.kit, crate.said, crate.allowed, text, below
        by_gate = f"{self.folder}/{crate.name}/{hashlib.sha256(repr(made_from).encode()).hexdigest()}"
        return [f"{by_gate}{OF_BUILD}", by_gate] if self.is_build else [by_gate]

    def take(self, crate):
        """Gives the crate what was proved of it before, and returns whether it is there as it was kept."""
        return any(self.take_from(place, crate) for place in self.places(crate))

    def take_from(self, place, crate):
        """Gives the crate what is kept at a place, and returns whether it is there as it was kept."""
        shutil.rmtree(crate.rlib, ignore_errors=True)
        try:
            with open(f"{place}/sum", encoding="utf-8") as it:
                kept = it.read()
            shutil.copytree(f"{place}/built", crate.rlib)
            if sum_of(crate.rlib) != kept:
                raise OSError(f"{place} is damaged")
        except (OSError, shutil.Error):
            shutil.rmtree(crate.rlib, ignore_errors=True)
            drop(place)
            return False
        self.sums[crate.rlib] = kept
        with contextlib.suppress(OSError):
            os.utime(place)
        return True

    def put(self, crate, place):
        """Keeps what was proved of a crate, unless its text has changed since this was its place, or there is no room."""
        folder = os.path.dirname(place)
        with contextlib.suppress(OSError, shutil.Error):
            if place != self.places(crate)[0]:
                return
            os.makedirs(folder, exist_ok=True)
            with tempfile.TemporaryDirectory(prefix=".part-", dir=folder) as part:
                shutil.copytree(crate.rlib, f"{part}/whole/built")
                with open(f"{part}/whole/sum", "w", encoding="utf-8") as it:
                    it.write(self.built(crate))
                os.rename(f"{part}/whole", place)
            drop_oldest(folder)


def keep_proved(kit, store):
    """Has what is proved of each library stay in the store, and takes it from there."""
    prove = kit.Crate.ci

    def answer(self, flags, tests):
        if tests or not self.makes_rlib():
            return prove(self, flags, tests)
        if store.take(self):
            return 0
        place = store.places(self)[0]
        status = prove(self, flags, tests)
        if status == 0:
            store.put(self, place)
        return status

    kit.Crate.ci = answer


def users_folder():
    """Returns the user's folder in which proved libraries stay."""
    caches = os.environ.get("XDG_CACHE_HOME") or os.path.expanduser("~/.cache")
    return f"{caches}/spares/proved"


def kit_identity(kit):
    """Returns what the kit says of itself, and its prover's size and time."""
    with open(f"{kit.KIT}/KIT-ID", encoding="utf-8") as it:
        said = it.read()
    prover = os.stat(kit.rtlib.RATTLE)
    return said, prover.st_size, prover.st_mtime_ns


def drop_oldest(folder):
    """Leaves the texts of a crate that were used last."""
    kept = [it for it in os.scandir(folder) if not it.name.startswith(".")]
    kept.sort(key=lambda it: -it.stat().st_mtime)
    for is_build in (False, True):
        alike = [it for it in kept if it.name.endswith(OF_BUILD) == is_build]
        for it in alike[KEPT_EACH:]:
            drop(it.path)


def main(words):
    """Runs the command, and returns its exit status."""
    is_build = words[:1] == ["--build"]
    words = words[is_build:]
    command = shutil.which("rt")
    if command is None:
        sys.exit("tools/rt.py: no rt is on the path")
    sys.dont_write_bytecode = True
    try:
        kit = load(os.path.realpath(command))
        for name in FOUND_ONCE:
            find_once(kit.rtlib.Crate, name)
        compilers = [*kit.BACKENDS]
        if is_build and (kit.keeps_nothing or kit.keeps_proofs):
            leave_out(kit)
            leave_out_tests(kit)
        compile_at_once(kit.Crate, compilers)
        start_longest(kit, is_build)
        if kit.keeps_nothing:
            keep_proved(kit, Store(users_folder(), kit, is_build))
        elif is_build and kit.keeps_proofs:
            keep_apart(kit)
        run = kit.main
    except Exception:  # a kit of another shape
        os.execv(command, [command, *words])
    return run(words)


if __name__ == "__main__":
    sys.exit(main(sys.argv[1:]))
