# The script `spares`: its line if nothing can be built, and its progress while a kit builds. The kit is a stand-in that
# prints the gate's lines and proves nothing.

first=$room/first
mkdir -p "$first/tools" "$first/bin" "$first/crates/low/src" "$first/crates/low/must-fail" "$first/crates/spares/src"
cp "$here/../spares" "$first/spares"
cp "$here/../tools/build.py" "$here/../tools/rt.py" "$first/tools/"
printf 'Handles allowed: none.\n' >"$first/HANDLES"
printf '# low\nlow:\nother: low\nspares: low std # the program\n' >"$first/crates.txt"
printf 'pub fn one() {}\n' >"$first/crates/low/src/lib.rt"
printf 'fn main() {}\n' >"$first/crates/spares/src/main.rt"
printf 'file: src/lib.rt\n' >"$first/crates/low/must-fail/wrong.edit"
for word in bash dirname find; do ln -s "$(command -v "$word")" "$first/bin/$word"; done
python=$(python3 -c 'import sys; print(sys.executable)' 2>/dev/null)
if [ -n "$python" ]; then ln -s "$python" "$first/bin/python3"; fi

# runs_first NAME STATUS OUT ERR WORDS..: the script ends so, with the words of its folder's bin/ alone on the path
runs_first() {
  local name=$1 status=$2 out=$3 err=$4
  shift 4
  PATH=$first/bin "$first/spares" "$@" >"$room/out" 2>"$room/err.raw" </dev/null
  local found=$?
  sed "s|$first|TOP|g; s|after [0-9.]* minutes|after some minutes|" "$room/err.raw" >"$room/err"
  compare "$name" "$status" "$found" "$out" "$err"
}

runs_first 'no program and no kit' 1 '' \
  'spares: TOP/crates/spares/out/spares is not there, and no rt is on the path to prove and build it\n' single 1 1

mkdir "$first/crates/spares/out"
printf '#!%s\necho old "$@"\n' "$(command -v bash)" >"$first/crates/spares/out/spares"
chmod +x "$first/crates/spares/out/spares"
touch -d '2020-01-01' "$first/crates/spares/out/spares"
find "$first/crates.txt" "$first/crates" -name out -prune -o -type f -exec touch -d '2019-01-01' {} +
touch "$first/crates/low/must-fail/wrong.edit"
runs_first 'a program that is newer than its sources' 0 'old plan\n' '' plan
touch "$first/crates/low/src/lib.rt"
runs_first 'an old program and no kit' 1 '' \
  'spares: TOP/crates/spares/out/spares is older than TOP/crates/low/src/lib.rt, and no rt is on the path to prove and build it\n' plan

cat >"$first/bin/rt" <<SCRIPT
#!$python
import os, sys
names = [line.split(":")[0] for line in open("crates.txt")]
if sys.argv[1:] != ["ci"] or os.path.exists("crates/low/must-fail") or names != ["low", "spares"]:
    sys.exit("this is not what the gate is asked for")
print("rt: low is kept: an earlier run on this machine proved the same files over the same libraries", flush=True)
if os.path.exists("$first/fails"):
    print("src/main.rt:1:1: error: a goal is open\nrt: spares NOT PROVED\n1 passed, 1 failed", flush=True)
    sys.exit(1)
os.makedirs("crates/spares/out")
with open("crates/spares/out/spares", "w") as program:
    program.write("#!$(command -v bash)\necho new \"\$@\"\n")
print("rt: spares proved\n2 passed, 0 failed", flush=True)
SCRIPT
chmod +x "$first/bin/rt"
if [ -n "$python" ]; then
  proving='spares: proving 2 crates, once; docs/CONTRIBUTING.md says how long this takes\n'
  proving+='spares: 1 of 2 crates proved after some minutes: low (kept from an earlier run)\n'
  : >"$first/fails"
  runs_first 'a proof that fails' 1 '' \
    "${proving}spares: spares NOT PROVED\nrt: low is kept: an earlier run on this machine proved the same files over the same libraries
src/main.rt:1:1: error: a goal is open\nrt: spares NOT PROVED\n1 passed, 1 failed
spares: the program is not built: the lines above say why\n" plan
  rm "$first/fails"
  runs_first 'a first run' 0 'new plan --budget 5\n' \
    "${proving}spares: 2 of 2 crates proved after some minutes: spares\n" plan --budget 5
  runs_first 'the run after it' 0 'new single 1 1\n' '' single 1 1

  cat >"$first/bin/rt" <<SCRIPT
#!$python
import sys, threading, types
BACKENDS = {"one": "", "two": ".two"}
both = threading.Barrier(2, timeout=60)
class Crate:
    def below(self): return print("below") or [1]
    def stamp(self): return print("stamp") or "sum"
    def compile_by(self, backend, words, to): return both.wait() and None or f"{to}{BACKENDS[backend]}"
    def ci(self, words): return [self.compile_by("one", words, "out"), self.compile_by("two", words, "out")]
rtlib = types.SimpleNamespace(Crate=Crate)
# both are methods of rtlib.Crate
def in_lanes(tasks): return tasks
def main(words):
    crate = rtlib.Crate()
    crate.below().append(2)
    print(*words, crate.below(), crate.stamp(), crate.stamp())
    print(crate.ci(words), in_lanes({"low": ([], 5, 9), "untested": ([], 0, 9)}))
    return 3
if __name__ == "__main__":
    sys.exit(main(sys.argv[1:]))
SCRIPT
  PATH=$first/bin python3 "$first/tools/rt.py" ci --now >"$room/out" 2>"$room/err" </dev/null
  compare 'a kit that finds things once' 3 $? \
    "below\nstamp\nci --now [1] sum sum\n['out', 'out.two'] {'low': ([], 105, 9), 'untested': ([], 0, 9)}\n" ''

  printf 'a kit\n' >"$first/KIT-ID"
  cat >"$first/bin/rt" <<SCRIPT
#!$python
import os, sys, types
BACKENDS = {"llvm": "", "two": ".two"}
KIT = "$first"
class Crate:
    name, said, allowed, folder, rlib = "low", {}, (), "$first/crates/low", "$first/crates/low/out/rlib/low.rlib"
    made, is_program = [], False
    def below(self): return []
    def stamp(self): return "sum"
    def makes_rlib(self): return True
    def compile_by(self, backend, words, to): return self.made.append(backend) or 0
    def ci(self, flags, tests):
        os.makedirs(self.rlib)
        with open(f"{self.rlib}/made", "w") as made:
            made.write(open(f"{self.folder}/src/lib.rt").read())
        searching = "--empty-contracts" in rtlib.help_of("check")
        if self.is_program:
            self.compile_by("llvm", flags, "out")
        return print("proving and searching" if searching else "proving") or 0
rtlib = types.SimpleNamespace(Crate=Crate, RATTLE="$first/KIT-ID", help_of=lambda command: "--empty-contracts")
# all are methods of rtlib.Crate
def in_lanes(tasks): return tasks
def main(words):
    print(Crate().ci([], False), open(f"{Crate.rlib}/made").read())
    return 4
if __name__ == "__main__":
    sys.exit(main(sys.argv[1:]))
SCRIPT
  # keeps NAME WORDS OUT [CACHE]: with these words a kit that keeps nothing prints this
  keeps() {
    # shellcheck disable=SC2086
    PATH=$first/bin XDG_CACHE_HOME=${4:-$first/cache} python3 "$first/tools/rt.py" $2 >"$room/out" 2>"$room/err" </dev/null
    compare "$1" 4 $? "$3" ''
  }
  keeps 'a proof that is kept' ci 'proving and searching\n0 pub fn one() {}\n\n'
  keeps 'a proof that was kept' ci '0 pub fn one() {}\n\n'
  keeps 'a build takes what the gate kept' '--build ci' '0 pub fn one() {}\n\n'
  printf 'damage' >"$(find "$first/cache" -name made)"
  keeps 'a proof that is damaged' ci 'proving and searching\n0 pub fn one() {}\n\n'
  keeps 'a proof that was kept anew' ci '0 pub fn one() {}\n\n'
  printf 'pub fn two() {}\n' >"$first/crates/low/src/lib.rt"
  keeps 'a proof of another text' '--build ci' 'proving\n0 pub fn two() {}\n\n'
  keeps 'a build goes on where it stopped' '--build ci' '0 pub fn two() {}\n\n'
  keeps 'the gate takes nothing from a build' ci 'proving and searching\n0 pub fn two() {}\n\n'
  printf 'another kit\n' >"$first/KIT-ID"
  keeps 'a proof by another kit' ci 'proving and searching\n0 pub fn two() {}\n\n'
  keeps 'no room to keep a proof' ci 'proving and searching\n0 pub fn two() {}\n\n' "$first/KIT-ID"

  cat >"$first/bin/rt" <<SCRIPT
#!$python
import os, sys, types
BACKENDS = {"llvm": "", "two": ".two"}
KIT = "kit"
STORE = "$first/rattle-kept"
class Kept:
    def __init__(self): self.at = STORE
    def give(self, crate, tests, key): return os.path.exists(f"{self.at}/{key}")
    def keep(self, key):
        os.makedirs(self.at, exist_ok=True)
        open(f"{self.at}/{key}", "w").close()
class Crate:
    name, made, is_program = "low", [], os.path.exists("$first/is_program")
    def below(self): return []
    def stamp(self): return "sum"
    def words(self, flags, keeps): return [self.name, *flags]
    def prove(self, words): return print(*words) or 0
    def link(self, made, program): return print("link", made, program) or 0
    def compile_by(self, backend, words, to): return self.made.append(backend) or 0
    def ci(self, flags, tests):
        searching = "--empty-contracts" in rtlib.help_of("check")
        self.is_program and (self.compile_by("llvm", [], "out") or self.compile_by("two", [], "out"))
        return print("proving and searching" if searching else "proving", *sorted(self.made), *sorted(BACKENDS)) or 0
rtlib = types.SimpleNamespace(Crate=Crate, help_of=lambda command: "--empty-contracts")
# all are methods of rtlib.Crate
def in_lanes(tasks): return tasks
def main(words):
    kept, proof, tests = Kept(), ("low", "proof"), ("low", "tests")
    print("given") if kept.give(Crate(), False, "low") else kept.keep(Crate().ci(["--jobs", "4"], False) or "low")
    os.chdir("$first")
    print(in_lanes({proof: ([], 5, 9), tests: ([], 0, 9), ("edit", "edits"): ([proof, tests], 5, 9)}))
    return 4
if __name__ == "__main__":
    sys.exit(main(sys.argv[1:]))
SCRIPT
  # a build counts lines of code, of which low has one, and waits for no tests where there are none
  of_build="{('low', 'proof'): ([], 101, 9), ('edit', 'edits'): ([('low', 'proof')], 100, 9), ('low', 'tests'): True}\n"
  of_gate="{('low', 'proof'): ([], 105, 9), ('low', 'tests'): ([], 0, 9), ('edit', 'edits'): ([('low', 'proof'), ('low', 'tests')], 105, 9)}\n"
  rm -rf "$first/cache"
  keeps 'a build by a kit that keeps proofs' '--build ci' "proving llvm\n$of_build"
  keeps 'such a build goes on where it stopped' '--build ci' "given\n$of_build"
  keeps 'the gate of such a kit takes nothing from a build' ci "proving and searching llvm two\n$of_gate"
  rm -rf "$first/cache"
  keeps 'such a build takes what the gate kept' '--build ci' "given\n$of_build"
  : >"$first/is_program"
  keeps 'such a build makes the program in one step, and leaves that of the gate where it is' '--build ci' \
    "build low --jobs 4 --toolchain kit/toolchain --backend llvm -o out/low.o\nlink out/low.o out/low\n$of_build"
fi
