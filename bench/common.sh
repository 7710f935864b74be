# What the scripts of this folder share: the folder of a run, the peers, the runs and their times, memory, ratios. Each
# script sources this file first.
# shellcheck shell=bash disable=SC2034
set -eu
bench=$(cd "$(dirname "${BASH_SOURCE[0]}")" && pwd)
work=$(mktemp -d)
trap 'rm -rf "$work"' EXIT
# the words before a program that keep it on one processor
on_one=()
if command -v taskset > /dev/null; then on_one=(taskset -c "$(($(nproc) - 1))"); fi

# build_peer NAME: builds peers/NAME.rs as $work/NAME
build_peer() { rustc --edition 2024 -O -C target-cpu=native "$bench/peers/$1.rs" -o "$work/$1"; }

# take_peer [PEER]: sets `peer` to this program; if it is left out or `-`, builds the plan peer
take_peer() {
    peer=${1:--}
    if [ "$peer" = - ]; then
        build_peer plan
        peer=$work/plan
    fi
}

# take_crate NAME WORDS..: proves, builds and runs a crate that takes its own times; sets `ours` to its program
take_crate() {
    (cd "$bench/../crates/$1" && rt run "${@:2}") > /dev/null 2>&1
    ours=$bench/../crates/$1/out/$1
}

# take_case FOLDER [BUDGET]: sets `tables` to the case's tables, `files` to the words that name them, and `plan` to the
# words of a plan at this budget, or at the one that large_case.py wrote
take_case() {
    tables=("$1/sites.csv" "$1/parts.csv" "$1/rates.csv")
    files=(--sites "${tables[0]}" --parts "${tables[1]}" --rates "${tables[2]}")
    plan=(plan "${files[@]}" --budget "${2:-$(cat "$1/budget")}")
}

# take_words PROGRAM FOLDER BUDGET [RUNS [PEER]]: sets `program`, `folder`, `budget`, and `runs` (5 if left out), and takes
# the peer and the folder's case
take_words() {
    words='words: PROGRAM FOLDER BUDGET [RUNS [PEER]]'
    program=${1:?$words} folder=${2:?$words} budget=${3:?$words} runs=${4:-5}
    take_peer "${5:-}"
    take_case "$folder" "$budget"
}

# runs_of FOLDER RUNS: how many times to run a case that large_case.py wrote: RUNS, and ten times as often if it has
# fewer than 20,000 tables
runs_of() { echo $(($(cat "$1/tables") < 20000 ? 10 * $2 : $2)); }

# spent NAME WORDS..: runs a program once on one processor, adds its times to those of this name, and keeps its output
# as $work/NAME.report
spent() { "${on_one[@]}" python3 "$bench/spent.py" "$work/$1.report" "${@:2}" >> "$work/$1.times"; }

# least NAME own|all|wall: the least microseconds of these runs: of the processor in the program alone, with the
# system's, or by the clock
least() {
    local -A column=([own]=1 [all]=2 [wall]=3)
    cut -d ' ' -f "${column[$2]}" "$work/$1.times" | sort -n | head -n 1
}

# peak WORDS..: the most kilobytes that a program has at once in one more run, by GNU time; nothing without it
peak() {
    if [ -n "$(type -P time)" ]; then
        "$(type -P time)" -f %M -o "$work/peak" "$@" > /dev/null
        cat "$work/peak"
    fi
}

# ratio A B; seconds MICROSECONDS; megabytes KILOBYTES
ratio() { awk -v a="$1" -v b="$2" 'BEGIN { print(a > 0 && b > 0 ? sprintf("%.2f", a / b) : "-") }'; }
seconds() { awk -v a="$1" 'BEGIN { printf "%.4f", a / 1e6 }'; }
megabytes() { awk -v a="$1" 'BEGIN { print a ? sprintf("%.1f", a / 1024) : "-" }'; }
