#!/bin/bash
# Times the curves of a case's families, and the reading and the check of a certificate, beside a peer that plans the
# case.
#   bench/curves.sh PROGRAM FOLDER BUDGET [RUNS [PEER]]
# PROGRAM is the built program. FOLDER has sites.csv, parts.csv and rates.csv. RUNS: how many times each is run, 5 if
# left out; the best time counts. PEER: another program that takes the words of `plan`; if left out or `-`,
# peers/plan.rs is built.
#
# The peer's time is that of its whole run by the clock. Ours are of all curves, of reading the peer's certificate, and
# of reading and checking it, which a program of this repository takes inside. All are run in turn on one processor.
# Before that the built program plans the case too, and the script stops if the peer's report or certificate isn't ours.
# shellcheck source=bench/common.sh
. "$(dirname "$0")/common.sh"
take_words "$@"
take_crate bench_plan -- data/sites.csv data/parts.csv data/rates.csv data/certificate

"$program" "${plan[@]}" --certificate "$work/ours" > "$work/ours.report"
"$peer" "${plan[@]}" --certificate "$work/certificate" > "$work/report"
cmp "$work/certificate" "$work/ours"
cmp "$work/report" "$work/ours.report"

for _ in $(seq "$runs"); do
    spent peer "$peer" "${plan[@]}" --certificate "$work/certificate"
    "${on_one[@]}" "$ours" "${tables[@]}" "$work/certificate" timed > "$work/line"
    sed -n '1s/.*nanoseconds //p' "$work/line" >> "$work/curves.all"
    sed -n '2s/.*nanoseconds //p' "$work/line" >> "$work/check.all"
done

sed 's/ nanoseconds.*//' "$work/line"
# best FILE COLUMN: the least of a column in microseconds
best() { cut -d ' ' -f "$2" "$work/$1.all" | sort -n | awk 'NR == 1 { print $1 / 1000 }'; }
theirs=$(least peer wall)
curves=$(best curves 1)
reading=$(best check 1)
checking=$(best check 2)
printf 'best of %d: peer %s s; curves %s s, %s of it; ' "$runs" "$(seconds "$theirs")" "$(seconds "$curves")" "$(ratio "$curves" "$theirs")"
printf 'reading %s s, %s of the curves; ' "$(seconds "$reading")" "$(ratio "$reading" "$curves")"
printf 'reading and check %s s, %s of them\n' "$(seconds "$checking")" "$(ratio "$checking" "$curves")"
