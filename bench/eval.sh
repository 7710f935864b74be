#!/bin/bash
# Times `eval` of a large case beside two peers, in turn on one processor.
#   bench/eval.sh PROGRAM [RUNS [COUNT [PEER]]]
# PROGRAM is the built program. RUNS: how many times each is run, 5 if left out; the best time counts. One peer is
# peers/plan.rs, or PEER: another program that takes the same words (`-` as if left out); the script stops if its report
# isn't ours. The other is peers/literal.rs, which makes COUNT tables (1000 if left out) of each of its cases.
#
# large_case.py writes the case, of 32,000 pipelines. The literal peer's cost is that of its cheapest table up to the
# mean 20, for each pipeline, though 3% of them have larger means, whose tables cost it more. The other times are by the
# clock for the whole program: four files read, all pipelines, the report written. Memory is the peak of our process.
# shellcheck source=bench/common.sh
. "$(dirname "$0")/common.sh"
program=${1:?words: PROGRAM [RUNS [COUNT [PEER]]]}
runs=${2:-5}
count=${3:-1000}
pipelines=32000

build_peer literal
take_peer "${4:-}"
python3 "$bench/large_case.py" "$work/eval"
take_case "$work/eval" 0
words=(eval "${files[@]}" --stocks "$work/eval/stocks.csv")

for _ in $(seq "$runs"); do
    "${on_one[@]}" "$work/literal" "$count" | sed 's/.*nanoseconds //' | head -n 4 >> "$work/literal.all"
    spent peer "$peer" "${words[@]}"
    spent ours "$program" "${words[@]}"
    cmp "$work/peer.report" "$work/ours.report"
done

tail -n 1 "$work/ours.report"
ours=$(least ours wall)
theirs=$(least peer wall)
table=$(sort -n "$work/literal.all" | head -n 1)
literal=$((pipelines * table / 1000))
printf '%d pipelines, best of %d: ours %s s, ' "$pipelines" "$runs" "$(seconds "$ours")"
printf 'peer %s s, ratio %s; ' "$(seconds "$theirs")" "$(ratio "$ours" "$theirs")"
printf 'literal peer %s s (%d nanoseconds a table), ratio %s; ' "$(seconds "$literal")" "$table" "$(ratio "$ours" "$literal")"
printf 'peak memory %s MB\n' "$(megabytes "$(peak "$program" "${words[@]}")")"
