#!/bin/bash
# Plans four cases, or those that are named, with a program, the plan peer and the parts peer, in turn on one processor,
# and prints one table of all.
#   bench/all.sh PROGRAM [RUNS [PEER [NAME..]]]
# PROGRAM is the built program. RUNS: how many times each plans a case, 5 if left out, and ten times as often if the
# case has fewer than 20,000 tables; the least time counts. PEER: another program that takes the same words of `plan`;
# if left out or `-`, peers/plan.rs is built. NAME: a case of large_case.py.
#
# It stops if a report or a certificate of a case differs from another's. The times are the processor's for the whole
# run, with the system's: tables read, plan, report and certificate written. Memory is the peak of the process. The
# columns `of` a peer are the program's seconds or memory over the peer's.
# shellcheck source=bench/common.sh
. "$(dirname "$0")/common.sh"
program=${1:?words: PROGRAM [RUNS [PEER [NAME..]]]}
runs=${2:-5}
names=("${@:4}")
if [ ${#names[@]} -eq 0 ]; then names=(fleet22 demo80 wide15 max); fi

take_peer "${3:-}"
build_peer parts
python3 "$bench/large_case.py" "$work" "${names[@]}"

row='%-8s %8s %9s %9s %9s %8s %8s %8s %8s %8s\n'
# shellcheck disable=SC2059
printf "$row" case tables 'peer s' 'parts s' 'ours s' 'of peer' 'of parts' 'peer MB' 'ours MB' 'of peer'
for name in "${names[@]}"; do
    take_case "$work/$name"
    for _ in $(seq "$(runs_of "$work/$name" "$runs")"); do
        spent "$name.peer" "$peer" "${plan[@]}" --certificate "$work/$name.peer"
        spent "$name.parts" "$work/parts" "${plan[@]}" --certificate "$work/$name.parts"
        spent "$name.ours" "$program" "${plan[@]}" --certificate "$work/$name.ours"
    done
    for other in peer parts; do
        cmp "$work/$name.$other" "$work/$name.ours"
        cmp "$work/$name.$other.report" "$work/$name.ours.report"
    done
    theirs=$(least "$name.peer" all)
    of_parts=$(least "$name.parts" all)
    ours=$(least "$name.ours" all)
    their_peak=$(peak "$peer" "${plan[@]}" --certificate "$work/again")
    our_peak=$(peak "$program" "${plan[@]}" --certificate "$work/again")
    # shellcheck disable=SC2059
    printf "$row" "$name" "$(cat "$work/$name/tables")" "$(seconds "$theirs")" "$(seconds "$of_parts")" "$(seconds "$ours")" \
        "$(ratio "$ours" "$theirs")" "$(ratio "$ours" "$of_parts")" "$(megabytes "$their_peak")" "$(megabytes "$our_peak")" "$(ratio "$our_peak" "$their_peak")"
done
