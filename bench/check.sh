#!/bin/bash
# Checks the certificates of the plans of cases by both aims, beside a peer that plans the cases, in turn on one
# processor, and prints one table.
#   bench/check.sh PROGRAM [RUNS [PEER [NAME..]]]
# PROGRAM is the built program, which makes the certificates too. RUNS: how many times each is run, 5 if left out, and
# ten times as often if the case has fewer than 20,000 tables; the least time counts. PEER: another program that takes
# the same words of `plan` without an aim; if left out or `-`, peers/plan.rs is built. NAME: a case of large_case.py; all
# of them if left out.
#
# The peer plans by backorders alone, so both checks are over its plan by backorders. The times are the processor's for
# the whole run, with the system's. Memory is the peak of the process. The script stops if the peer's report or
# certificate isn't ours, or if a certificate is refused.
# shellcheck source=bench/common.sh
. "$(dirname "$0")/common.sh"
program=${1:?words: PROGRAM [RUNS [PEER [NAME..]]]}
runs=${2:-5}
names=("${@:4}")
if [ ${#names[@]} -eq 0 ]; then names=(fleet22 demo80 wide15 max middle6 middle6s kept1 kept2 kept3 kept4 kept5); fi

take_peer "${3:-}"
python3 "$bench/large_case.py" "$work" "${names[@]}"

row='%-8s %8s %9s %9s %6s %6s %9s %6s %6s\n'
echo 'peer: its plan by backorders; check, loss: our checks of plans by backorders and by the loss; ratios to the peer'
# shellcheck disable=SC2059
printf "$row" case tables 'peer s' 'check s' ratio MB 'loss s' ratio MB
for name in "${names[@]}"; do
    take_case "$work/$name"
    "$program" "${plan[@]}" --certificate "$work/$name.plain" > "$work/plan.report"
    "$program" "${plan[@]}" --objective log-availability --certificate "$work/$name.by_loss" > /dev/null
    for _ in $(seq "$(runs_of "$work/$name" "$runs")"); do
        spent "$name.peer" "$peer" "${plan[@]}" --certificate "$work/peer"
        spent "$name.check" "$program" check --certificate "$work/$name.plain"
        spent "$name.loss" "$program" check --certificate "$work/$name.by_loss"
    done
    cmp "$work/peer" "$work/$name.plain"
    cmp "$work/$name.peer.report" "$work/plan.report"
    theirs=$(least "$name.peer" all)
    check=$(least "$name.check" all)
    loss=$(least "$name.loss" all)
    check_peak=$(peak "$program" check --certificate "$work/$name.plain")
    loss_peak=$(peak "$program" check --certificate "$work/$name.by_loss")
    # shellcheck disable=SC2059
    printf "$row" "$name" "$(cat "$work/$name/tables")" "$(seconds "$theirs")" \
        "$(seconds "$check")" "$(ratio "$check" "$theirs")" "$(megabytes "$check_peak")" \
        "$(seconds "$loss")" "$(ratio "$loss" "$theirs")" "$(megabytes "$loss_peak")"
done
