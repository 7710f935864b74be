#!/bin/bash
# Times `plan` by both aims, `check` of both certificates, `sweep` and a `session`, in turn on one processor, by the
# processor's time.
#   bench/plan.sh PROGRAM FOLDER BUDGET [RUNS [PEER]]
# PROGRAM is the built program; FOLDER has sites.csv, parts.csv and rates.csv, whose fields aren't quoted. RUNS: how
# many times each is run, 5 if left out; the least time counts. PEER: another program that takes the same words of `plan`
# without an aim, whose plan is timed too; if left out or `-`, peers/plan.rs is built. The script stops if the peer's
# report or certificate isn't ours.
#
# The times are the processor's in the program alone for the whole run, with the reading of the tables and the writing
# of the certificate. The tables are counted by the formula of docs/CERTIFICATE.md. A score is the value of a line unit's
# backorders at one base, at one choice of stocks for the depot and that base; the limits say how many there are.
# shellcheck source=bench/common.sh
. "$(dirname "$0")/common.sh"
take_words "$@"

# a session of 64 plans, each after the demand of one more line unit, at one base, was raised by a hundredth
{
    printf 'budget,%s\n' "$budget"
    tr -d '\r' < "$folder/parts.csv" | awk -F, 'NR > 1 && $2 == "" { print $1 }' > "$work/lines"
    tr -d '\r' < "$folder/rates.csv" | awk -F, -v OFS=, -v count="$(wc -l < "$work/lines")" '
        NR == FNR { if (FNR == 1 || int(FNR * 64 / count) > int((FNR - 1) * 64 / count)) chosen[$1] = 1; next }
        chosen[$1] && $3 + 0 > 0 && plans < 64 { delete chosen[$1]; $3 = sprintf("%.4f", $3 * 1.01); print "rate", $0; print "plan"; plans++ }
    ' "$work/lines" -
} > "$work/edits"

for _ in $(seq "$runs"); do
    spent peer "$peer" "${plan[@]}" --certificate "$work/peer"
    spent plan "$program" "${plan[@]}" --certificate "$work/plain"
    cmp "$work/peer" "$work/plain"
    cmp "$work/peer.report" "$work/plan.report"
    spent check "$program" check --certificate "$work/plain"
    spent sweep "$program" sweep "${files[@]}"
    spent session "$program" session "${files[@]}" --edits "$work/edits"
    spent loss_plan "$program" "${plan[@]}" --objective log-availability --certificate "$work/loss"
    spent loss_check "$program" check --certificate "$work/loss"
done

# the tables and the scores of all families
read -r made scores < <(tr -d '\r' < "$folder/parts.csv" | awk -F, -v sites="$(grep -c , "$folder/sites.csv")" '
    FNR == 1 || NF < 6 { next }
    $2 == "" { depot[$1] = $5 + 1; base[$1] = $6 + 1; next }
    { A[$2] = (I[$2] ? A[$2] : 1) * ($5 + 1); B[$2] = (I[$2] ? B[$2] : 1) * ($6 + 1); I[$2]++; sum[$2] += $5 + 1 }
    END {
        J = sites - 2
        for (p in depot) {
            if (!I[p]) { A[p] = 1; B[p] = 1 }
            at_bases = depot[p] * A[p] * J * B[p]
            tables += I[p] + A[p] + J * sum[p] + at_bases
            scores += at_bases * base[p]
        }
        printf "%d %d\n", tables, scores
    }')

awk -v runs="$runs" -v tables="$made" -v scores="$scores" -v peer="$(least peer own)" -v plan="$(least plan own)" \
    -v check="$(least check own)" -v sweep="$(least sweep own)" -v session="$(least session own)" \
    -v loss_plan="$(least loss_plan own)" -v loss_check="$(least loss_check own)" '
    function ratio(a, b) { return a > 0 && b > 0 ? sprintf("%.2f", a / b) : "-" }
    function seconds(a) { return sprintf("%.3f", a / 1e6) }
    BEGIN {
    printf "%d tables, %d scores; seconds in the program, least of %d\n", tables, scores, runs
    printf "peer: plan %s; ours/peer %s\n", seconds(peer), ratio(plan, peer)
    printf "backorders: plan %s, check %s, check/plan %s\n", seconds(plan), seconds(check), ratio(check, plan)
    printf "sweep %s, sweep/plan %s\n", seconds(sweep), ratio(sweep, plan)
    printf "session of 64 plans %s, session/plan %s\n", seconds(session), ratio(session, plan)
    printf "log-availability: plan %s, check %s, check/plan %s\n", seconds(loss_plan), seconds(loss_check), ratio(loss_check, loss_plan)
    printf "by the loss/by backorders: plan %s, check %s\n", ratio(loss_plan, plan), ratio(loss_check, check)
    printf "nanoseconds a table: %d by backorders, %d by the loss; a score of the loss costs %d more than a plain one\n",
        plan * 1e3 / tables, loss_plan * 1e3 / tables, (loss_plan - plan) * 1e3 / scores
}'
