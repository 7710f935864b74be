#!/bin/bash
# Times the hull choice of 2,000 curves of 64 vertices and its filling beside a peer's table, both built now and run in
# turn on one processor.
#   bench/choice.sh [RUNS]
# The peer is peers/literal.rs. RUNS: how many times each is run, 5 if left out; the best time counts. The second
# case has a first family so dear that its step is critical and most of the budget is left to the filling; the third has
# intervals wider than many steps, so that upper ends don't fall along the curves.
# shellcheck source=bench/common.sh
. "$(dirname "$0")/common.sh"
runs=${1:-5}
cases=("2000 64 1000 1 3600000" "2000 64 1000 1000000 3600000" "2000 64 1000000000000 1 3600000")

build_peer literal
take_crate bench_choice

for _ in $(seq "$runs"); do
    "${on_one[@]}" "$work/literal" 1000 | sed -n '3s/.*nanoseconds //p' >> "$work/literal.all"
    for i in "${!cases[@]}"; do
        # shellcheck disable=SC2086
        "${on_one[@]}" "$ours" ${cases[$i]} timed | sed 's/.*nanoseconds //' >> "$work/ours.$i"
    done
done

table=$(sort -n "$work/literal.all" | head -n 1)
echo "a table of the peer: $table nanoseconds"
echo "families vertices widths dear budget: choice, filling (nanoseconds, best of $runs), both in tables of the peer"
for i in "${!cases[@]}"; do
    awk -v c="${cases[$i]}" -v t="$table" '!a || $1 < a { a = $1 } !b || $2 < b { b = $2 }
        END { printf "%s: %d, %d, %.0f\n", c, a, b, (a + b) / t }' "$work/ours.$i"
done
