#!/bin/bash
# Times one table beside two peers, all built now and run in turn on one processor.
#   bench/tables.sh [RUNS [COUNT]]
# The peers are plain Rust: peers/literal.rs follows the definition of a table operation by operation in 128 bits, and
# peers/fast.rs makes the same tables with few divisions. RUNS: how many times each is run, 9 if left out; the best time
# counts. COUNT: how many tables of each case a run makes, 1000 if left out. The checksums of all three must agree.
# shellcheck source=bench/common.sh
. "$(dirname "$0")/common.sh"
runs=${1:-9}
count=${2:-1000}
cases=("5000 5000" "46594 60000" "200000 200000" "200000 800000" "2000000 2000000")

for name in literal fast; do build_peer "$name"; done
take_crate bench_tables

for _ in $(seq "$runs"); do
    for case in "${cases[@]}"; do
        # shellcheck disable=SC2086
        "${on_one[@]}" "$ours" "$count" $case timed
    done >> "$work/ours.all"
    for name in literal fast; do
        "${on_one[@]}" "$work/$name" "$count" >> "$work/$name.all"
    done
done
for name in literal fast; do
    cmp <(sed 's/ nanoseconds.*//' "$work/ours.all") <(sed 's/ nanoseconds.*//' "$work/$name.all")
done

echo "mean variance: ours, literal, fast (nanoseconds a table, best of $runs), ratio to the literal peer, to the fast one"
awk '{ key = $2 / 10000 " " $4 / 10000 } !(key in seen) { seen[key] = ++n; name[n] = key }
    { file = FILENAME; sub(".*/", "", file); sub("[.]all", "", file) }
    !((file, key) in best) || $8 < best[file, key] { best[file, key] = $8 }
    END { for (i = 1; i <= n; i++) { k = name[i]; a = best["ours", k]; b = best["literal", k]; c = best["fast", k]
        printf "%s: %d, %d, %d, %.2f, %.2f\n", k, a, b, c, a / b, a / c } }' "$work/ours.all" "$work/literal.all" "$work/fast.all"
