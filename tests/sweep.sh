# The commands `sweep` and `target`, on real files: whole reports, refused words and tables, files that can't be read, and full devices.

# sweeps, prices: `sweep`, and `target` with 1 backorder, of a folder's files
sweeps() {
  tables_of "$5"
  check "$1" "$2" "$3" "$4" sweep "${tables[@]}" "${@:6}"
}
prices() {
  tables_of "$5"
  check "$1" "$2" "$3" "$4" target "${tables[@]}" --backorders 1 "${@:6}"
}

sweeps 'a sweep' 0 @ '' "$one"
prices 'a target' 0 @ '' "$one"
for target in 0 0.1 0.1418 2.9999 3 1000000000; do
  tables_of "$one"
  check "a target of $target" 0 @ '' target --backorders="$target" "${tables[@]}"
done

changed "$one" parts 1q
sed -i 1q "$room/changed/rates.csv"
sweeps 'no parts to sweep' 0 @ '' "$room/changed"
prices 'no parts to buy' 0 @ '' "$room/changed"

# the shipped fleet
tables_of "$fleet"
check 'the sweep of the fleet' 0 "$(cat "$fleet/sweep.txt")\n" '' sweep "${tables[@]}"
check 'a target of the fleet' 0 @ '' target "${tables[@]}" --backorders 2

# each point is the plan whose budget is its cost: that much is spent, it has the point's total, and the next step has its price
while IFS=, read -r kind cost low high price; do
  if [ "$kind" != point ] || is_left_out ''; then continue; fi
  if [ "$price" = none ]; then price=0.000000000000; fi
  found=$("$program" plan "${tables[@]}" --budget "$cost" --certificate "$certificate" | grep -E '^(cost|total|price|hull),' | tr '\n' ' ')
  wanted="cost,$cost total,$low,$high price,$price hull,$cost "
  if [ "$found" = "$wanted" ]; then passes; else fails "the plan at the point $cost: $found, wanted $wanted"; fi
done <"$fleet/sweep.txt"

# words
tables_of "$one"
check 'a sweep under a budget' 2 '' 'fault,words\n' sweep "${tables[@]}" --budget 1
check 'a sweep without rates' 2 '' 'fault,words\n' sweep --sites "$one/sites.csv" --parts "$one/parts.csv"
check 'no target' 2 '' 'fault,words\n' target "${tables[@]}"
check 'a target that is no number' 2 '' 'fault,number,target\n' target "${tables[@]}" --backorders x
check 'a target with 5 decimals' 2 '' 'fault,number,target\n' target "${tables[@]}" --backorders 1.00001
check 'a target that is too large' 2 '' 'fault,range,target\n' target "${tables[@]}" --backorders 1000000000.0001

# files and devices
tries_files sweeps '@a sweep\n' sites parts rates
tries_files prices '@a target\n' sites parts rates
tries_tables sweeps < <(refused_tables)
tries_tables prices < <(refused_tables)
tables_of "$one"
on_full_device 'a full device: sweep' sweep "${tables[@]}"
on_full_device 'a full device: target' target "${tables[@]}" --backorders 1
