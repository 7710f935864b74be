# The command `eval`, on real files: whole reports, refused tables, files that can't be read, and a full device.

# whole reports
for bits in 32 48 52; do
  evaluates "one line unit at $bits bits" 0 @ '' "$one" --bits "$bits"
done
evaluates 'one line unit' 0 '@one line unit at 48 bits\n' '' "$one"
evaluates 'a shop unit' 0 @ '' "$shop"
evaluates 'a shop unit at 52 bits' 0 @ '' "$shop" --bits 52
evaluates 'a fleet' 0 "$(cat "$fleet/report.txt")\n" '' "$fleet"

changed "$one" parts '1s/$/,weight/;2s/$/,3/'
evaluates 'a weight of 3' 0 @ '' "$room/changed"

changed "$one" sites '1s/^/\xef\xbb\xbf/;s/$/\r/;s/,depot,/,"depot",/;s/12/ 12\t/'
sed -i 's/L/"L"/' "$room/changed/rates.csv"
evaluates 'a byte order mark, CRLF, quotes and spaces' 0 '@one line unit at 48 bits\n' '' "$room/changed"

changed "$shop" rates '4s/0.4/0/;5s/0.25/1/'
sed -i '2,$s/[0-9]*$/0/' "$room/changed/stocks.csv"
for bits in 32 48; do
  evaluates "no demand at a depot, $bits bits" 0 @ '' "$room/changed" --bits "$bits"
done

# one file changed: the report of what is refused
tries_tables evaluates < <(
  refused_tables
  cat <<'ROWS'
one|stocks|2s/0$/3/|fault,over-limit,2
one|stocks|2q|fault,missing-stock,L,B
one|stocks|2s/0$/64/|fault,out-of-range,stocks,2,3
ROWS
)

# the words
while IFS='|' read -r more line; do
  # shellcheck disable=SC2086
  check "eval $more" 2 '' "$line\n" eval $more
done <<'ROWS'
|fault,words
--sites a --parts a --rates a|fault,words
--sites a --parts a --rates a --stocks a --sites a|fault,words
--sites a --parts a --rates a --stocks a more|fault,words
ROWS
evaluates '40 bits' 2 '' 'fault,range,bits\n' "$one" --bits 40
evaluates 'x bits' 2 '' 'fault,number,bits\n' "$one" --bits x
evaluates 'bits twice' 2 '' 'fault,words\n' "$one" --bits 48 --bits=48

# a file that can't be read, or is too long
tries_files evaluates '@one line unit at 48 bits\n' sites parts rates stocks

tables_of "$one"
on_full_device 'eval: a report to a full device' eval "${tables[@]}" --stocks "$one/stocks.csv"
