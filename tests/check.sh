# The command `check`, on real files: certificates that are accepted, hostile ones, files that can't be read, a full device, and bytes
# changed one by one; floors exactly at the least and one unit beside it.

# a certificate of nothing bought, at a price of one backorder for 100 of money
plain=$room/plain
cat >"$plain" <<'END'
spares-certificate,1
sites,2
D,depot,,
B,base,12,10.00
parts,1
L,,100,1,2,3
rates,2
L,D,,,,20.00
L,B,36.5000,0.0000,,0.00
budget,0
price,281474976710656,100
floors,1
84442493013196800
stocks,2
0
0
upper,844424930131968
bound,844424930131968
end
END

# checks NAME STATUS OUT ERR FILE: `check` of that certificate ends with this status, having written exactly this
checks() { check "$1" "$2" "$3" "$4" check --certificate "$5"; }

# changes FILE: each line of standard input has a script of sed, which changes that certificate, and the line of the refusal, or `accepted`
# where the expected report has the name of the file and the script
changes() {
  local script line name
  while IFS='|' read -r script line; do
    LC_ALL=C sed "$script" "$1" >"$room/hostile"
    name="$(basename "$1"): ${script//\\n/ }"
    case $line in
    accepted) checks "$name" 0 @ '' "$room/hostile" ;;
    *) checks "$name" 4 '' "$line\n" "$room/hostile" ;;
    esac
  done
}

checks 'a certificate' 0 @ '' "$plain"
changes "$plain" <<'ROWS'
13s/0$/1/|fault,rejected,floor-too-high,0,84442493013196801,84442493013196800
13s/.*/0/|fault,rejected,bound-too-high,844424930131968,0
13s/.*/0/;18s/,.*/,0/|accepted
17s/8$/7/|fault,rejected,upper-too-low,844424930131967,844424930131968
17s/8$/9/|accepted
18s/8$/9/|fault,rejected,bound-too-high,844424930131969,844424930131968
18s/,.*/,0/|accepted
16s/0/1/|fault,rejected,over-budget,100
15s/0/1/|fault,rejected,over-budget,100
15s/0/3/|fault,rejected,stocks-over-limit,L,D,3
16s/0/4/|fault,rejected,stocks-over-limit,L,B,4
10s/0/1/|fault,rejected,bound-too-high,844424930131968,841610180364861
11s/,.*/,0,1/;13s/.*/0/;18s/,.*/,0/|accepted
11s/,100$/,1/;13s/.*/844424930131968/|accepted
4s/10.00/0.00/|fault,rejected,rate
4s/B,/D,/;9s/B,/D,/|fault,bad-case
6s/L,,/L,M,/|fault,bad-line,6
6s/L,,100,1/L,M,100,/|fault,bad-line,8
1s/1$/3/|fault,bad-line,1
1s/1$/2/|fault,bad-line,2
s/$/\r/|fault,bad-line,1
1s/^/\xef\xbb\xbf/|fault,bad-line,1
2s/2/17/|fault,bad-line,2
2s/2/3/|fault,bad-line,5
3s/$/,/|fault,bad-line,3
4s/10.00/10.0/|fault,bad-line,4
4s/12/012/|fault,bad-line,4
5s/1/2001/|fault,bad-line,5
5s/1/2/|fault,bad-line,7
5s/$/,weights/;6s/$/,1/|fault,bad-line,6
5s/$/,weights/;6s/$/,2/|fault,rejected,upper-too-low,844424930131968,1688849860263936
6s/3$/64/|fault,bad-line,6
7s/2/3/|fault,bad-line,7
8s/D/B/|fault,bad-line,8
9s/36.5000/36.5/|fault,bad-line,9
9s/0.0000/1.0001/|fault,bad-line,9
10s/0/1000000000000001/|fault,bad-line,10
11s/,100$/,0/|fault,bad-line,11
11s/,[0-9]*,/,18889465931478580854785,/|fault,bad-line,11
11s/,100$/,1000000000001/|fault,bad-line,11
12s/1/2/|fault,bad-line,12
13s/8/-8/|fault,bad-line,13
13s/.*/41538374868278621028243970633760769/|fault,bad-line,13
14s/2/1/|fault,bad-line,14
16s/0/00/|fault,bad-line,16
16s/0/64/|fault,bad-line,16
16s/0/ 0/|fault,bad-line,16
17s/,.*/,38685626227668133590597633/|fault,bad-line,17
18s/,.*/,38685626227668133590597633/|fault,bad-line,18
19d|fault,bad-line,19
19s/$/\nx/|fault,bad-line,20
19s/$/\n/|fault,bad-line,20
ROWS

# cut after each of its lines, and within the last
for ((line = 0; line < 19; line++)); do
  head -n "$line" "$plain" >"$room/hostile"
  checks "a certificate of $line lines" 4 '' "fault,bad-line,$((line + 1))\n" "$room/hostile"
done
head -c -1 "$plain" >"$room/hostile"
checks 'a last line without its line feed' 4 '' 'fault,bad-line,19\n' "$room/hostile"

# covers
covered=$room/covered
sed '1s/.*/spares-certificate,2\nobjective,backorders/;13s/$/\ncovers,1\ncover,3\nsplit,1,3\nwhole\ncost/' "$plain" >"$covered"
checks 'a cover' 0 @ '' "$covered"
changes "$covered" <<'ROWS'
17s/3/2/|fault,rejected,leaf-too-low,0,1,84442493013196800,56294995342131200
17s/3/1/|fault,rejected,leaf-too-low,0,1,84442493013196800,28147497671065600
17s/3/4/|fault,rejected,cover-gap,0
17s/1/2/|fault,rejected,cover-gap,0
16s/3/2/;19d|fault,rejected,cover-gap,0
16s/3/4/;19s/$/\ncost/|fault,rejected,cover-gap,0
16,18d;19s/.*/cover,1\nwhole/|accepted
16,18d;19s/.*/cover,1\ncost/|fault,rejected,leaf-too-low,0,0,84442493013196800,0
18s/whole/cost/|fault,rejected,leaf-too-low,0,0,84442493013196800,0
19s/cost/whole/|accepted
2d|fault,bad-line,2
2s/backorders/nothing/|fault,bad-line,2
1s/2$/1/|fault,bad-line,2
15s/1/0/|fault,bad-line,15
16s/3/0/|fault,bad-line,16
16s/3/100001/|fault,bad-line,16
17s/1,3/144,3/|fault,bad-line,17
17s/3/0/|fault,bad-line,17
17s/3/64/|fault,bad-line,17
18s/whole/Whole/|fault,bad-line,18
15,19d|fault,bad-line,15
ROWS

# more tables than are made, and a cover by cost that needs none
large=$room/large
{
  printf 'spares-certificate,1\nsites,4\nD,depot,,\n'
  printf '%s,base,12,10.00\n' B1 B2 B3
  printf 'parts,3\nL,,100,1,9,0\nR,L,10,,13,13\nS,L,10,,13,13\nrates,12\nL,D,,,,20.00\n'
  printf 'L,%s,3.6500,0.5000,,0.00\n' B1 B2 B3
  for unit in R S; do
    printf '%s,D,,,0.2000,20.00\n' $unit
    for base in B1 B2 B3; do printf '%s,%s,,0.5000,0.2000,5.00\n' $unit $base; done
  done
  printf 'budget,0\nprice,1,1\nfloors,1\n0\nstocks,12\n0\n0\n0\n0\n0\n0\n0\n0\n0\n0\n0\n0\n'
  printf 'upper,38685626227668133590597632\nbound,0\nend\n'
} >"$large"
checks 'too many tables' 4 '' 'fault,rejected,work,1152762\n' "$large"
sed '1s/.*/spares-certificate,2\nobjective,backorders/;27s/$/\ncovers,1\ncover,1\ncost/' "$large" >"$room/hostile"
checks 'no table' 0 @ '' "$room/hostile"
sed '1s/.*/spares-certificate,2\nobjective,backorders/;27s/$/\ncovers,1\ncover,1\nwhole/' "$large" >"$room/hostile"
checks 'too many tables under a cover' 4 '' 'fault,rejected,work,1152762\n' "$room/hostile"

# the other aim
lost=$room/lost
sed '1s/.*/spares-certificate,2\nobjective,log-availability/;11s/,.*/,339017605730256,100/
13s/.*/97170365572114800\ncovers,1\ncover,1\nwhole/;17s/,.*/,971703655724172/;18s/,.*/,971703655721148/' "$plain" >"$lost"
checks 'a certificate of the loss' 0 @ '' "$lost"
changes "$lost" <<'ROWS'
2s/log-availability/backorders/|fault,rejected,leaf-too-low,0,0,97170365572114800,84442493013196800
2s/,.*/,log-loss/|fault,bad-line,2
1s/2$/1/|fault,bad-line,2
5s/12/2/|fault,rejected,upper-too-low,971703655724172,1170621519031300
6s/$/,weights/;7s/$/,2/|accepted
14s/0$/1/|fault,rejected,leaf-too-low,0,0,97170365572114801,97170365572114800
16s/1/3/;17s/.*/split,1,3\nwhole\ncost/|accepted
16s/1/3/;17s/.*/split,1,2\nwhole\ncost/|fault,rejected,leaf-too-low,0,1,97170365572114800,67803521146051200
21s/2$/1/|fault,rejected,upper-too-low,971703655724171,971703655724172
22s/8$/9/|fault,rejected,bound-too-high,971703655721149,971703655721148
22s/,.*/,0/|accepted
ROWS

# what is on hand
held=$room/held
sed '1s/.*/spares-held,1\nspares-certificate,2\nobjective,backorders/;11s/,.*/,225419721073314,100/
13s/.*/57696376733064700\ncovers,1\ncover,1\nwhole/;16s/0/1/;17s/,.*/,576963767330649/;18s/,.*/,576963767330647/
19s/$/\nheld,2\n0\n1\nend/' "$plain" >"$held"
checks 'a held certificate' 0 @ '' "$held"
changes "$held" <<'ROWS'
21s/1/0/|fault,rejected,stocks-below-held,L,B,0
26s/0/1/|fault,rejected,stocks-below-held,L,D,0
27s/1/2/|fault,rejected,stocks-below-held,L,B,1
21s/1/4/|fault,rejected,stocks-over-limit,L,B,4
20s/0/3/;21s/1/0/|fault,rejected,stocks-over-limit,L,D,3
21s/1/2/|fault,rejected,over-budget,100
27s/1/0/|fault,rejected,over-budget,100
12s/0/100/;27s/1/0/|fault,rejected,bound-too-high,576963767330647,351544046257333
15s/0$/1/|fault,rejected,leaf-too-low,0,0,57696376733064701,57696376733064700
15s/0$/1/;21s/1/0/|fault,rejected,stocks-below-held,L,B,0
18s/whole/cost/|fault,rejected,leaf-too-low,0,0,57696376733064700,0
17s/1/3/;18s/whole/split,1,2\nwhole\nwhole/|accepted
17s/1/3/;18s/whole/split,1,1\nwhole\nwhole/|fault,rejected,cover-gap,0
22s/9$/8/|fault,rejected,upper-too-low,576963767330648,576963767330649
23s/7$/8/|fault,rejected,bound-too-high,576963767330648,576963767330647
23s/,.*/,0/|accepted
3s/backorders/log-availability/|fault,rejected,upper-too-low,576963767330649,632686049993988
6s/B,/D,/;11s/B,/D,/|fault,bad-case
6s/B,/D,/;11s/B,/D,/;26s/0/x/|fault,bad-case
6s/B,/D,/;11s/B,/D,/;24d|fault,bad-line,24
1s/1$/2/|fault,bad-line,1
1s/$/,/|fault,bad-line,1
1d|fault,bad-line,24
1d;24q|fault,rejected,over-budget,100
2s/2$/1/|fault,bad-line,2
2s/2$/1/;3d;16,18d|fault,bad-line,2
24d|fault,bad-line,24
25s/2/1/|fault,bad-line,25
26s/0/3/|fault,bad-line,26
27s/1/01/|fault,bad-line,27
27s/1/4/|fault,bad-line,27
28s/$/\nx/|fault,bad-line,29
ROWS
for ((line = 23; line < 28; line++)); do
  head -n "$line" "$held" >"$room/hostile"
  checks "a held certificate of $line lines" 4 '' "fault,bad-line,$((line + 1))\n" "$room/hostile"
done
head -c -1 "$held" >"$room/hostile"
checks 'a held certificate without its last line feed' 4 '' 'fault,bad-line,28\n' "$room/hostile"

# a file that can't be read, is no certificate, or is too long
checks 'no file' 5 '' 'fault,read,certificate\n' "$room/none"
checks 'a folder' 5 '' 'fault,read,certificate\n' "$room"
checks 'a table' 4 '' 'fault,bad-line,1\n' "$one/sites.csv"
{ cat "$plain"; yes | head -c 16777216; } | head -c 16777216 >"$room/hostile"
checks 'a certificate of 16777216 bytes' 4 '' 'fault,bad-line,20\n' "$room/hostile"
printf '\n' >>"$room/hostile"
checks 'a certificate of 16777217 bytes' 8 '' 'fault,too-long,certificate\n' "$room/hostile"

# the words, and a full device
while IFS='|' read -r words line; do
  # shellcheck disable=SC2086
  check "check $words" 2 '' "$line\n" check $words
done <<'ROWS'
|fault,words
--certificate|fault,words
certificate|fault,words
--certificate a b|fault,words
--certificate a --certificate=a|fault,words
--certificate a --budget 1|fault,words
ROWS
check 'a name after a sign' 0 '@a certificate\n' '' check "--certificate=$plain" --
on_full_device 'check: a report to a full device' check --certificate "$plain"

# bytes changed one by one, in a certificate of each kind
tables_of "$fleet"
while read -r words; do
  if is_left_out ''; then continue; fi
  # shellcheck disable=SC2086
  "$program" plan "${tables[@]}" --budget 500000 $words --certificate "$certificate" >"$room/report" 2>"$room/err"
  with_python "changed bytes, $words" "$here/changed_bytes.py" "$program" "$certificate" 100
done <<ROWS
--format 1
--format 2
--objective log-availability
--on-hand $fleet/stocks.csv
ROWS

# floors exactly at the least, one unit more and one unit less
says=yes with_python 'floors beside the least' "$here/floors.py" "$program"
