# The command `plan`, on real files: whole reports, each with its certificate in both formats, a fleet at five budgets, the other aim
# and what is on hand, refused tables and words, files that can't be read, full devices, and a certificate in place of an input.

# plan_at_0, plan_at_250: `plans` with that budget
plan_at_0() { plans "$@" --budget 0; }
plan_at_250() { plans "$@" --budget 250; }

# plan_held: with what the folder has on hand
plan_held() { plans "$@" --on-hand "$5/on-hand.csv" --budget 0; }

# whole reports
nothing='@nothing is bought\n'
some='@some is bought\n'
planned 'nothing is bought' @ "$one" --budget 0
planned 'some is bought' @ "$one" --budget 250
planned 'all is bought' @ "$one" --budget 500
planned 'the first of equal steps' @ "$two" --budget 150

changed "$one" sites '3s/12/2/'
planned 'two systems' @ "$room/changed" --budget 0
changed "$one" parts '1s/$/,weight/;2s/$/,3/'
planned 'a weight of 3' @ "$room/changed" --budget 0
changed "$two" parts '1s/$/,weight/;2s/$/,1/;3s/$/,2/'
planned 'weights of 1 and 2' @ "$room/changed" --budget 150
changed "$two" parts '3s/100/30/'
planned 'the rest of the budget' @ "$room/changed" --budget 160
changed "$one" parts 1q
sed -i 1q "$room/changed/rates.csv"
planned 'no parts' @ "$room/changed" --budget 0
changed "$one" sites '1s/^/\xef\xbb\xbf/;s/$/\r/;s/,depot,/,"depot",/;s/12/ 12\t/'
sed -i 's/L/"L"/' "$room/changed/rates.csv"
planned 'a byte order mark, CRLF, quotes and spaces' "$nothing" "$room/changed" --budget 0

# two whole certificates
plan_at_250 'some is bought, once more' 0 "$some" '' "$one"
holds 'a certificate' "$certificate" @
plan_at_250 'some is bought, in format 2' 0 "$some" '' "$one" --format 2
holds 'a certificate of format 2' "$certificate" @

# a fleet, at the cost of the stocks that it has, and its last lines at four other budgets
planned 'a fleet' "$(cat "$fleet/plan.txt")\n" "$fleet" --budget 1475000
for budget in 0 250000 500000 5000000; do
  for format in 1 2; do
    last_lines "a fleet at $budget, format $format" "a fleet at $budget" "$format" "$fleet" --budget "$budget" --format "$format"
  done
done

# the other aim: the loss is printed after the total, and weights don't enter
by_loss=(--objective log-availability)
planned_in_2 'nothing is bought, by loss' @ "$one" --budget 0 "${by_loss[@]}"
planned_in_2 'some is bought, by loss' @ "$one" --budget 250 "${by_loss[@]}"
changed "$one" sites '3s/12/2/'
planned_in_2 'a share that is cut at 7/8' @ "$room/changed" --budget 0 "${by_loss[@]}"
changed "$one" parts '1s/$/,weight/;2s/$/,3/'
planned_in_2 'a weight of 3, by loss' @ "$room/changed" --budget 0 "${by_loss[@]}"

# what is on hand: its cost is printed after the cost of what is bought
held='@one unit is held\n'
planned_in_2 'one unit is held' @ "$one" --on-hand "$one/on-hand.csv" --budget 0
planned_in_2 'one unit is held, by loss' @ "$one" --on-hand "$one/on-hand.csv" --budget 0 "${by_loss[@]}"
planned_in_2 'nothing is held' @ "$one" --on-hand "$one/stocks.csv" --budget 250
sed '2s/0/2/;3s/0/3/' "$one/stocks.csv" >"$room/full.csv"
planned_in_2 'all is held' @ "$one" --on-hand "$room/full.csv" --budget 0

# a whole certificate of what is held
plan_held 'one unit is held, once more' 0 "$held" '' "$one"
holds 'a certificate of what is held' "$certificate" @
plan_held 'one unit is held, in format 2' 0 "$held" '' "$one" --format 2 --objective backorders
holds 'a certificate of what is held, in format 2' "$certificate" '@a certificate of what is held\n'

# a fleet, by loss and from the stocks that it has
for budget in 0 500000 1475000; do
  last_lines "a fleet at $budget by loss" "a fleet at $budget by loss" 2 "$fleet" --budget "$budget" "${by_loss[@]}"
done
for budget in 0 250000 5000000; do
  last_lines "a held fleet at $budget" "a held fleet at $budget" 2 "$fleet" --budget "$budget" --on-hand "$fleet/stocks.csv"
done
last_lines 'a held fleet by loss' 'a held fleet by loss' 2 "$fleet" --budget 250000 --on-hand "$fleet/stocks.csv" "${by_loss[@]}"

# one file changed
tries_tables plan_at_0 < <(refused_tables)
tries_tables plan_held <<'ROWS'
one|on-hand|d|fault,no-header,on-hand
one|on-hand|1s/stock/stocks/|fault,header,on-hand,3
one|on-hand|3s/,1$//|fault,field-count,on-hand,3,2
one|on-hand|2s/L/K/|fault,unknown-part,on-hand,2
one|on-hand|3s/B/C/|fault,unknown-site,on-hand,3
one|on-hand|3s/1$//|fault,field-empty,on-hand,3,3
one|on-hand|3s/1$/x/|fault,bad-number,on-hand,3,3
one|on-hand|2s/0$/64/|fault,out-of-range,on-hand,2,3
one|on-hand|2s/0$/3/|fault,over-limit,2
one|on-hand|3p|fault,double-stock,4
one|on-hand|2q|fault,missing-stock,L,B
one|rates|2q|fault,missing-rate,L,B
ROWS

# more tables than are made, and as many choices as no table needs
mkdir "$room/work" "$room/choices"
{
  printf 'site,kind,systems,ship_days\nD,depot,,\n'
  printf '%s,base,12,10\n' B1 B2 B3
} >"$room/work/sites.csv"
printf 'part,parent,cost,per_system,max_depot,max_base\nL,,100,1,9,0\nR,L,10,,13,13\nS,L,10,,13,13\n' >"$room/work/parts.csv"
{
  printf 'part,site,demand,repair_here,share,repair_days\nL,D,,,,20\nR,D,,,0.2,20\nS,D,,,0.2,20\n'
  for base in B1 B2 B3; do printf 'L,%s,3.65,0.5,,0\nR,%s,,0.5,0.2,5\nS,%s,,0.5,0.2,5\n' $base $base $base; done
} >"$room/work/rates.csv"
plans 'too many tables' 3 '' 'fault,work,1152762\n' "$room/work" --budget 1000
{
  printf 'part,site,stock\nL,D,1\n'
  printf 'L,%s,0\n' B1 B2 B3
  printf 'R,%s,0\n' D B1 B2 B3
  printf 'S,%s,0\n' D B1 B2 B3
} >"$room/work/on-hand.csv"
plans 'too many tables above what is held' 3 '' 'fault,work,1037514\n' "$room/work" --budget 1000 --on-hand "$room/work/on-hand.csv"
sed -i 's/^\([RS],B.\),0/\1,13/' "$room/work/on-hand.csv"
last_lines 'few tables above what is held' 'few tables above what is held' 2 "$room/work" --budget 0 --on-hand "$room/work/on-hand.csv"
head -n 4 "$room/work/sites.csv" | sed 's/B2.*/B2,base,12,10/' >"$room/choices/sites.csv"
printf 'part,parent,cost,per_system,max_depot,max_base\nL,,100,1,34,23\n' >"$room/choices/parts.csv"
printf 'part,site,demand,repair_here,share,repair_days\nL,D,,,,20\nL,B1,3.65,0,,0\nL,B2,3.65,0,,0\n' >"$room/choices/rates.csv"
planned '20160 choices' @ "$room/choices" --budget 1000

# the words
while IFS='|' read -r more line; do
  # shellcheck disable=SC2086
  plans "plan $more" 2 '' "$line\n" "$one" $more
done <<'ROWS'
|fault,words
--budget|fault,words
--budget 1 --budget 1|fault,words
--budget 1 --format 1 --format=1|fault,words
--budget 1 --certificate c|fault,words
--budget 1 more|fault,words
--budget 1 --help|fault,words
--budget -1|fault,words
--budget=-1|fault,number,budget
--budget x|fault,number,budget
--budget=|fault,number,budget
--budget 1.5|fault,number,budget
--budget 1000000000000001|fault,range,budget
--budget 18446744073709551616|fault,number,budget
--budget 1 --format x|fault,number,format
--budget 1 --format 0|fault,range,format
--budget 1 --format 3|fault,range,format
--budget x --format 3|fault,number,budget
--budget 1000000000000001 --format x|fault,range,budget
--budget 1 --objective|fault,words
--budget 1 --objective backorders --objective backorders|fault,words
--budget 1 --on-hand|fault,words
--budget 1 --on-hand a --on-hand=a|fault,words
--budget 1 --objective nothing|fault,range,objective
--budget 1 --objective Backorders|fault,range,objective
--budget 1 --objective=|fault,range,objective
--budget 1 --format 1 --objective nothing|fault,range,objective
--budget 1 --format 1 --objective log-availability|fault,range,format
--budget 1 --format 1 --on-hand a|fault,range,format
--budget 1 --format 1 --on-hand a --objective nothing|fault,range,format
--budget 1 --format 3 --objective nothing|fault,range,format
--budget x --objective nothing|fault,number,budget
ROWS
tables_of "$one"
check 'plan without a certificate' 2 '' 'fault,words\n' plan "${tables[@]}" --budget 5
check 'plan without tables' 2 '' 'fault,words\n' plan --budget 5
check 'plan without rates' 2 '' 'fault,words\n' plan "${tables[@]:0:4}" --budget 5 --certificate "$certificate"
plans 'the words in another form' 0 "$some" '' "$one" --budget=250.0 --format=1 --objective=backorders --
plans 'the words of the options in another form' 0 "$held" '' "$one" --budget=0 --format=2 "--on-hand=$one/on-hand.csv" --
plans 'the largest budget' 0 @ '' "$one" --budget 1000000000000000

# a file that can't be read, or is too long
tries_files plan_at_250 "$some" sites parts rates
tries_files plan_held "$held" on-hand

# a report that isn't taken: the certificate is whole. A certificate that isn't taken: nothing is printed
tables_of "$one"
words=(plan "${tables[@]}" --budget 250)
rm -f "$certificate"
on_full_device 'plan: a report to a full device' "${words[@]}" --certificate "$certificate"
accepts 'plan: a report to a full device' 1 "$some"
check 'a certificate in no folder' 6 '' 'fault,write\n' "${words[@]}" --certificate "$room/none/certificate"
check 'a certificate in place of a folder' 6 '' 'fault,write\n' "${words[@]}" --certificate "$room"
check 'a certificate to a full device' 6 '' 'fault,write\n' "${words[@]}" --certificate /dev/full

# a certificate that was there is replaced, and so is an input
seq 2000 >"$certificate"
check 'a certificate in place of a longer file' 0 "$some" '' "${words[@]}" --certificate "$certificate"
holds 'a certificate in place of a longer file' "$certificate" '@a certificate\n'
for file in sites parts rates; do
  rm -rf "$room/changed"
  cp -r "$one" "$room/changed"
  tables_of "$room/changed"
  words=(plan "${tables[@]}" --budget 250 --certificate "$room/changed/$file.csv")
  check "a certificate in place of $file" 0 "$some" '' "${words[@]}"
  holds "a certificate in place of $file" "$room/changed/$file.csv" '@a certificate\n'
  check "a certificate for a table of $file" 3 '' "fault,field-count,$file,1,2\n" "${words[@]}"
done
rm -rf "$room/changed"
cp -r "$one" "$room/changed"
tables_of "$room/changed"
words=(plan "${tables[@]}" --budget 0 --on-hand "$room/changed/on-hand.csv" --certificate "$room/changed/on-hand.csv")
check 'a certificate in place of what is held' 0 "$held" '' "${words[@]}"
holds 'a certificate in place of what is held' "$room/changed/on-hand.csv" '@a certificate of what is held\n'
check 'a certificate for a table of what is held' 3 '' 'fault,field-count,on-hand,1,2\n' "${words[@]}"
