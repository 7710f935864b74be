# The command `session`, on real files: plans in turn, each as `plan` makes it of the same tables and budget; refused edits.

# sessions NAME STATUS OUT ERR FOLDER: `session` of that folder's files
sessions() {
  tables_of "$5"
  check "$1" "$2" "$3" "$4" session "${tables[@]}" --edits "$5/edits.csv"
}

# edits NAME STATUS OUT ERR EDITS: `session` of the case `one` with these edits
edits() {
  rm -rf "$room/edited"
  cp -r "$one" "$room/edited"
  printf '%b' "$5" >"$room/edited/edits.csv"
  sessions "$1" "$2" "$3" "$4" "$room/edited"
}

under_250='@under 250\n'
of_nothing='@of nothing\n'
without_demand='@without demand\n'
edits 'under 250' 0 @ '' 'budget,250\nplan\n'
edits 'of nothing' 0 @ '' 'plan\n'
edits 'without demand' 0 @ '' 'rate,L,B,0,0,,0\nplan\n'
edits 'a plan before and after the same rate' 0 "$under_250$under_250" '' 'budget,250\nplan\nrate,L,B,36.5,0,,0\nplan\n'
edits 'CRLF, empty lines and no last line feed' 0 "$of_nothing$without_demand" '' 'plan\r\n\r\nrate,L,B,0,0,,0\r\n\nplan'
edits 'the last budget and the last rate count' 0 "$under_250" '' 'budget,1\nbudget,250\nrate,L,B,0,0,,0\nrate, L,B\t,36.5,0,,0\nplan\nbudget,7\n'
edits 'no edits' 0 '' '' ''
edits '4000 lines' 0 "$of_nothing" '' "$(yes '\n' | head -n 3999 | tr -d '\n')plan"
edits '4001 lines' 3 '' 'fault,edit-lines\n' "$(yes '\n' | head -n 3999 | tr -d '\n')plan\nx"
reports= plans=
for _ in $(seq 64); do
  reports+=$of_nothing
  plans+='plan\n'
done
edits '64 plans' 0 "$reports" '' "$plans"
edits '65 plans' 3 '' 'fault,edit-plans,65\n' "${plans}plan"
while IFS='|' read -r line text; do
  edits "edits $text" 3 '' "$line\n" "$text"
done <<'ROWS'
fault,edit,2|plan\nrate,L,B,x,0,,0\n
fault,edit,1|rate,"L",B,36.5,0,,0
fault,edit,1|rate,L,B,36.5,0,
fault,edit,1|rate,L,B,36.5,0,,0,0
fault,edit,1| plan
fault,edit,1|plan\r\r\n
fault,edit,1|budget,
fault,edit,3|\n\nbudget,1000000000000001
fault,edit,2|budget,1.\nbudget,1.5
fault,edit,1|budget, 1
fault,edit-rate,3|\nrate,L,B,10000,0,,0\nplan\nx
fault,edit,3|\nrate,L,B,10000,0,,0\nx
ROWS

# rates that the model doesn't take are looked at where a plan is asked for, and edits may mend them before
mended() {
  rm -rf "$room/mended"
  cp -r "$one" "$room/mended"
  printf 'part,site,demand,repair_here,share,repair_days\nL,D,,,,20\nL,B,10000,0,,0\n' >"$room/mended/rates.csv"
  printf '%b' "$5" >"$room/mended/edits.csv"
  sessions "$1" "$2" "$3" "$4" "$room/mended"
}
mended 'refused rates that no plan uses' 0 '' '' 'budget,250\n'
mended 'refused rates that edits mend' 0 "$under_250" '' 'budget,250\nrate,L,B,36.5,0,,0\nplan\n'
mended 'refused rates at the first plan' 3 '' 'fault,edit-rate,2\n' 'budget,250\nplan\n'
mended 'a bad line before refused rates' 3 '' 'fault,edit,1\n' 'x\nplan\n'

# the shipped fleet: each plan is that of `plan` on tables with the same rates
cat >"$room/changes.py" <<'CHANGES'
import csv, pathlib, subprocess, sys, tempfile
program, fleet = sys.argv[1], pathlib.Path(sys.argv[2])
rates = list(csv.reader((fleet / 'rates.csv').read_text().splitlines()))
room = pathlib.Path(tempfile.mkdtemp())
edits, wanted = [], b''
for turn, budget in enumerate((900000, 1638500, 0, 1200000)):
    edits += ['budget,%d' % budget]
    for row in rates[1 + turn::7]:
        if row[2]:
            row[2] = str(round(float(row[2]) * (turn + 1) / 2, 4))
            edits += ['rate,' + ','.join(row)]
    edits += ['plan']
    (room / 'rates').write_text('\n'.join(','.join(row) for row in rates) + '\n')
    tables = ['--sites', fleet / 'sites.csv', '--parts', fleet / 'parts.csv', '--rates', room / 'rates']
    wanted += subprocess.run([program, 'plan', *tables, '--budget', str(budget), '--certificate', room / 'c'],
                             capture_output=True, check=True).stdout
(room / 'edits').write_text('\n'.join(edits))
tables[-1] = fleet / 'rates.csv'
found = subprocess.run([program, 'session', *tables, '--edits', room / 'edits'], capture_output=True, check=True).stdout
sys.exit(found != wanted)
CHANGES
with_python 'plans of a session are those from nothing' "$room/changes.py" "$program" "$fleet"

# words, files and devices
tables_of "$one"
check 'a session without edits' 2 '' 'fault,words\n' session "${tables[@]}"
check 'a session under a budget' 2 '' 'fault,words\n' session "${tables[@]}" --edits "$one/stocks.csv" --budget 1
for folder in "$one" "$shop"; do printf 'plan\n' >"$folder/edits.csv"; done
tries_files sessions "$of_nothing" sites parts rates
tries_tables sessions < <(refused_tables | sed 's/|fault,thin-pipeline,.*/|fault,edit-rate,1/')
tables_of "$one"
check 'no edits to read' 5 '' 'fault,read,edits\n' session "${tables[@]}" --edits "$one/none.csv"
{ printf 'plan\n'; yes '' | head -c 4194304; } >"$room/long.csv"
check 'edits that are too long' 8 '' 'fault,too-long,edits\n' session "${tables[@]}" --edits "$room/long.csv"
on_full_device 'a full device: session' session "${tables[@]}" --edits "$one/edits.csv"
rm "$one/edits.csv" "$shop/edits.csv"
