# The command `compare`, on real files: the model's backorders beside those of Poisson pipelines.

# compares NAME STATUS OUT ERR FOLDER MORE..: `compare` of that folder's files
compares() {
  tables_of "$5"
  check "$1" "$2" "$3" "$4" compare "${tables[@]}" --stocks "$5/stocks.csv" "${@:6}"
}

compares 'a comparison without stock' 0 @ '' "$one"
compares 'a comparison with a shop unit' 0 @ '' "$shop"

changed "$one" parts '1s/$/,weight/;2s/$/,3/'
compares 'a comparison with a weight of 3' 0 @ '' "$room/changed"

# the model's column is that of `eval`
cat >"$room/columns.py" <<'COLUMNS'
import pathlib, subprocess, sys
program, fleet = sys.argv[1], pathlib.Path(sys.argv[2])
files = [word for table in ('sites', 'parts', 'rates', 'stocks') for word in ('--' + table, str(fleet / (table + '.csv')))]
told = {command: [line.split(',') for line in subprocess.run([program, command] + files, capture_output=True, check=True)
                  .stdout.decode().splitlines()] for command in ('eval', 'compare')}
items = [line[:4] + line[8:10] for line in told['eval'] if line[0] == 'item']
total = [line for line in told['eval'] if line[0] == 'total']
found = [line[:6] if line[0] == 'item' else line[:3] for line in told['compare'][1:]]
sys.exit(found != items + total)
COLUMNS
with_python 'the first column of a comparison' "$room/columns.py" "$program" "$fleet"

# words, tables, files and devices
tables_of "$one"
check 'a comparison without stocks' 2 '' 'fault,words\n' compare "${tables[@]}"
check 'a comparison with 32 bits' 2 '' 'fault,words\n' compare "${tables[@]}" --stocks "$one/stocks.csv" --bits 32
tries_tables compares < <(refused_tables)
tries_files compares '@a comparison without stock\n' sites parts rates stocks
tables_of "$one"
on_full_device 'a full device: compare' compare "${tables[@]}" --stocks "$one/stocks.csv"
