# The example cases: their plans, sweeps and pictures, the tables of the one that is made, and a second checker of certificates.

squadron=$here/../examples/squadron

planned 'the squadron' "$(cat "$squadron/plan.txt")\n" "$squadron" --budget 52000000
tables_of "$squadron"
check 'the sweep of the squadron' 0 "$(cat "$squadron/sweep.txt")\n" '' sweep "${tables[@]}"

# is_made SCRIPT WORDS..: a script of Python that must end well, given as a text
is_made() {
  printf '%s\n' "$2" >"$room/made.py"
  with_python "$1" "$room/made.py" "${@:3}"
}

mkdir "$room/made"
is_made 'the tables of the squadron' 'import pathlib, subprocess, sys
folder, room = map(pathlib.Path, sys.argv[1:])
subprocess.run([sys.executable, folder / "make.py", room], check=True)
sys.exit(any((room / name).read_bytes() != (folder / name).read_bytes() for name in ("sites.csv", "parts.csv", "rates.csv")))' \
  "$squadron" "$room/made"
for folder in "$fleet" "$squadron"; do
  is_made "the picture of $folder" 'import pathlib, subprocess, sys
folder = pathlib.Path(sys.argv[1])
drawn = subprocess.run([sys.executable, folder.parent / "sweep.py"], stdin=open(folder / "sweep.txt"), capture_output=True, check=True)
sys.exit(drawn.stdout != (folder / "sweep.svg").read_bytes())' "$folder"
done

# those of the checks of `check` are confirmed too
with_python 'a second checker of certificates' "$here/second_checker.py" "$program" "$here/../examples" "$here/../docs/CERTIFICATE.md" \
  "$room/plain" "$room/covered" "$room/lost" "$room/held"
