# What the checks share: how a run is judged, and small cases.
#
# An expected output is a text, or has lines `@NAME` in place of the text of that name in `expected/`; `@` alone is the text of the check's
# own name. `tests/run --write` makes only the runs with such a text, and writes their output to a folder.

certificate=$room/certificate

# is_left_out OUT: this check isn't made now
is_left_out() { [ -n "$written" ] && [[ $1 != @* ]]; }

# named NAME OUT: the expected output, where `@` alone stands for the text of the check's own name
named() { if [ "$2" = @ ]; then printf '@%s\\n' "$1"; else printf '%s' "$2"; fi; }

# resolved OUT: the expected output as a text
resolved() {
  printf '%b' "$1" | awk -v texts="$here/expected/$command.txt" '
    !/^@/ { print; next }
    {
      is_in = 0
      while ((getline line <texts) > 0) {
        if (line ~ /^= /) is_in = line == "= " substr($0, 2)
        else if (is_in && line != "") print line
      }
      close(texts)
    }'
}

# write OUT FILE: writes what was found as the text of that name
write() {
  local name=${1#@}
  name=${name%\\n}
  if [[ $name != *\\n* ]] && ! grep -qsxF "= $name" "$written/$command.txt"; then
    { printf '= %s\n' "$name"; cat "$2"; printf '\n'; } >>"$written/$command.txt"
  fi
}

# passes, fails NAME: counts a check
passes() { passed=$((passed + 1)); }
fails() {
  failed=$((failed + 1))
  printf 'FAILED %s\n' "$1"
}

# check NAME STATUS OUT ERR WORDS..: the program ends with this status, having written exactly this
check() {
  local name=$1 status=$2 out=$3 err=$4
  shift 4
  if is_left_out "$out"; then return; fi
  "$program" "$@" >"$room/out" 2>"$room/err" </dev/null
  compare "$name" "$status" $? "$out" "$err"
}

# compare NAME STATUS FOUND OUT ERR: the same, of a run that has been made
compare() {
  local out
  out=$(named "$1" "$4")
  if is_left_out "$out"; then return; fi
  if [ -n "$written" ]; then
    write "$out" "$room/out"
    return
  fi
  resolved "$out" >"$room/out.wanted"
  printf '%b' "$5" >"$room/err.wanted"
  if [ "$2" -eq "$3" ] && cmp -s "$room/out" "$room/out.wanted" && cmp -s "$room/err" "$room/err.wanted"; then
    passes
  else
    fails "$1: status $3, wanted $2"
    diff "$room/out.wanted" "$room/out"
    diff "$room/err.wanted" "$room/err"
  fi
}

# on_full_device NAME WORDS..: the report finds no room
on_full_device() {
  if is_left_out ''; then return; fi
  "$program" "${@:2}" >/dev/full 2>"$room/err" </dev/null
  local status=$?
  : >"$room/out"
  compare "$1" 6 "$status" '' 'fault,write\n'
}

# holds NAME FILE TEXT: that file holds exactly this
holds() {
  local text
  text=$(named "$1" "$3")
  if is_left_out "$text"; then return; fi
  if [ -n "$written" ]; then
    write "$text" "$2"
    return
  fi
  resolved "$text" >"$room/text.wanted"
  if cmp -s "$2" "$room/text.wanted"; then passes; else
    fails "$1"
    diff "$room/text.wanted" "$2"
  fi
}

# is_absent NAME FILE: there is no such file
is_absent() { if [ -e "$2" ]; then fails "$1"; else passes; fi; }

# tables_of FOLDER: sets `tables` to the options that name its sites, parts and rates
tables_of() { tables=(--sites "$1/sites.csv" --parts "$1/parts.csv" --rates "$1/rates.csv"); }

# evaluates NAME STATUS OUT ERR FOLDER MORE..: `eval` of that folder's files ends with this status, having written exactly this
evaluates() {
  tables_of "$5"
  check "$1" "$2" "$3" "$4" eval "${tables[@]}" --stocks "$5/stocks.csv" "${@:6}"
}

# plans NAME STATUS OUT ERR FOLDER MORE..: the same of `plan`, which writes a certificate exactly where it isn't refused
plans() {
  if is_left_out "$3"; then return; fi
  rm -f "$certificate"
  tables_of "$5"
  check "$1" "$2" "$3" "$4" plan "${tables[@]}" --certificate "$certificate" "${@:6}"
  if [ "$2" -ne 0 ]; then is_absent "$1: no certificate" "$certificate"; fi
}

# accepts NAME FORMAT REPORT: `check` takes the certificate that was written with this report of a plan, and says its numbers
accepts() {
  local lines
  lines=$(resolved "$3" | awk -F, -v format="$2" '
    $1 == "plan" { budget = $2 }
    $1 == "cost" { cost = $2 }
    $1 == "on-hand" { cost = cost "\n" $0 }
    $1 == "total" || $1 == "loss" { upper = $3 }
    $1 == "bound" { bound = $2 }
    END { printf "accepted,%s\nbudget,%s\ncost,%s\nupper,%s\nbound,%s\n", format, budget, cost, upper, bound }')
  check "$1 is accepted" 0 "$lines\n" '' check --certificate "$certificate"
}

# planned NAME REPORT FOLDER MORE..: the plan prints this report, and its certificate is accepted in both formats
planned() {
  local report
  report=$(named "$1" "$2")
  plans "$1" 0 "$report" '' "${@:3}"
  accepts "$1" 1 "$report"
  plans "$1, format 2" 0 "$report" '' "${@:3}" --format 2
  accepts "$1, format 2" 2 "$report"
}

# planned_in_2 NAME REPORT FOLDER MORE..: the same by options that go with format 2 alone
planned_in_2() {
  local report
  report=$(named "$1" "$2")
  plans "$1" 0 "$report" '' "${@:3}"
  accepts "$1" 2 "$report"
}

# last_lines NAME TEXT FORMAT FOLDER MORE..: the plan prints the expected text of that name but for the lines of items, bases and fleet, and
# its certificate is accepted
last_lines() {
  tables_of "$4"
  rm -f "$certificate"
  "$program" plan "${tables[@]}" --certificate "$certificate" "${@:5}" >"$room/report" 2>"$room/err"
  local status=$?
  grep -v -e '^item,' -e '^base,' -e '^fleet,' "$room/report" >"$room/out"
  compare "$1" 0 "$status" "@$2\n" ''
  accepts "$1" "$3" "$(cat "$room/report")"
}

# changed FOLDER FILE SCRIPT: a copy of that case, with one file changed by sed and without its last line feed
changed() {
  rm -rf "$room/changed"
  cp -r "$1" "$room/changed"
  printf '%s' "$(LC_ALL=C sed "$3" "$1/$2.csv")" >"$room/changed/$2.csv"
}

# tries_files RUN REPORT FILE..: a file of the case `one` isn't there, is a folder, has as many bytes as it may, and one more
tries_files() {
  local run=$1 report=$2 file
  if is_left_out ''; then return; fi
  for file in "${@:3}"; do
    rm -rf "$room/changed"
    cp -r "$one" "$room/changed"
    rm "$room/changed/$file.csv"
    "$run" "$run: no file $file" 5 '' "fault,read,$file\n" "$room/changed"
    mkdir "$room/changed/$file.csv"
    "$run" "$run: a folder in place of $file" 5 '' "fault,read,$file\n" "$room/changed"
    rmdir "$room/changed/$file.csv"
    # empty lines aren't rows
    { cat "$one/$file.csv"; yes '' | head -c 4194304; } | head -c 4194304 >"$room/changed/$file.csv"
    "$run" "$run: $file of 4194304 bytes" 0 "$report" '' "$room/changed"
    printf '\n' >>"$room/changed/$file.csv"
    "$run" "$run: $file of 4194305 bytes" 8 '' "fault,too-long,$file\n" "$room/changed"
  done
}

# tries_tables RUN: one file of a case is changed, and refused. From standard input: case|file|script of sed|line of the refusal
tries_tables() {
  local folder file script line
  if is_left_out ''; then return; fi
  while IFS='|' read -r folder file script line; do
    changed "$room/$folder" "$file" "$script"
    "$1" "$1: $folder, $file: $script" 3 '' "$line\n" "$room/changed"
  done
}

# refused_tables: such rows for sites, parts and rates
refused_tables() {
  cat <<'ROWS'
one|sites|1s/,ship_days//;1q|fault,field-count,sites,1,3
one|sites|d|fault,no-header,sites
one|sites|1q|fault,no-depot
one|sites|2q|fault,no-base
one|sites|3s/,10$//|fault,field-count,sites,3,3
one|sites|3s/12/0/|fault,out-of-range,sites,3,3
one|sites|3s/12/10001/|fault,out-of-range,sites,3,3
one|sites|3s/12/18446744073709551616/|fault,bad-number,sites,3,3
one|sites|3s/10$/0/|fault,thin-pipeline,L,B
one|parts|2s/^L/L\xff/|fault,bad-name,parts,2,1
one|parts|2s/3$/64/|fault,out-of-range,parts,2,6
one|parts|1s/$/,weight/;2s/$/,0/|fault,out-of-range,parts,2,7
shop|parts|1s/$/,weight/;2,$s/$/,1/|fault,field-not-empty,parts,3,7
one|rates|3s/36.*/36./|fault,field-count,rates,3,3
one|rates|3s/0$//|fault,field-empty,rates,3,6
one|rates|2q|fault,missing-rate,L,B
one|rates|3p|fault,double-rate,4
one|rates|3s/36.5/1e3/|fault,bad-number,rates,3,3
one|sites|3s/base/Base/|fault,bad-kind,sites,3
one|sites|3s/B/D/|fault,double-site,3
one|sites|3s/.*/E,depot,,/|fault,two-depots,3
one|sites|3{p;p;p;p;p;p;p;p;p;p;p;p;p;p;p}|fault,too-many-rows,sites
one|parts|2p|fault,double-part,3
shop|parts|3s/,L,/,K,/|fault,unknown-parent,3
shop|parts|3s/$/\nT,S,10,,0,0/|fault,parent-not-line,4
one|rates|2s/L/K/|fault,unknown-part,rates,2
one|rates|3s/L/K/|fault,unknown-part,rates,3
ROWS
}

# with_python NAME SCRIPT WORDS..: a script of Python is a check by its status; it is left out where there is no Python. If `says` is set,
# what the script says is printed
with_python() {
  if is_left_out ''; then
    return
  elif ! command -v python3 >/dev/null; then
    printf 'left out, for there is no python3: %s\n' "$1"
  elif python3 "${@:2}" >"$room/said" 2>&1; then
    passes
    if [ -n "${says:-}" ]; then cat "$room/said"; fi
  else
    fails "$1"
    cat "$room/said"
  fi
}

fleet=$here/../examples/fleet

# one line unit, one base
one=$room/one
mkdir "$one"
printf 'site,kind,systems,ship_days\nD,depot,,\nB,base,12,10\n' >"$one/sites.csv"
printf 'part,parent,cost,per_system,max_depot,max_base\nL,,100,1,2,3\n' >"$one/parts.csv"
printf 'part,site,demand,repair_here,share,repair_days\nL,D,,,,20\nL,B,36.5,0,,0\n' >"$one/rates.csv"
printf 'part,site,stock\nL,D,0\nL,B,0\n' >"$one/stocks.csv"
printf 'part,site,stock\nL,D,0\nL,B,1\n' >"$one/on-hand.csv"

# two line units that are alike
two=$room/two
mkdir "$two"
cp "$one/sites.csv" "$two"
printf 'part,parent,cost,per_system,max_depot,max_base\nL,,100,1,2,3\nK,,100,1,2,3\n' >"$two/parts.csv"
printf 'part,site,demand,repair_here,share,repair_days\nL,D,,,,20\nL,B,36.5,0,,0\nK,D,,,,20\nK,B,36.5,0,,0\n' >"$two/rates.csv"

# a line unit and its shop unit
shop=$room/shop
mkdir "$shop"
printf 'site,kind,systems,ship_days\nD,depot,,\nB,base,10,5\n' >"$shop/sites.csv"
printf 'part,parent,cost,per_system,max_depot,max_base\nL,,1000,2,1,1\nS,L,200,,1,1\n' >"$shop/parts.csv"
printf 'part,site,demand,repair_here,share,repair_days\nL,D,,,,10\nL,B,36.5,0.5,,5\nS,D,,,0.4,20\nS,B,,0.25,0.4,5\n' >"$shop/rates.csv"
printf 'part,site,stock\nL,D,0\nL,B,1\nS,D,1\nS,B,0\n' >"$shop/stocks.csv"
