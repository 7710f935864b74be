# The command `single`: the worked examples, the faults of its words and a full device.

while read -r words; do
  # shellcheck disable=SC2086
  check "single $words" 0 @ '' single $words
done <<'ROWS'
1 1
1 0
1 1 --variance 2
--variance=2 1 1
0 0
0 5
256 0
2 1 --variance 1.5
2 1
0.5 1 --variance 40
ROWS

while IFS='|' read -r words line status; do
  # shellcheck disable=SC2086
  check "$words" "$status" '' "$line\n" $words
done <<'ROWS'
|fault,words|2
single|fault,words|2
single 1|fault,words|2
single 1 1 1|fault,words|2
single 1 1 --variance 2 --variance 2|fault,words|2
single 1 1 --variance -1|fault,words|2
single 1 1 --variance=-1|fault,number,variance|2
single 1 1 --help|fault,words|2
help|fault,words|2
plan|fault,words|2
single x 1|fault,number,mean|2
single 1 x|fault,number,stock|2
single 1 1.5|fault,number,stock|2
single 1.00001 1|fault,number,mean|2
single 1 64|fault,range,stock|2
single 256.0001 0|fault,pipeline-too-large,single|3
single 1 1 --variance 256.0001|fault,pipeline-too-large,single|3
single 0 0 --variance 1|fault,pipeline-ratio,single|3
ROWS

check 'a word that is no text' 2 '' 'fault,words\n' single $'\xff' 1

"$program" single 200 63 2>"$room/err" | head -n 1 >"$room/out"
compare 'single 200 63, first line' 0 "${PIPESTATUS[0]}" 'backorders,137.000000,137.000001\n' ''

on_full_device 'single: a report to a full device' single 1 1
