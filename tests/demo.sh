# The command `demo`: generated cases, its words, and a full device.

for words in '7 40' '7 1' '0 1' '4294967295 80'; do
  # shellcheck disable=SC2086
  check "demo $words" 0 @ '' demo $words
done
check 'demo 7 40, once more' 0 '@demo 7 40\n' '' demo 7 40

while IFS='|' read -r words line; do
  # shellcheck disable=SC2086
  check "demo $words" 2 '' "$line\n" demo $words
done <<'ROWS'
|fault,words
7|fault,words
7 40 1|fault,words
7 40 --budget 1|fault,words
x 40|fault,number,number
7 x|fault,number,lines
7 1.5|fault,number,lines
4294967296 40|fault,range,number
4294967296 x|fault,range,number
7 0|fault,range,lines
7 81|fault,range,lines
ROWS

on_full_device 'demo: a report to a full device' demo 7 1
