#!/usr/bin/env bash
# The built lightning_log: round trips, what each refusal says, a log that is cut or broken, and a long log in little memory. Says what is not
# as it has to be, and ends with 1 then. LIGHTNING_LOG names another program to try.
set -u
root=$(cd "$(dirname "$0")/.." && pwd)
program=${LIGHTNING_LOG:-$root/crates/lightning_log/out/lightning_log}
[ -x "$program" ] || { echo "log: the program is not built here"; exit 1; }
room=$(mktemp -d)
trap 'rm -rf "$room"' EXIT
status=0
say() { echo "log: $1"; status=1; }

# A line in standard input has to be refused with this note, behind the frame of a good line.
good='{"checkpoint":1}'
refuses() { # line, note
  printf '%s\n%s\n%s\n' "$good" "$1" "$good" | "$program" write > "$room/out" 2> "$room/err"
  [ $? = 1 ] || say "$1: the status is not 1"
  [ "$(cat "$room/err")" = "line 2: $2" ] || say "$1: $(cat "$room/err")"
  [ "$(xxd -p "$room/out")" = 03000000080000000000000001 ] || say "$1: the output does not end at the frame before it"
}
change() { printf '{"change":"%s","at":%s,"table":%s,"version":%s,"key":%s,"set":%s}' "$@"; }
refuses '{"checkpoint":1' 'not JSON'
refuses '' 'not JSON'
refuses '[1]' 'not a JSON object'
refuses '{"low":"0x"}' "the member \`header\` (the stream's number) is missing"
refuses '{"header":0,"low":"0X"}' 'the member `low` (bytes as `0x..`) has not its form'
refuses '{"header":0,"low":"0x05","high":"0x05"}' 'a bound has at most 4096 bytes, and `high` is above `low`'
refuses '{"checkpoint":0}' 'a timestamp is from 1 to 9223372036854775807'
refuses '{"checkpoint":9223372036854775808}' 'the member `checkpoint` (a timestamp) has not its form'
refuses "$(change upsert 1 1 1 '[1]' '[]')" 'the member `change` (`insert`, `update` or `delete`) has not its form'
refuses "$(change insert 1 65536 1 '[1]' '[]')" 'a table is from 1 to 65535 and a version from 1 to 256'
refuses "$(change insert 1 1 257 '[1]' '[]')" 'a table is from 1 to 65535 and a version from 1 to 256'
refuses "$(change insert 1 1 1 '[]' '[]')" 'a key has 1 to 8 parts and at most 4096 bytes'
refuses "$(change insert 1 1 1 '[null]' '[]')" 'the member `key` (an array of numbers and texts) has not its form'
set_rule='columns and fields rise from 1 on, values nest at most 4 deep, and a delete sets nothing'
refuses "$(change insert 1 1 1 '[1]' '[[2,1],[2,1]]')" "$set_rule"
refuses "$(change delete 1 1 1 '[1]' '[[1,1]]')" "$set_rule"
refuses "$(change insert 1 1 1 '[1]' '[[1,[[1,[[1,[[1,[[1,[]]]]]]]]]]]')" "$set_rule"
refuses "$(change insert 1 1 1 '[1]' '[[1,1.5]]')" "the member \`set\` (an array of pairs of a column's number and a value) has not its form"
long=$(head -c 1048560 /dev/zero | tr '\0' a)
printf '%s' "$(change insert 1 1 1 '[1]' '[[1,"'"$long"'"]]')" | "$program" write > "$room/out" 2> "$room/err"
[ $? = 1 ] && [ ! -s "$room/out" ] && grep -q '^line 1: the frame has' "$room/err" || say 'a frame that is too long is not refused'
head -c 8388609 /dev/zero | tr '\0' ' ' | "$program" write > "$room/out" 2> "$room/err"
[ "$?$(cat "$room/err")" = '1line 1: the line is longer than 8388608 bytes' ] || say 'a line that is too long is not refused'
"$program" other < /dev/null 2> /dev/null
[ $? = 2 ] || say 'other words are taken'

# What read prints is written again to the same bytes, and the last line need not be ended.
log=$root/crates/lightning_log/stdin
lines=$root/crates/lightning_log/stdout
printf '%s' "$(cat "$lines")" | "$program" write | cmp -s - "$log" || say 'what read prints is not written to the same bytes'

# Cut at each place, the frames before it are printed; status 0 only where it is at a frame's end.
size=$(stat -c %s "$log")
whole=" $(sed -n 's/.*"offset":\([0-9]*\).*/\1/p' "$lines" | tr '\n' ' ')$size "
for cut in $(seq 0 "$size"); do
  head -c "$cut" "$log" | "$program" read > "$room/out" 2> "$room/err"
  ended=$?
  cmp -s "$room/out" <(head -n "$(wc -l < "$room/out")" "$lines") || say "cut at $cut: other lines"
  if [[ $whole == *" $cut "* ]]; then wanted=0; else wanted=1; grep -q '^offset [0-9]*: the log is cut off$' "$room/err" || say "cut at $cut: no note"; fi
  [ $ended = $wanted ] || say "cut at $cut: status $ended"
done
(cat "$log"; printf '\7') | "$program" read 2>&1 > /dev/null | grep -qx "offset $size: no kind of frame" || say 'a frame of no kind is taken'
(cat "$log"; printf '\3\0\0\0\10\0\0\0\0\0\0\0\0') | "$program" read 2>&1 > /dev/null | grep -qx "offset $size: a frame that spells no record" || say 'a frame of no record is taken'
(cat "$log"; printf '\3\377\0\0\0') | "$program" read 2>&1 > /dev/null | grep -qx "offset $size: a frame longer than 1048576 bytes" || say 'a frame that is too long is taken'

# A log of 100 MB, both ways, in at most 100 MB of memory.
for _ in $(seq 560); do cat "$log"; done > "$room/some"
for _ in $(seq 1000); do cat "$room/some"; done > "$room/long"
(ulimit -v 102400; "$program" read < "$room/long" > "$room/lines") || say 'a long log is not read in little memory'
(ulimit -v 102400; "$program" write < "$room/lines" > "$room/again") || say 'long lines are not written in little memory'
cmp -s "$room/long" "$room/again" || say 'a long log is not written again to the same bytes'
exit $status
