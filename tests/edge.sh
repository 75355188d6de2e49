#!/usr/bin/env bash
# The built program where no proof reaches: words that it does not know, closed descriptors, files that are no feed, an output that is full,
# slow or closed, calls that fail in mid-run, a script that is typed, a store that is open elsewhere. Says what is not as it has to be, and
# ends with 1 then. LIGHTNING names another program to try.
set -u
root=$(cd "$(dirname "$0")/.." && pwd)
example=$root/examples/one_stream
program=${LIGHTNING:-$(find "$root/crates/lightning_cli/out" -maxdepth 1 -type f -name lightning_cli -perm -u+x 2>/dev/null | head -n 1)}
[ -n "$program" ] || { echo "edge: the program is not built here"; exit 1; }

room=$(mktemp -d)
trap 'chmod -R u+rwx "$room"; rm -rf "$room"' EXIT
chmod 711 "$room"
cp "$program" "$room/lightning"
chmod 755 "$room/lightning"
export P=$room/lightning EXAMPLE=$example

status=0
say() { echo "edge: $1"; status=1; }

# A folder of its own for each case: the example's feed and script, and a store where the program makes one.
number=0
fresh() {
  number=$((number + 1))
  folder=$room/$number
  mkdir -m 777 "$folder"
  cp "$example/feed.0" "$example/script" "$folder"
  (cd "$folder" && "$P" init 1048576 < /dev/null > "$folder/init")
}
fresh
makes_stores=$(grep -c '^ok init' "$folder/init")

# The command has to end with this status. In $wrote is what it wrote.
tries() { # what, status, command
  fresh
  wrote=$(cd "$folder" && timeout 20 $as_who bash -c "$3" 2> "$folder/errors")
  local ended=$?
  [ "$ended" = "$2" ] || say "$1: status $ended, and not $2"
}
# The last line that it wrote has to be this, or all of what it wrote.
expect() { # what, status, last line, command
  tries "$1" "$2" "$4"
  [ "$(tail -n 1 <<< "$wrote")" = "$3" ] || say "$1: the last line is '$(tail -n 1 <<< "$wrote")', and not '$3'"
}
expect_all() { # what, status, lines, command
  tries "$1" "$2" "$4"
  [ "$wrote" = "$3" ] || say "$1: it wrote '$wrote', and not '$3'"
}
as_who=
# (what starts this script may have SIGPIPE ignored, which programs inherit)
export PLAIN=
env --default-signal=PIPE true 2> /dev/null && PLAIN="env --default-signal=PIPE"

expect "all is well" 0 "ok status" '"$P" run < script'

# Words that it does not know, whatever the script says.
usage="usage: lightning init LIMIT | run | gen N"
for words in "" "run now" gen; do
  expect_all "the words '$words'" 2 "$usage" "\"\$P\" $words < script"
done

# The bytes of a script: a last line that nothing ends, an empty line, lines of the greatest length and longer, and one that is no text.
expect_all "a last line without its end" 0 $'refused E7 NoStream 1\nok pump 0 records 0 offset 18 checkpoint 0 stop UnknownTable 1' \
  'printf "\n# a comment\npump 1 1\npump 0 1" | "$P" run'
a_comment='comment() { printf "#"; head -c "$1" /dev/zero | tr "\0" x; echo; }'
expect_all "long lines, and one that is no text" 0 $'refused E1 BadLine\nrefused E1 BadLine\nrefused E3 UnknownTable "t"' \
  "$a_comment"'; { comment 1048575; comment 1048576; printf "#\377\nscan t 1 1"; } | "$P" run'

# No file takes the place of a standard stream.
expect "standard input is closed" 3 "stopped 3 ScriptFault" '"$P" run <&-'
expect "standard output is closed" 4 "" '"$P" run < script >&-'
expect "standard error is closed" 0 "ok status" '"$P" run < script 2>&-'
expect "all three are closed" 4 "" '"$P" run <&- >&- 2>&-'
expect "the feed stays as it was" 0 "" '"$P" run < script >&-; "$P" run <&- >&- 2>&-; cmp feed.0 "$EXAMPLE/feed.0"'
expect "standard input is a folder" 3 "stopped 3 ScriptFault" '"$P" run < .'

# What is no regular file is a fault, and never a wait.
for at in 0 1; do
  expect "feed.$at is a pipe" 7 "stopped 7 FeedFault" "rm -f feed.$at; mkfifo feed.$at; \"\$P\" run < script"
  expect "feed.$at is a folder" 7 "stopped 7 FeedFault" "rm -f feed.$at; mkdir feed.$at; \"\$P\" run < script"
  expect "feed.$at is a device" 7 "stopped 7 FeedFault" "rm -f feed.$at; ln -s /dev/zero feed.$at; \"\$P\" run < script"
done
expect "there is no feed" 8 "stopped 8 FeedMismatch 0" 'rm feed.0; "$P" run < script'
expect "the feed is a link to nothing" 8 "stopped 8 FeedMismatch 0" 'ln -sf nothing feed.0; "$P" run < script'
expect "the feed is a link to a file" 0 "ok status" 'mv feed.0 log; ln -s log feed.0; "$P" run < script'
unreadable='"$P" run < script'
if [ "$(id -u)" != 0 ]; then
  expect "the feed is unreadable" 7 "stopped 7 FeedFault" "chmod 0 feed.0; $unreadable"
elif setpriv --reuid=65534 --regid=65534 --clear-groups true 2> /dev/null; then
  # (root reads every file)
  as_who="setpriv --reuid=65534 --regid=65534 --clear-groups"
  expect "the feed is unreadable" 7 "stopped 7 FeedFault" "cp feed.0 mine; chmod 0 mine; mv -f mine feed.0; $unreadable"
  as_who=
else
  echo "edge: as root and without setpriv, no file is unreadable: not tried"
fi

# An output that takes no more, at once or behind some replies, and where a last line says why the run ends.
expect "the output is full" 4 "" '"$P" run < script > /dev/full'
expect "the output takes 1,024 bytes" 4 "the same 1024" 'yes status | head -n 99 > many; "$P" run < many > whole
  (trap "" XFSZ; ulimit -f 1; exec "$P" run < many > part); ended=$?
  cmp -n 1024 whole part && echo "the same $(stat -c %s part)"; exit $ended'
expect "the output is full, and the words are unknown" 4 "" '"$P" gen < script > /dev/full'
expect "the output is full, and the feed fails" 4 "" 'rm feed.0; mkfifo feed.0; "$P" run < script > /dev/full'
expect "the output is full, and the script fails" 4 "" '"$P" run < . > /dev/full'
expect "the reader closes" 4 "" 'yes status | head -n 20000 | $PLAIN "$P" run | head -n 1 > /dev/null; exit "${PIPESTATUS[2]}"'

# A read of the feed that fails, made to by strace: the first one, of the header, ends the run; of the reads of a pump one that fails ends the
# pump, and the next pump goes on behind the records that were taken.
if strace -o /dev/null true 2> /dev/null; then
  fails='fails() { strace -o /dev/null -P feed.0 -e inject=pread64:error=EIO:when="$1" "$P" run; }; { sed -n 2,3p script; echo "pump 0 10"; }'
  expect_all "the first read of the feed fails" 7 "stopped 7 FeedFault" "$fails | fails 1"
  expect_all "the first read of a pump fails" 0 \
    $'ok schema t 1\nrefused E23 FeedFault\nok pump 0 records 2 offset 84 checkpoint 7 stop End' "$fails | fails 2"
  expect_all "the second read of a pump fails" 0 \
    $'ok schema t 1\nrefused E23 FeedFault\nok pump 0 records 0 offset 84 checkpoint 7 stop End' "$fails | fails 3"
else
  echo "edge: no strace: reads of the feed that fail in mid-run are not tried"
fi

# Sends lines, each after the reply to the line before. In $typed is what was answered.
typed() { # what, script
  local line reply
  typed=
  while IFS= read -r line <&3; do
    printf '%s\n' "$line" >&"$to"
    case $line in '' | '#'*) continue ;; esac
    reply=
    until [[ $reply == ok\ * || $reply == refused\ * ]]; do
      IFS= read -r -t 20 reply <&"$from" || { say "$1: no reply to '$line'"; return; }
      typed+=$reply$'\n'
    done
  done 3< "$2"
}
starts() {
  fresh
  coproc TYPED { cd "$folder" && exec "$P" run; }
  pid=$TYPED_PID
  exec {from}<&"${TYPED[0]}" {to}>&"${TYPED[1]}"
  eval "exec ${TYPED[0]}<&- ${TYPED[1]}>&-"
}
ends() { # what
  exec {to}>&-
  wait "$pid" || say "$1: status $?, and not 0"
  exec {from}<&-
}
starts
typed "a typed script" "$example/script"
[ "$typed" = "$(cat "$example/replies")"$'\n' ] || say "a typed script: other replies than those of examples/one_stream/replies"
ends "a typed script"

# A feed that is cut, goes on otherwise, and gives way to another file: what was taken stays, and the file that was opened is read on.
takes() { # what, line, replies
  printf '%s\n' "$2" > "$room/line"
  typed "$1" "$room/line"
  [ "$typed" = "$3"$'\n' ] || say "$1: '$2' answers '$typed'"
}
starts
head -n 3 "$example/script" > "$room/first_lines"
typed "a feed that is cut" "$room/first_lines"
truncate -s 30 "$folder/feed.0"
takes "a feed that is cut" "pump 0 9" "ok pump 0 records 0 offset 84 checkpoint 7 stop End"
takes "a feed that is cut" "scan t 1 7" 'row [1,10,"x"]'$'\n''ok scan 1'
head -c 60 /dev/zero | tr '\0' '\377' >> "$folder/feed.0"
takes "a feed that goes on otherwise" "pump 0 9" "ok pump 0 records 0 offset 84 checkpoint 7 stop Malformed Kind 255"
{ cat "$example/feed.0"; printf '\3\0\0\0\10\0\0\0\0\0\0\0\11'; } > "$folder/other"
mv "$folder/other" "$folder/feed.0"
takes "a feed that was replaced" "pump 0 9" "ok pump 0 records 0 offset 84 checkpoint 7 stop Malformed Kind 255"
ends "a feed that was replaced"
if [ "$makes_stores" = 0 ]; then
  (cd "$folder" && head -n 3 script | "$P" run > "$room/anew")
  [ "$(tail -n 1 "$room/anew")" = "ok pump 0 records 3 offset 97 checkpoint 9 stop End" ] || say "a feed that was replaced is not read at the next start"
fi

# One store and two processes.
if [ "$makes_stores" = 0 ]; then
  echo "edge: two processes on one store: planned, since the program makes no store yet"
else
  echo status > "$room/one_line"
  starts
  typed "the first process" "$room/one_line"
  (cd "$folder" && "$P" run < "$room/one_line" > "$room/second")
  [ $? = 6 ] && [ "$(cat "$room/second")" = "stopped 6 DiskFault" ] || say "a second process opens a store that is open"
  ends "the first process"
  (cd "$folder" && "$P" run < "$room/one_line" > "$room/second") || say "a store does not open after the process that had it ended"
fi

# A script that gives nothing for now, and an output that takes nothing for now; and a scan of many rows.
if python=$(command -v python3); then
  fresh
  (cd "$folder" && "$python" "$root/tests/edge_blocks.py" "$P") || status=1
  fresh
  (cd "$folder" && rm feed.0 && PYTHONDONTWRITEBYTECODE=1 "$python" "$root/tests/edge_scan.py" "$P") || status=1
else
  say "no python3: inputs and outputs that would block are not tried, nor a scan of many rows"
fi
exit $status
