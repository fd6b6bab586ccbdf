#!/usr/bin/env bash
# The register on disk at the front door: its words, its statuses, its lines, and disks that are really full.
set -u
cd "$(dirname "$0")/.." || exit 1
top=$PWD
room=$(mktemp -d)
small=$room/small
trap 'mountpoint -q "$small" && umount "$small"; rm -rf "$room"' EXIT
failed=0
exec 3>&1
desk=${DESK-$top/desk}

# told WHAT TEST..: a failure is said and kept
told() {
  local what=$1
  shift
  "$@" || { echo "register_file.sh: $what" >&3; failed=1; }
}

# one_line WHAT: the one plain line on standard error
one_line() {
  told "$1: it said $(cat "$room/err")" [ "$(wc -l < "$room/err")" -eq 1 ]
  told "$1: not a plain line: $(cat "$room/err")" grep -qE '^(desk|register_file|register 1|roster 20): [ -~]+$' "$room/err"
}

# refused STATUS COMMAND..: one line, the status, no line of the log but its header
refused() {
  local status=$1 got
  shift
  "$@" > "$room/out" 2> "$room/err" < /dev/null
  got=$?
  told "$*: status $got and not $status" [ "$got" -eq "$status" ]
  told "$*: it printed $(cat "$room/out")" [ -z "$(grep -v '^no unit' "$room/out")" ]
  one_line "$*"
}

# roster A and its reports, the evening's roster and its reports
parts() {
  head -c 56 samples/roster-a.stream > "$room/roster-a"
  tail -c +57 samples/roster-a.stream > "$room/reports-a"
  head -c 112 samples/evening.stream > "$room/roster-e"
  tail -c +113 samples/evening.stream > "$room/reports-e"
  : > "$room/nothing"
}

# fresh NAME ROSTER: a register set up anew
fresh() {
  rm -f "$room/$1" "$room/$1.new"
  told "set-up of $1 failed" "$desk" set-up "$room/$2" "$room/$1" > "$room/out" 2> "$room/err"
  told "set-up of $1 said $(cat "$room/err")" [ ! -s "$room/err" ]
}

bad_words() {
  refused 2 "$desk" set-up
  refused 2 "$desk" set-up "$room/roster-a"
  refused 2 "$desk" set-up "$room/roster-a" "$room/r" more
  refused 2 "$desk" answer
  refused 2 "$desk" answer "$room/r" "$room/reports-a" more
  told 'a register was made' [ ! -e "$room/r" ]
  for word in set-up answer show; do
    told "help lacks $word" grep -q "^./desk $word " <("$desk" help)
  done
}

set_up_says() {
  fresh a roster-a
  told "two units: $(cat "$room/out")" [ "$(cat "$room/out")" = 'units set up: 2' ]
  told 'two units: not 14336 bytes' [ "$(stat -c %s "$room/a")" -eq 14336 ]
  head -c 28 "$room/roster-a" > "$room/roster-1"
  fresh one roster-1
  told "one unit: $(cat "$room/out")" [ "$(cat "$room/out")" = 'units set up: 1' ]
  refused 1 "$desk" set-up "$room/roster-a" "$room/a"
  refused 1 "$desk" set-up "$room/nothing" "$room/none"
  told 'no 20 in the line' grep -q 'roster 20: ' "$room/err"
  refused 1 "$desk" set-up "$room/no such roster" "$room/none"
  refused 1 "$desk" set-up "$room" "$room/none"
  refused 1 "$desk" set-up "$room/roster-a" "$room/no such folder/none"
  told 'a refused set-up made a register' [ ! -e "$room/none" ]
}

# the log of a fresh register is the one that ./desk log prints; a second run goes on, with lines from 1
answers() {
  fresh a roster-a
  told 'roster A has another log' cmp <("$desk" answer "$room/a" "$room/reports-a") samples/roster-a.log
  fresh e roster-e
  told 'the evening has another log' cmp <("$desk" answer "$room/e" < "$room/reports-e") samples/evening.log
  fresh f roster-e
  told 'the evening from - has another log' cmp <("$desk" answer "$room/f" - < "$room/reports-e") samples/evening.log
  told 'two registers differ' cmp "$room/e" "$room/f"
  fresh f roster-e
  head -c 330 "$room/reports-e" > "$room/some"
  "$desk" answer "$room/f" "$room/some" > "$room/out"
  printf 'no unit answer warn part stamp\ntotal 0 0 0\n' > "$room/no-lines"
  told 'no reports: another log' cmp <("$desk" answer "$room/f" "$room/nothing") "$room/no-lines"
  told 'no line 1 in a second run' grep -q '^1 1 ' <("$desk" answer "$room/f" "$room/reports-e")
  told 'a name with a space, from another folder' mv "$room/f" "$room/the register"
  (cd "$room" && "$desk" answer 'the register' nothing) > "$room/out" 2> "$room/err"
  told "a name with a space: $(cat "$room/err")" [ ! -s "$room/err" ]
}

shows() {
  fresh a roster-a
  told 'a register is not shown' "$desk" show "$room/a" > "$room/out"
  told 'nothing is shown' [ -s "$room/out" ]
}

bad_streams() {
  fresh a roster-a
  cp "$room/a" "$room/before"
  refused 1 "$desk" answer "$room/a" "$room/no such stream"
  refused 1 "$desk" answer "$room/a" "$room"
  refused 1 "$desk" answer "$room/no such register" "$room/reports-a"
  told 'a register was made' [ ! -e "$room/no such register" ]
  told 'the register was changed' cmp "$room/a" "$room/before"
  head -c 70 "$room/reports-a" > "$room/cut"
  "$desk" answer "$room/a" "$room/cut" > "$room/out"
  told 'a stream cut short: a status' [ $? -eq 0 ]
  told "a stream cut short: $(cat "$room/out")" [ "$(tail -n 2 "$room/out")" = $'2 - 2 0 0 -\ntotal 1 0 1' ]
}

# a new register is larger than a file may be
limited_size() {
  fresh a roster-a
  cp "$room/a" "$room/before"
  (ulimit -f 9 && trap '' XFSZ && exec "$desk" answer "$room/a" "$room/reports-a") > "$room/out" 2> "$room/err"
  told 'a limited size: no status' [ $? -eq 1 ]
  one_line 'a limited size'
  told 'a limited size: totals' [ -z "$(grep total "$room/out")" ]
  told 'a limited size: the register was changed' cmp "$room/a" "$room/before"
  told 'afterwards: another log' cmp <("$desk" answer "$room/a" "$room/reports-a") samples/roster-a.log
}

# a file system with room for one register and not for two; only root can make one
full_disk() {
  mkdir "$small"
  if ! mount -t tmpfs -o size=24k tmpfs "$small" 2> /dev/null; then
    echo 'register_file.sh: no small file system can be made here, not tried'
    return
  fi
  "$desk" set-up "$room/roster-a" "$small/a" > "$room/out"
  cp "$small/a" "$room/before"
  refused 1 "$desk" answer "$small/a" "$room/reports-a"
  told "a full disk: $(cat "$room/err")" grep -q 'No space left on device' "$room/err"
  told 'a full disk: the register was changed' cmp "$small/a" "$room/before"
  refused 1 "$desk" set-up "$room/roster-e" "$small/b"
  told 'a full disk: half a register was made' [ ! -e "$small/b" ]
  mount -o remount,size=64k "$small"
  told 'with room again: another log' cmp <("$desk" answer "$small/a" "$room/reports-a") samples/roster-a.log
  umount "$small"
}

# what is on disk before a line that can't be printed is a register all the same
no_room_for_the_log() {
  local status
  fresh a roster-a
  "$desk" answer "$room/a" "$room/reports-a" > /dev/full 2> "$room/err"
  told '/dev/full: no status' [ $? -eq 1 ]
  one_line /dev/full
  told '/dev/full: no register' "$desk" answer "$room/a" "$room/nothing" > "$room/out"
  fresh e roster-e
  (trap '' PIPE && exec "$desk" answer "$room/e" "$room/reports-e") 2> "$room/err" | head -c 1 > "$room/out"
  status=${PIPESTATUS[0]}
  told "a closed pipe: status $status" [ "$status" -le 1 ]
  told 'a closed pipe: no register' "$desk" answer "$room/e" "$room/nothing" > "$room/out"
}

parts
"$desk" set-up "$room/roster-a" "$room/first" > "$room/out" 2>&1 # builds what is missing
bad_words
set_up_says
answers
shows
bad_streams
limited_size
full_disk
no_room_for_the_log
exit "$failed"
