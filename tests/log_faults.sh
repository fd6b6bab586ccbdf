#!/usr/bin/env bash
# Reads and writes that fail: the log says so in one line, writes nothing more, and never looks complete.
set -u
cd "$(dirname "$0")/.." || exit 1
room=$(mktemp -d)
trap 'rm -rf "$room"' EXIT
failed=0
program=target/bin/shift_log
evening=samples/evening.stream
cant_read="shift_log: standard input can't be read"
cant_write="shift_log: standard output can't be written"

# told WHAT TEST..: a failure is said and kept
told() {
  local what=$1
  shift
  "$@" || { echo "log_faults.sh: $what"; failed=1; }
}

# said WHAT LINE: the one line on standard error
said() { told "$1: it said $(cat "$room/err")" [ "$(cat "$room/err")" = "$2" ]; }

good_run() {
  ./desk log "$evening" > "$room/out" 2> "$room/err"
  told 'a good run has a status' [ $? -eq 0 ]
  told 'a good run has another log' cmp "$room/out" samples/evening.log
  said 'a good run' ''
}

no_room_at_the_header() {
  ./desk log "$evening" 2> "$room/err" > /dev/full
  told '/dev/full: no status' [ $? -eq 1 ]
  said /dev/full "$cant_write: No space left on device"
}

# the header and 35 lines are 1,024 bytes, so that the totals are the first to find no room
no_room_at_the_totals() {
  local a=samples/roster-a.stream
  {
    head -c 56 "$a"
    for _ in {1..23}; do head -c 122 "$a" | tail -c 66; done
    for _ in {1..12}; do tail -c 66 "$a"; done
  } > "$room/stream"
  ./desk log "$room/stream" > "$room/whole"
  (ulimit -f 1 && trap '' XFSZ && exec ./desk log "$room/stream") 2> "$room/err" > "$room/out"
  told 'totals without room: no status' [ $? -eq 1 ]
  said 'totals without room' "$cant_write: File too large"
  told 'not all but the totals' cmp "$room/out" <(head -n -1 "$room/whole")
  told 'there are no totals to leave out' grep -q '^total 1 0 34$' "$room/whole"
}

# more lines than a pipe holds, and a reader that goes after the first
closed_pipe() {
  local status
  head -c 56 samples/roster-a.stream > "$room/long"
  tail -c 66 samples/roster-a.stream > "$room/one"
  for _ in {1..12}; do cat "$room/one" "$room/one" > "$room/two" && mv "$room/two" "$room/one"; done
  cat "$room/one" >> "$room/long"
  timeout 60 ./desk log "$room/long" 2> "$room/err" | head -n 1 > "$room/out"
  status=${PIPESTATUS[0]}
  told "a closed pipe: status $status" [ "$status" -eq 141 ]
  told 'a closed pipe: not the header alone' cmp "$room/out" <(head -n 1 samples/evening.log)
  said 'a closed pipe' ''
  (trap '' PIPE && exec ./desk log "$room/long") 2> "$room/err" | head -n 1 > "$room/out"
  status=${PIPESTATUS[0]}
  told "a closed pipe without its signal: status $status" [ "$status" -eq 1 ]
  said 'a closed pipe without its signal' "$cant_write: Broken pipe"
}

folder_as_input() {
  "$program" < "$room" > "$room/out" 2> "$room/err"
  said 'a folder' "$cant_read: Is a directory"
  told 'a folder: something was printed' [ ! -s "$room/out" ]
  ./desk log - < "$room" > "$room/out" 2> "$room/err"
  told 'a folder: no status' [ $? -eq 1 ]
  "$program" <&- > "$room/out" 2> "$room/err"
  said 'no input' "$cant_read: Bad file descriptor"
}

# a connection that is reset once the header and so many lines are out
reset_midway() {
  timeout 60 python3 - "$1" "$2" 2> "$room/err" > "$room/out" << 'END'
import socket, struct, subprocess, sys

sent, lines = open("samples/evening.stream", "rb").read()[:int(sys.argv[1])], int(sys.argv[2])
with socket.create_server(("127.0.0.1", 0)) as server:
    near = socket.create_connection(server.getsockname())
    far, _ = server.accept()
log = subprocess.Popen(["./desk", "log", "-"], stdin=near, stdout=subprocess.PIPE)
near.close()
far.sendall(sent)
for _ in range(lines):
    sys.stdout.write(log.stdout.readline().decode())
far.setsockopt(socket.SOL_SOCKET, socket.SO_LINGER, struct.pack("ii", 1, 0))
far.close()
sys.stdout.write(log.stdout.read().decode())
sys.exit(log.wait())
END
  told "reset after $1 bytes: no status" [ $? -eq 1 ]
  said "reset after $1 bytes" "$cant_read: Connection reset by peer"
  told "reset after $1 bytes: not the first $2 lines" cmp "$room/out" <(head -n "$2" samples/evening.log)
}

./desk log "$evening" > "$room/out" 2>&1 # builds what is missing
good_run
no_room_at_the_header
no_room_at_the_totals
closed_pipe
folder_as_input
reset_midway 300 3
reset_midway 310 4
exit "$failed"
