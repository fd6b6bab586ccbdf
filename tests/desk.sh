#!/usr/bin/env bash
# The front door: its help, its error lines, what it builds, and the logs of the samples.
set -u
cd "$(dirname "$0")/.." || exit 1
top=$PWD
room=$(mktemp -d)
trap 'rm -rf "$room"' EXIT
failed=0

# told WHAT TEST..: a failure is said and kept
told() {
  local what=$1
  shift
  "$@" || { echo "desk.sh: $what"; failed=1; }
}

# refused STATUS LINE COMMAND..: nothing on standard output, one line on standard error
refused() {
  local status=$1 line=$2
  shift 2
  "$@" > "$room/out" 2> "$room/err" < /dev/null
  told "$*: status $? and not $status" [ $? -eq "$status" ]
  told "$*: it wrote to standard output" [ ! -s "$room/out" ]
  told "$*: it said $(cat "$room/err")" [ "$(cat "$room/err")" = "$line" ]
}

# logged LOG COMMAND..: the log to the byte, nothing on standard error
logged() {
  local log=$1
  shift
  told "$*: it failed" "$@" > "$room/out" 2> "$room/err"
  told "$*: not the log $log" cmp "$room/out" "$log"
  told "$*: it said $(cat "$room/err")" [ ! -s "$room/err" ]
}

bad_words() {
  local lists="'./desk help' lists what there is"
  refused 2 "desk: no such word: judge; $lists" ./desk judge
  refused 2 "desk: no such word: ; $lists" ./desk ''
  refused 2 'desk: log takes one FILE, or - for standard input' ./desk log
  refused 2 'desk: remarks takes one FILE, or - for standard input' ./desk remarks
  refused 2 'desk: show takes one FILE, or - for standard input' ./desk show one two
  refused 2 'desk: date takes a date such as 2026-03-01 00:10, a minute, or - for lines of them' ./desk date
  refused 2 'desk: date takes a date such as 2026-03-01 00:10, a minute, or - for lines of them' ./desk date 2026-03-01 00:10 7
  refused 2 'desk: form takes one FILE, or - for standard input' ./desk form one two
  refused 2 'desk: report takes a FILE of forms or - for standard input, and the ROSTER that comes first' ./desk report
  refused 2 'desk: compare takes nothing more' ./desk compare 7
  refused 1 'desk: no such file: no/such file' ./desk log 'no/such file'
  refused 1 'desk: a folder, not a file: samples' ./desk show samples
}

help_lists_every_word() {
  local word
  ./desk help > "$room/help"
  told 'no argument is not help' cmp -s "$room/help" <(./desk)
  for word in log remarks set-up answer date form report show compare bench test help; do
    told "help lacks $word" grep -q "^./desk $word " "$room/help"
  done
}

samples() {
  local name
  for name in roster-a evening cover; do
    logged "samples/$name.log" ./desk log "samples/$name.stream"
  done
  logged samples/evening.log ./desk log - < samples/evening.stream
  echo 'roster 20' > "$room/roster 20"
  logged "$room/roster 20" ./desk log - < /dev/null
  cp samples/roster-a.stream "$room/a stream"
  (cd "$room" && "$top/desk" log 'a stream') > "$room/out"
  told 'a name with a space, from another folder' cmp "$room/out" samples/roster-a.log
  told 'the stream of remarks is another' cmp samples/remarks.stream <(python3 tests/remarks_sample.py)
  logged samples/remarks.log ./desk remarks samples/remarks.stream
  logged <(sed 's/ | .*//' samples/remarks.log) ./desk log samples/remarks.stream
  logged "$room/roster 20" ./desk remarks - < /dev/null
  refused 0 'shift_log: the one argument that it takes is remarks' target/bin/shift_log remark
  refused 0 'shift_log: the one argument that it takes is remarks' target/bin/shift_log remarks remarks
  told 'the evening is not shown' grep -q '^report 30: ' <(./desk show samples/evening.stream)
}

# given ANSWER WORD..: the one line on standard output
given() {
  local answer=$1
  shift
  logged <(printf '%s\n' "$answer") ./desk date "$@"
}

# no_minute TEXT: 23
no_minute() {
  refused 1 "desk: 23: no minute has the date '$1'; dates are written as 2026-03-01 00:10, from 2000 to 2049" ./desk date "$1"
}

dates() {
  local last='is after the last one, 26298719, which is 2049-12-31 23:59' text
  given 13760650 '2026-03-01 00:10'
  given 13760650 2026-03-01 00:10
  given '2026-03-01 00:10' 13760650
  given '2000-01-01 00:00' 0
  given 26298719 '2049-12-31 23:59'
  refused 1 "desk: 22: minute 26298720 $last" ./desk date 26298720
  refused 1 "desk: 22: minute 99999999999999999999999 $last" ./desk date 99999999999999999999999
  for text in '' ' ' 2026-03-01 2026-03-01T00:10 '2026-03-01 24:00' '2025-02-29 00:00' '2026-03-01 00:10 ' 007 -5 +5 1e3 '*' '%s' \
    '2026-03-01 00:1\n' $'2026-03-01 00:1\n' $'\n2026-03-01 00:10' $'0\n' 'refused 22'; do
    no_minute "$text"
  done
  logged <(printf '%s\n' 13760650 'refused 23' '2000-01-01 00:00' 'refused 22') \
    ./desk date - < <(printf '%s\n' '2026-03-01 00:10' '' 0 26298720)
  logged <(printf '') ./desk date - < /dev/null
  refused 1 "typed_dates: standard input can't be read: Is a directory" bash -c './desk date - < samples'
  refused 1 "typed_dates: standard output can't be written: No space left on device" bash -c 'echo 0 | ./desk date - > /dev/full'
  refused 1 "desk: standard output can't be written" bash -c './desk date 0 > /dev/full'
  cut_file
}

# told_forms LINES COMMAND..: these lines on standard error, beside which the others were written, and status 1
told_forms() {
  local lines=$1
  shift
  "$@" > "$room/out" 2> "$room/err"
  told "$*: status $? and not 1" [ $? -eq 1 ]
  told "$*: it said $(cat "$room/err")" diff "$room/err" <(printf '%s\n' "$lines")
}

# a stream to forms, forms to reports, and again
forms() {
  local forms=samples/evening.forms roster=samples/evening.roster stream=samples/roster-a.stream
  told_forms "$(grep '^report_forms: report' docs/FORM.md)" ./desk form samples/evening.stream
  told 'samples/evening.forms is another' cmp "$forms" "$room/out"
  told 'the roster is another' cmp "$roster" <(head -c 112 samples/evening.stream)
  told 'the forms are refused' bash -c './desk report "$1" > "$2"' - "$forms" "$room/reports"
  logged "$forms" ./desk form "$room/reports"
  logged <(cat "$roster" "$room/reports") ./desk report "$forms" "$roster"
  logged <(cat "$roster" "$room/reports") ./desk report - "$roster" < "$forms"
  logged "$room/reports" ./desk report - < <(grep -v '^$' "$forms")
  logged samples/forms.log bash -c './desk report "$1" "$2" | ./desk log -' - "$forms" "$roster"
  logged <(tail -c +57 "$stream") bash -c './desk form "$1" | ./desk report -' - "$stream"
  logged <(printf '') ./desk form - < /dev/null
  logged <(printf '') ./desk report - < /dev/null
  refused 1 'desk: no such file: no/such' ./desk report no/such
  refused 1 $'desk: no such file: no/such\ndesk: the roster can'"'"'t be copied: no/such' ./desk report "$forms" no/such
  refused 2 'desk: the ROSTER is a file: standard input has the forms or nothing' ./desk report "$forms" -
  refused 1 'desk: standard input is closed' timeout 20 bash -c './desk form - <&-'
  refused 1 'desk: standard input is closed' timeout 20 bash -c './desk log - <&-'
  refused 1 'desk: standard output is closed' timeout 20 bash -c './desk form samples/roster-a.stream >&-'
  refused 0 'report_forms: the one argument that it takes is reports' target/bin/report_forms forms
  refused 1 "report_forms: standard input can't be read: Is a directory" bash -c './desk report - < samples'
  refused 1 "report_forms: standard input can't be read: Is a directory" bash -c './desk form - < samples'
  refused 1 "report_forms: standard output can't be written: No space left on device" bash -c './desk form samples/roster-a.stream > /dev/full'
  refused_forms
}

# one form of two is damaged: it is told with the line to look at, and the other is written
refused_forms() {
  local stop=$room/stop.form two=$room/two.forms line
  sed -n '/^unit=1$/,/^text=/p' docs/FORM.md | sed -n '1,16p' > "$stop"
  local refusal='report_forms: form 1, lines 1 to 16: 24,'
  told_forms 'report_forms: form 1, lines 1 to 16: 24, its last line has no line feed' ./desk report - < <(printf %s "$(cat "$stop")")
  told_forms 'report_forms: form 1, lines 1 to 5: 24, it ends before its line text=' ./desk report - < <(head -n 5 "$stop")
  told_forms 'report_forms: report 1: 25, it is not whole (question 2)' ./desk form - < <(head -c 20 samples/evening.roster)
  while IFS='|' read -r edit line; do
    { sed "$edit" "$stop" && cat "$stop"; } > "$two"
    told_forms "$line" ./desk report "$two"
    told "$edit: the other form is not written" cmp "$room/out" <(./desk report "$stop")
  done << END
3s/2/02/|$refusal line 3 has no number in its range, or one with zeros in front, a sign or a blank
s/^ordinal=1/ordinal=70000/|$refusal line 9 has no number in its range, or one with zeros in front, a sign or a blank
s/^identifier=0/identifier=A/|$refusal line 10 has no 32 digits 0 to 9 and a to f
s/^point=1 20000/point=1 020000/|$refusal line 15 has no position, blank and power as they are written, or one out of range
s/\$/\r/|$refusal it has a CR; a line ends in one line feed
s/^direction=1/&\n/|report_forms: form 1, lines 1 to 17: 24, line 6 has to begin with start_mark=
s/^resolution=60/resolution=15/|$refusal line 14 has to be resolution=60
s/^owner/Owner/|$refusal line 2 has to begin with owner=
s/^unit=1/unit=65/|$refusal its unit is not 1 to 64
s/^owner=7/owner=1000/|$refusal its owner is not 1 to 999
s/^type=2/type=7/|$refusal a field is out of range (question 4)
s/^operation=1/operation=3/|$refusal it has no parts, or may have none (question 8)
s/^point=1/point=2/|$refusal its parts do not cover its period, part 1 is wrong (question 8)
s/^stamp=.*/stamp=2026-03-01 24:00/|$refusal line 11 has no date such as 2026-03-01 00:10
s/^text=/text=\xc3\xa9/|$refusal its text is not printable ASCII
s/^text=/&$(printf '%0201d' 0)/|$refusal line 16 has more than 200 characters
END
}

# what was written before there was no more room is whole lines and a piece of one, and it is told
cut_file() {
  seq 1 100 > "$room/minutes"
  (ulimit -f 1 && exec ./desk date -) < "$room/minutes" > "$room/cut" 2> "$room/err"
  told 'no room: no status' [ $? -eq 1 ]
  told "no room: it said $(cat "$room/err")" grep -qx "typed_dates: standard output can't be written: File too large" "$room/err"
  told 'no room: not the first 1,024 bytes' cmp "$room/cut" <(./desk date - < "$room/minutes" | head -c 1024)
}

# a copy of the script at the top of a bare folder, with stand-ins for rt
bare_folder() {
  local tool bare=$room/bare
  mkdir -p "$bare/crates/shift_log" "$bare/tools" "$room/tools" && touch "$bare/crates.txt"
  cp tools/build "$bare/tools/build" && cp desk "$bare/desk" && cp samples/roster-a.stream "$bare/stream"
  for tool in bash dirname readlink cat find mktemp tee grep tail rm touch mkdir chmod cp mv; do
    ln -s "$(command -v "$tool")" "$room/tools/$tool"
  done
  refused 1 'desk: rt is missing: it is needed to build target/bin/shift_log' \
    env PATH="$room/tools" "$bare/desk" log "$bare/stream"
  refused 1 'desk: cargo is missing: it is needed to build reference/target/release/reference' \
    env PATH="$room/tools" "$bare/desk" show "$bare/stream"
}

# rt_is: standard input becomes the stand-in for rt in the bare folder
rt_is() {
  { echo "#!$(command -v bash)" && cat; } > "$room/tools/rt"
  chmod +x "$room/tools/rt"
}

builds() {
  local bare=$room/bare first='desk: proving and building target/bin/shift_log: some minutes the first time'
  rt_is <<< 'echo because; exit 1'
  refused 1 "$first"$'\n'"because"$'\n'"desk: 'tools/build shift_log' failed with status 1" \
    env PATH="$room/tools" "$bare/desk" log "$bare/stream"
  rt_is << 'END'
cat > /dev/null
mkdir -p out
printf '#!%s\ncat\n' "$BASH" > out/shift_log
chmod +x out/shift_log
echo "rt: $*"
END
  PATH=$room/tools "$bare/desk" log "$bare/stream" > "$room/out" 2> "$room/err"
  told 'the built program is not run on the file' cmp "$room/out" "$bare/stream"
  told "building says $(cat "$room/err")" [ "$(cat "$room/err")" = "$first"$'\n''rt: run' ]
  logged "$bare/stream" env PATH="$room/tools" "$bare/desk" log "$bare/stream"
  touch -d '1 minute' "$bare/crates.txt"
  PATH=$room/tools "$bare/desk" log "$bare/stream" > "$room/out" 2> "$room/err"
  told 'newer sources are not built' grep -q '^rt: run$' "$room/err"
}

# a machine without /proc gets its log as any other
without_proc() {
  local hidden='mount -t tmpfs none /proc && exec ./desk log samples/roster-a.stream'
  unshare -rm mount -t tmpfs none /proc 2> /dev/null || { echo 'desk.sh: no /proc can be hidden here: not tried'; return; }
  logged samples/roster-a.log unshare -rm bash -c "$hidden"
  refused 1 'desk: standard output is closed' unshare -rm bash -c "$hidden >&-"
}

# root reads every file, so that root tries it as nobody
unreadable_file() {
  local as=()
  [ "$(id -u)" -ne 0 ] || as=(setpriv --reuid=65534 --regid=65534 --clear-groups)
  chmod 755 "$room" && touch "$room/closed" && chmod 000 "$room/closed"
  refused 1 "desk: can't be read: $room/closed" "${as[@]}" "$room/bare/desk" log "$room/closed"
}

# the page for the shift has the log of roster A and a row for each number
page_for_the_shift() {
  local page=docs/SHIFT-LOG.md number
  told "$page has another log" cmp -s samples/roster-a.log <(sed '1,/^```$/d;/^```$/,$d' "$page")
  for number in {1..25} 43; do
    told "$page lacks answer $number" grep -q "^| $number |" <(sed -n '/^## Refusals/,/^## Warnings/p' "$page")
  done
  for number in 1 2 4 8; do
    told "$page lacks warning $number" grep -q "^| $number |" <(sed -n '/^## Warnings/,$p' "$page")
  done
}

# excerpt SAMPLE SECTION: what the section has in blocks stands in the sample's log, or is shown of its stream
excerpt() {
  local page=docs/SHIFT-LOG.md line lines=0
  { cat "samples/$1.log" && ./desk show "samples/$1.stream"; } > "$room/$1"
  while IFS= read -r line; do
    lines=$((lines + 1))
    told "$page: not in $1: $line" grep -qxF -- "$line" "$room/$1"
  done < <(sed -n "/^### $2/,/^### /p" "$page" | awk '/^```$/ { inside = !inside; next } inside')
  told "$page: no lines of $1" [ "$lines" -gt 0 ]
}

# page_of_dates: what the page has the desk say it says, and its table is right
page_of_dates() {
  local page=docs/DATES.md line text answer rows=0
  told 'no date is given' ./desk date 0 > /dev/null 2>&1
  awk '/^```$/ { inside = !inside; next } inside' "$page" > "$room/said"
  while IFS= read -r line; do
    printf '%s\n' "$line" && bash -c "${line#'$ '}" 2>&1
  done < <(grep '^\$ ' "$room/said") > "$room/says"
  told "$page has something else than is said" diff "$room/said" "$room/says"
  while IFS='|' read -r _ text answer _; do
    rows=$((rows + 1))
    text=${text#*\`} text=${text%\`*} answer=${answer// /}
    [ "$answer" != 23 ] || answer='refused 23'
    told "$page: $text is not $answer" [ "$(./desk date - <<< "$text")" = "$answer" ]
  done < <(grep '^| `' "$page")
  told "$page: $rows rows" [ "$rows" -ge 11 ]
}

# page_of_forms: what the page has the desk say it says; each form of the page is read, and written back
page_of_forms() {
  local form forms=0 line
  awk '/^```$/ { inside = !inside; next } inside && /^\$ / { said = 1 } !inside { said = 0 } inside && said' docs/FORM.md > "$room/said"
  while IFS= read -r line; do
    printf '%s\n' "$line" && bash -c "${line#'$ '}" 2>&1
  done < <(grep '^\$ ' "$room/said") > "$room/says"
  told 'FORM.md has something else than is said' diff "$room/said" "$room/says"
  awk -v room="$room" '/^```$/ { inside = !inside; form = 0; next } inside && /^unit=/ { n++; form = 1 } form { print > (room "/page" n ".form") }' docs/FORM.md
  for form in "$room"/page*.form; do
    forms=$((forms + 1))
    told "FORM.md: form $forms is refused" bash -c './desk report "$1" > "$2"' - "$form" "$room/bytes"
    logged "$form" ./desk form "$room/bytes"
  done
  told "FORM.md: $forms forms" [ "$forms" -eq 7 ]
}

bad_words
page_for_the_shift
page_of_dates
page_of_forms
excerpt cover 'Answer 8: which part'
excerpt evening 'How to end a derating early'
help_lists_every_word
samples
dates
forms
bare_folder
builds
without_proc
unreadable_file
exit "$failed"
