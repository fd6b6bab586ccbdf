#!/usr/bin/env bash
# Dates beside Python's calendar: those that calendar_demo prints, and lines of dates and minutes, both ways.
set -eu
cd "$(dirname "$0")/.."
room=$(mktemp -d)
trap 'rm -rf "$room"' EXIT
python3 tests/calendar_dates.py | cmp - crates/calendar_demo/stdout

# the stored ones, which rt runs, and many more
for name in stdin stdout; do
  [ -s "crates/typed_dates/$name" ] || { echo "calendar.sh: no crates/typed_dates/$name"; exit 1; }
done
python3 tests/typed_dates.py answers-to < crates/typed_dates/stdin | cmp - crates/typed_dates/stdout
[ -e target/bin/typed_dates ] || tools/build typed_dates
python3 tests/typed_dates.py lines > "$room/lines"
python3 tests/typed_dates.py answers > "$room/answers"
target/bin/typed_dates < "$room/lines" | cmp - "$room/answers"
for answer in 'refused 22' 'refused 23' '2049-12-31 ..:..' '2000-01-01 00:00' '[0-9]+'; do
  grep -qxE "$answer" "$room/answers" || { echo "calendar.sh: no answer $answer"; exit 1; }
done
echo "calendar.sh: $(wc -l < "$room/answers") lines as Python has them"
