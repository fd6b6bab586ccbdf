#!/usr/bin/env python3
"""Lines for crates/typed_dates and its answers, by Python's own calendar (datetime):

    python3 tests/typed_dates.py lines > lines; python3 tests/typed_dates.py answers > answers
    target/bin/typed_dates < lines | cmp - answers
    python3 tests/typed_dates.py answers-to < crates/typed_dates/stdin > crates/typed_dates/stdout

Every day of the fifty years and random minutes, both ways; each byte at each place of a date; other lengths; wrong dates.
"""
import random
import re
import sys
from datetime import datetime, timedelta

EPOCH = datetime(2000, 1, 1)
MINUTES = (datetime(2050, 1, 1) - EPOCH) // timedelta(minutes=1)
DATE = re.compile(rb"([0-9]{4})-([0-9]{2})-([0-9]{2}) ([0-9]{2}):([0-9]{2})")
SAMPLE = b"2026-03-01 00:10"


def date(minute):
    return f"{EPOCH + timedelta(minutes=minute):%Y-%m-%d %H:%M}".encode()


def minute(text):
    """None where there is no such minute."""
    found = DATE.fullmatch(text)
    try:
        moment = datetime(*map(int, found.groups())) if found else None
    except ValueError:
        moment = None
    if moment is None or not 2000 <= moment.year <= 2049:
        return None
    return (moment - EPOCH) // timedelta(minutes=1)


def answer(line):
    if re.fullmatch(rb"0|[1-9][0-9]*", line):
        return date(int(line)) if int(line) < MINUTES else b"refused 22"
    found = minute(line)
    return b"refused 23" if found is None else b"%d" % found


def both_ways(number):
    yield b"%d" % number
    if number < MINUTES:
        yield date(number)


def days():
    for day in range(MINUTES // 1440):
        yield from both_ways(day * 1440 + day * 7 % 1440)


def random_minutes(source):
    for _ in range(10_000):
        yield from both_ways(source.randrange(MINUTES))
        yield b"%d" % source.randrange(MINUTES, 2 ** source.randint(25, 80))


def wrong_bytes():
    for place in range(len(SAMPLE)):
        for byte in range(256):
            if byte != ord("\n"):
                yield SAMPLE[:place] + bytes([byte]) + SAMPLE[place + 1:]


def other_lengths():
    for length in range(40):
        yield (SAMPLE * 3)[:length]
        yield SAMPLE[length:]
        yield SAMPLE + b" " * length
        yield b"0" * length
        yield b"7" * length
    yield SAMPLE * 1000
    yield b"1" * 4_000


def wrong_dates():
    """Every month 00 to 99 with every day 00 to 99, in leap years and others; every hour with every minute; every year."""
    for year in (2000, 2024, 2025, 2100, 1999, 2049, 2050):
        for month in range(100):
            for day in range(100):
                yield f"{year}-{month:02}-{day:02} 12:34".encode()
    for hour in range(100):
        for of_hour in range(100):
            yield f"2026-03-01 {hour:02}:{of_hour:02}".encode()
    for year in range(10_000):
        yield f"{year:04}-02-29 00:00".encode()


def spelt_otherwise():
    yield from b"""\
2026-3-1 0:10
2026-03-01T00:10
2026-03-01 00:10Z
2026-03-01 00:10:00
01-03-2026 00:10
2026/03/01 00:10
2026.03.01 00.10
+026-03-01 00:10
2026-03-01 +0:10
2026-03- 1 00:10
 2026-03-01 00:1
20260301 0010
-1
+1
1.0
1e3
0x10
007
1 2
refused 22""".split(b"\n")
    yield "２026-03-01 00".encode()
    yield SAMPLE + b"\r"
    yield SAMPLE[:15] + b"\0"


def lines():
    source = random.Random(20_260_301)
    for part in (days(), random_minutes(source), wrong_bytes(), other_lengths(), wrong_dates(), spelt_otherwise()):
        yield from part


def given():
    return sys.stdin.buffer.read().removesuffix(b"\n").split(b"\n")


WRITTEN = {
    "lines": lines,
    "answers": lambda: map(answer, lines()),
    "answers-to": lambda: map(answer, given()),
}

if __name__ == "__main__":
    for line in WRITTEN[sys.argv[1]]():
        sys.stdout.buffer.write(line + b"\n")
