#!/usr/bin/env python3
"""What crates/calendar_demo has to print, by Python's own calendar (datetime):

    python3 tests/calendar_dates.py > crates/calendar_demo/stdout
"""
from datetime import datetime, timedelta

EPOCH = datetime(2000, 1, 1)
END = datetime(2050, 1, 1)

# what is read, in words: a text, and whether a minute has it
TYPED = [
    ("the example of the paper", "2026-03-01 00:10", True),
    ("the last day of a month of 30", "2025-04-30 00:00", True),
    ("the 31st of a month of 30", "2025-04-31 00:00", False),
    ("29 February of a leap year", "2024-02-29 00:00", True),
    ("29 February of another year", "2025-02-29 00:00", False),
    ("day 00", "2026-03-00 00:10", False),
    ("day 32", "2026-03-32 00:10", False),
    ("the last month", "2026-12-31 00:00", True),
    ("month 13", "2026-13-01 00:10", False),
    ("month 00", "2026-00-01 00:10", False),
    ("the last minute of a day", "2026-03-01 23:59", True),
    ("24:00 is not the next day's 00:00", "2026-03-01 24:00", False),
    ("minute 60", "2026-03-01 00:60", False),
    ("the first minute", "2000-01-01 00:00", True),
    ("the minute before it", "1999-12-31 23:59", False),
    ("the last minute", "2049-12-31 23:59", True),
    ("the minute after it", "2050-01-01 00:00", False),
    ("T for the blank", "2026-03-01T00:10", False),
    ("strokes for hyphens", "2026/03/01 00:10", False),
    ("a point for the colon", "2026-03-01 00.10", False),
    ("a sign", "+026-03-01 00:10", False),
    ("a blank for a zero", "2026-03- 1 00:10", False),
    ("a letter for a digit", "2O26-03-01 00:10", False),
    ("a month of one digit", "2026-3-01 00:10", False),
    ("a blank after it", "2026-03-01 00:10 ", False),
    ("no text", "", False),
]


def minute_of(moment):
    return (moment - EPOCH) // timedelta(minutes=1)


def line(minute):
    moment = EPOCH + timedelta(minutes=minute)
    return f"{minute} {moment:%Y-%m-%d %H:%M}" if moment < END else f"{minute} 22"


def minutes():
    end = minute_of(END)
    for year in range(2000, 2050):
        for month in range(1, 13):
            following = datetime(year + month // 12, month % 12 + 1, 1)
            yield minute_of(datetime(year, month, 1))
            yield minute_of(following) - 1
    yield from range(12345, end, 77777)
    yield end


def typed(words, text, is_date):
    if not is_date:
        return f"{words}: '{text}' is refused with 23"
    minute = minute_of(datetime.strptime(text, "%Y-%m-%d %H:%M"))
    return f"{words}: '{text}' is minute {minute}, printed {line(minute).split(' ', 1)[1]}"


if __name__ == "__main__":
    for minute in minutes():
        print(line(minute))
    for case in TYPED:
        print(typed(*case))
