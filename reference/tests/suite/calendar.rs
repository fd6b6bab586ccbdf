//! Dates printed and read, against a calendar that walks from day to day.

use reference::quantities::Minute;
use reference::{date, print_date, read_date};
use std::collections::HashMap;

const LAST: u32 = 26_298_719;

fn text(minute: u32) -> String {
    String::from_utf8(date(minute).unwrap().to_vec()).unwrap()
}

#[test]
fn known_dates() {
    assert_eq!(text(0), "2000-01-01 00:00");
    assert_eq!(text(59 * 1_440), "2000-02-29 00:00");
    assert_eq!(text(13_760_640), "2026-03-01 00:00");
    assert_eq!(text(13_760_639), "2026-02-28 23:59");
    assert_eq!(text(26_298_719), "2049-12-31 23:59");
}

#[test]
fn later_minutes_have_none() {
    for minute in [26_298_720, 26_298_721, u32::MAX] {
        assert_eq!(date(minute), Err(22));
    }
}

#[test]
fn every_day_follows_the_one_before() {
    let (mut year, mut month, mut day) = (2000, 1, 1);
    let mut month_starts = 0;
    for number in 0..DAYS {
        let midnight = format!("{year:04}-{month:02}-{day:02} 00:00");
        assert_eq!(text(number * 1_440), midnight);
        let evening = format!("{year:04}-{month:02}-{day:02} 23:59");
        assert_eq!(text(number * 1_440 + 1_439), evening);
        month_starts += u32::from(day == 1);
        let last_day = match month {
            2 if year % 4 == 0 => 29,
            2 => 28,
            4 | 6 | 9 | 11 => 30,
            _ => 31,
        };
        (year, month, day) = match (month, day) {
            (12, 31) => (year + 1, 1, 1),
            _ if day == last_day => (year, month + 1, 1),
            _ => (year, month, day + 1),
        };
    }
    assert_eq!((year, month_starts), (2050, 600));
}

#[test]
fn every_minute_of_a_day() {
    for minute in 0..1_440 {
        let expected = format!("2026-03-01 {:02}:{:02}", minute / 60, minute % 60);
        assert_eq!(text(13_760_640 + minute), expected);
    }
}

const DAYS: u32 = 18_263;

fn read(text: &str) -> Result<u32, u8> {
    read_date(text.as_bytes()).map(|Minute(minute)| minute)
}

fn refused(texts: &[&str]) {
    for text in texts {
        assert_eq!(text.len(), 16, "{text:?}");
        assert_eq!(read(text), Err(23), "{text:?}");
    }
}

#[test]
fn known_dates_are_read() {
    for (text, minute) in [
        ("2000-01-01 00:00", 0),
        ("2000-01-01 00:01", 1),
        ("2000-01-01 01:00", 60),
        ("2000-01-02 00:00", 1_440),
        ("2000-02-29 00:00", 59 * 1_440),
        ("2000-03-01 00:00", 60 * 1_440),
        ("2000-12-31 23:59", 366 * 1_440 - 1),
        ("2001-01-01 00:00", 366 * 1_440),
        ("2001-02-28 23:59", (366 + 59) * 1_440 - 1),
        ("2001-03-01 00:00", (366 + 59) * 1_440),
        ("2024-02-29 12:34", 12_708_754),
        ("2026-03-01 00:10", 13_760_650),
        ("2049-12-31 23:59", LAST),
    ] {
        assert_eq!(read(text), Ok(minute), "{text}");
        assert_eq!(self::text(minute), text);
    }
}

#[test]
fn hours_and_minutes_are_not_carried_over() {
    refused(&[
        "2026-03-01 24:00",
        "2026-03-01 24:59",
        "2049-12-31 24:00",
        "2026-03-01 25:00",
        "2026-03-01 99:00",
        "2026-03-01 00:60",
        "2026-03-01 23:60",
        "2026-03-01 00:99",
        "2049-12-31 23:60",
    ]);
}

#[test]
fn months_are_1_to_12() {
    refused(&[
        "2026-00-01 00:10",
        "2026-00-31 00:10",
        "2026-13-01 00:10",
        "2026-20-01 00:10",
        "2026-99-01 00:10",
    ]);
}

#[test]
fn days_end_with_their_month() {
    refused(&[
        "2026-03-00 00:10",
        "2026-02-00 00:10",
        "2026-01-32 00:10",
        "2026-02-30 00:10",
        "2026-02-31 00:10",
        "2026-03-32 00:10",
        "2026-04-31 00:10",
        "2026-05-32 00:10",
        "2026-06-31 00:10",
        "2026-07-32 00:10",
        "2026-08-32 00:10",
        "2026-09-31 00:10",
        "2026-10-32 00:10",
        "2026-11-31 00:10",
        "2026-12-32 00:10",
        "2026-12-99 00:10",
    ]);
    for text in [
        "2026-01-31 00:10",
        "2026-03-31 00:10",
        "2026-04-30 00:10",
        "2026-05-31 00:10",
        "2026-06-30 00:10",
        "2026-07-31 00:10",
        "2026-08-31 00:10",
        "2026-09-30 00:10",
        "2026-10-31 00:10",
        "2026-11-30 00:10",
        "2026-12-31 00:10",
    ] {
        assert_eq!(self::text(read(text).unwrap()), text);
    }
}

#[test]
fn the_29th_of_february() {
    for year in 2000..=2049 {
        let text = format!("{year}-02-29 23:59");
        if year % 4 == 0 {
            assert_eq!(self::text(read(&text).unwrap()), text);
        } else {
            assert_eq!(read(&text), Err(23), "{text}");
        }
    }
    refused(&["2025-02-29 00:00", "2024-02-30 00:00", "2000-02-30 00:00"]);
}

#[test]
fn years_are_2000_to_2049() {
    refused(&[
        "1999-12-31 23:59",
        "2050-01-01 00:00",
        "0000-01-01 00:00",
        "1926-03-01 00:10",
        "2100-01-01 00:00",
        "2126-03-01 00:10",
        "3026-03-01 00:10",
        "9999-12-31 23:59",
    ]);
}

#[test]
fn every_character_has_its_place() {
    refused(&[
        "2026-03-01T00:10",
        "2026/03/01 00:10",
        "2026-03/01 00:10",
        "2026/03-01 00:10",
        "2026-03-01 00.10",
        "2026-03-01 00-10",
        "2026-03-01-00:10",
        "2026-03-01\t00:10",
        "2026-03-01\x0000:10",
        "2026 03 01 00 10",
        "2026:03:01 00:10",
        "2026003001000010",
        "01-03-2026 00:10",
        "03/01/2026 00:10",
    ]);
}

#[test]
fn digits_alone_make_a_number() {
    refused(&[
        "2026- 3-01 00:10",
        "2026-03- 1 00:10",
        "2026-03-01  0:10",
        "2026-03-01 00: 1",
        "2026-03-1  00:10",
        "+026-03-01 00:10",
        "-026-03-01 00:10",
        "2026-+3-01 00:10",
        "2026--3-01 00:10",
        "2026-03-+1 00:10",
        "2026-03-01 +0:10",
        "2026-03-01 -0:10",
        "2026-03-01 00:+1",
        "2026-3-01 00:100",
        "2026-3-1 00:10  ",
        "  2026-3-1 00:10",
        "2026-03-1 00:100",
        "2026-03-01 0:100",
        "2026-03-01 00:1 ",
        "2026-03-0a 00:10",
        "2026-0:-01 00:10",
        "2026-0/-01 00:10",
        "2O26-03-01 00:10",
        "                ",
        "0000000000000000",
        "----------------",
    ]);
}

#[test]
fn other_lengths_are_no_date() {
    for text in [
        "",
        "2",
        "2026-03-01",
        "2026-03-01 ",
        "2026-03-01 00",
        "2026-03-01 00:",
        "2026-03-01 00:1",
        "2026-3-01 00:10",
        "2026-03-1 00:10",
        "2026-03-01 0:10",
        "026-03-01 00:10",
        "2026-03-0100:10",
        "2026-03-01 00:10 ",
        " 2026-03-01 00:10",
        "2026-03-01 00:10\n",
        "2026-03-01 00:10\0",
        "2026-03-01 00:100",
        "2026-03-01  00:10",
        "02026-03-01 00:10",
        "2026-03-01 00:10:00",
        "2026-03-01 00:102026-03-01 00:10",
    ] {
        assert_eq!(read(text), Err(23), "{text:?}");
    }
}

#[test]
fn bytes_that_are_not_ascii() {
    for text in [
        b"2026-03-01\xA000:10",
        b"2026-03-01 00:1\xB0",
        b"\xB2026-03-01 00:10",
        b"2026\xAD03-01 00:10",
        b"2026-\xB03-01 00:10",
        b"2026-0\xB3-01 00:10",
        b"2026-03-01 00\xBA10",
        b"2026-03-01 \xFF0:10",
        b"2026-03-\x80\x80 00:10",
        b"\xEF\xBB\xBF2026-03-01 00",
    ] {
        assert_eq!(read_date(text), Err(23), "{}", text.escape_ascii());
    }
    assert_eq!(read_date(&[0xFF; 16]), Err(23));
    assert_eq!(read_date(&[0x80; 16]), Err(23));
    assert_eq!(read_date(&[0; 16]), Err(23));
}

#[test]
fn the_bytes_that_each_place_takes() {
    let good = *b"2026-03-01 00:10";
    for at in 0..good.len() {
        let mut text = good;
        let taken = (0..=u8::MAX).filter(|&byte| {
            text[at] = byte;
            read_date(&text).is_ok()
        });
        let taken: Vec<u8> = taken.collect();
        let expected: &[u8] = match at {
            2 => b"01234",
            5 => b"0",
            6 | 9 => b"123456789",
            8 => b"0123",
            11 => b"012",
            14 => b"012345",
            3 | 12 | 15 => b"0123456789",
            _ => &good[at..=at],
        };
        assert_eq!(taken, expected, "place {at}");
    }
}

#[test]
fn every_minute_comes_back_from_its_own_print() {
    for minute in 0..=LAST {
        let text = date(minute).unwrap();
        assert_eq!(read_date(&text), Ok(Minute(minute)));
    }
}

/// Year, month and day of each day in turn, counted month by month.
fn days() -> impl Iterator<Item = (u32, u32, u32)> {
    let months = (2000..2050).flat_map(|year| (1..=12).map(move |month| (year, month)));
    months.flat_map(|(year, month)| {
        let common = [31, 28, 31, 30, 31, 30, 31, 31, 30, 31, 30, 31];
        let leap = year % 400 == 0 || (year % 4 == 0 && year % 100 != 0);
        let leap_day = u32::from(leap && month == 2);
        let length = common[month as usize - 1] + leap_day;
        (1..=length).map(move |day| (year, month, day))
    })
}

#[test]
fn days_counted_month_by_month_agree() {
    for ((year, month, day), number) in days().zip(0..) {
        for minute in [0, 1, 59, 60, 719, 720, 1_380, 1_439] {
            let (hour, rest) = (minute / 60, minute % 60);
            let expected = format!("{year:04}-{month:02}-{day:02} {hour:02}:{rest:02}");
            assert_eq!(text(number * 1_440 + minute), expected);
            assert_eq!(read(&expected), Ok(number * 1_440 + minute));
        }
    }
    assert_eq!(days().count() as u32, DAYS);
}

/// The prints of all days, and those of all minutes of a day, with their places.
struct Prints {
    days: HashMap<Vec<u8>, u32>,
    clocks: HashMap<Vec<u8>, u32>,
}

impl Prints {
    fn new() -> Prints {
        let day = |(year, month, day)| format!("{year:04}-{month:02}-{day:02} ").into_bytes();
        let clock = |minute| format!("{:02}:{:02}", minute / 60, minute % 60).into_bytes();
        Prints {
            days: days().map(day).zip(0..).collect(),
            clocks: (0..1_440).map(clock).zip(0..).collect(),
        }
    }

    fn read(&self, text: &[u8]) -> Result<Minute, u8> {
        let (day, clock) = text.split_at_checked(11).ok_or(23)?;
        match (self.days.get(day), self.clocks.get(clock)) {
            (Some(day), Some(clock)) => Ok(Minute(day * 1_440 + clock)),
            _ => Err(23),
        }
    }
}

#[test]
fn two_neighbouring_bytes_of_any_value() {
    let prints = Prints::new();
    for at in 0..15 {
        let mut text = *b"2024-02-29 13:37";
        for pair in 0..=u16::MAX {
            text[at..at + 2].copy_from_slice(&pair.to_be_bytes());
            assert_eq!(read_date(&text), prints.read(&text));
        }
    }
}

/// Every text of a date's shape with a year near the range.
#[test]
fn no_other_day_is_read() {
    let mut expected = days().zip(0..).peekable();
    for year in 1990..2060 {
        for (month, day) in (0..100).flat_map(|month| (0..100).map(move |day| (month, day))) {
            let given = read(&format!("{year:04}-{month:02}-{day:02} 00:00"));
            match expected.next_if(|&(date, _)| date == (year, month, day)) {
                Some((_, number)) => assert_eq!(given, Ok(number * 1_440)),
                None => assert_eq!(given, Err(23)),
            }
        }
    }
    assert_eq!(expected.next(), None);
}

#[test]
fn a_date_takes_the_first_sixteen_bytes() {
    let before: Vec<u8> = (100..140).collect();
    for length in 0..=before.len() {
        let mut text = before[..length].to_vec();
        let expected = if length < 16 { Err(43) } else { Ok(()) };
        assert_eq!(print_date(13_760_650, &mut text), expected);
        let printed = if length < 16 { "" } else { "2026-03-01 00:10" };
        let rest = &before[printed.len()..length];
        assert_eq!(text, [printed.as_bytes(), rest].concat());
    }
}

#[test]
fn a_later_minute_is_asked_before_the_place() {
    for length in 0..=40 {
        for minute in [LAST + 1, LAST + 2, u32::MAX] {
            let mut text = vec![7; length];
            assert_eq!(print_date(minute, &mut text), Err(22));
            assert_eq!(text, vec![7; length]);
        }
    }
}
