//! Dates: every minute there and back, minutes and places without a date, texts that are none.

use crate::case::{put_hex, Difference};
use crate::date_kinds::{self, kind};
use crate::stages::Outcome;
use crate::tally::Tally;
use desk_comparison::{print_date, read_date, reference_print_date, reference_read_date};
use reference::calendar::DATE_SIZE;
use reference::quantities::LAST_MINUTE;
use reference::random::Random;

const LAST: u32 = LAST_MINUTE.0;

type Date = [u8; DATE_SIZE];

fn difference(lines: String, text: &[u8]) -> Box<Difference> {
    let mut lines = format!("{lines}\ntext: \"{}\"\n", text.escape_ascii());
    put_hex(&mut lines, "text", text);
    Box::new(Difference { lines })
}

/// Every minute printed by both sides, and its print read by both.
pub fn every_minute(_: &mut Random, tally: &mut Tally) -> Outcome {
    for minute in 0..=LAST {
        let (mut expected, mut given) = ([0; DATE_SIZE], [0; DATE_SIZE]);
        let numbers = [
            reference_print_date(minute, &mut expected),
            print_date(minute, &mut given),
        ];
        if numbers != [0, 0] || given != expected {
            let expected = expected.escape_ascii();
            let lines =
                format!("print of {minute} differs: {numbers:?}\nreference: \"{expected}\"");
            return Err(difference(lines, &given));
        }
        let read = [reference_read_date(&given), read_date(&given)];
        if read != [(0, minute); 2] {
            let lines = format!("{minute} doesn't come back, reference and desk: {read:?}");
            return Err(difference(lines, &given));
        }
    }
    let minutes = u64::from(LAST) + 1;
    tally.count_dates(date_kinds::PRINTED, minutes);
    tally.count_dates(date_kinds::READ, minutes);
    Ok(2 * minutes)
}

/// Minutes of all sizes, places of all lengths.
pub fn printed(random: &mut Random, tally: &mut Tally) -> Outcome {
    const LENGTHS: usize = 40;
    let minutes = minutes_of_all_sizes(random);
    for &minute in &minutes {
        for length in 0..=LENGTHS {
            print(random, minute, length, tally)?;
        }
    }
    Ok((minutes.len() * (LENGTHS + 1)) as u64)
}

/// The borders of the range, powers of two, their neighbours, and random ones in and past it.
fn minutes_of_all_sizes(random: &mut Random) -> Vec<u32> {
    const RANDOM_MINUTES: usize = 2_000;
    let powers = (0..u32::BITS).map(|bit| 1 << bit);
    let marked = powers.chain([LAST, LAST + 1, u32::MAX]);
    let mut minutes: Vec<u32> = marked
        .flat_map(|minute: u32| [minute - 1, minute, minute.saturating_add(1)])
        .collect();
    minutes.extend((0..RANDOM_MINUTES).map(|_| random.bits() as u32));
    minutes.extend((0..RANDOM_MINUTES).map(|_| random.between(0..=LAST)));
    minutes
}

/// A minute printed by both sides into a place among other bytes, all of which are compared.
fn print(
    random: &mut Random,
    minute: u32,
    length: usize,
    tally: &mut Tally,
) -> Result<(), Box<Difference>> {
    const AROUND: usize = 24;
    let start = random.below(AROUND as u32) as usize;
    let pattern = random.bits() as u8;
    let before: Vec<u8> = (0..length + 2 * AROUND)
        .map(|at| pattern.wrapping_add(at as u8))
        .collect();
    let (mut expected, mut given) = (before.clone(), before.clone());
    let place = start..start + length;
    let numbers = [
        reference_print_date(minute, &mut expected[place.clone()]),
        print_date(minute, &mut given[place]),
    ];
    let (number, kind) = printed_kind(minute, length);
    let written = if number == 0 { DATE_SIZE } else { 0 };
    let stays =
        given[..start] == before[..start] && given[start + written..] == before[start + written..];
    if numbers != [number; 2] || given != expected || !stays {
        let lines = format!(
            "print of {minute} into {length} bytes from {start} on differs
numbers of reference and desk: {numbers:?}, right is {number}
reference: \"{}\"",
            expected.escape_ascii(),
        );
        return Err(difference(lines, &given));
    }
    tally.count_dates(kind, 1);
    Ok(())
}

fn printed_kind(minute: u32, length: usize) -> (u32, &'static str) {
    match (minute > LAST, length < DATE_SIZE) {
        (true, true) => (22, date_kinds::LATER_AND_SHORT),
        (true, false) => (22, date_kinds::LATER),
        (false, true) => (43, date_kinds::SHORT),
        (false, false) => (0, date_kinds::PRINTED),
    }
}

/// Texts that are dates, nearly dates and none.
pub fn typed(random: &mut Random, tally: &mut Tally) -> Outcome {
    let mut reader = Reader {
        random,
        tally,
        calls: 0,
    };
    reader.changed_bytes()?;
    reader.all_days()?;
    reader.all_clocks()?;
    reader.other_lengths()?;
    reader.shifted()?;
    reader.noise()?;
    Ok(reader.calls)
}

/// Has texts read by both sides.
struct Reader<'a> {
    random: &'a mut Random,
    tally: &'a mut Tally,
    calls: u64,
}

type Agreed = Result<(), Box<Difference>>;

impl Reader<'_> {
    fn read(&mut self, text: &[u8]) -> Agreed {
        let (expected, given) = (reference_read_date(text), read_date(text));
        let kind = kind(text);
        let right = match given {
            (0, minute) => kind == date_kinds::READ && minute <= LAST,
            (23, 0) => kind != date_kinds::READ,
            _ => false,
        };
        if given != expected || !right {
            let lines = format!(
                "text differs, by itself: {kind}\nreference: {expected:?}\ndesk: {given:?}"
            );
            return Err(difference(lines, text));
        }
        self.tally.count_dates(kind, 1);
        self.calls += 1;
        Ok(())
    }

    fn random_print(&mut self) -> Date {
        let mut text = [0; DATE_SIZE];
        reference_print_date(self.random.between(0..=LAST), &mut text);
        text
    }

    /// Every change of one byte, and many of two.
    fn changed_bytes(&mut self) -> Agreed {
        const PRINTS: usize = 400;
        const PAIRS: usize = 2_000;
        for _ in 0..PRINTS {
            let print = self.random_print();
            for at in 0..DATE_SIZE {
                let mut text = print;
                for change in 1..=u8::MAX {
                    text[at] = print[at] ^ change;
                    self.read(&text)?;
                }
            }
            for _ in 0..PAIRS {
                let mut text = print;
                self.change_byte(&mut text);
                self.change_byte(&mut text);
                self.read(&text)?;
            }
        }
        Ok(())
    }

    /// Now and then to any byte, as a rule to one that might stand in a date.
    fn change_byte(&mut self, text: &mut Date) {
        let at = self.random.below(DATE_SIZE as u32) as usize;
        text[at] = match self.random.below(4) {
            0 => self.random.bits() as u8,
            1 => self.random.pick(b"-- ::T/.+\0"),
            _ => self.random.pick(b"0123456789"),
        };
    }

    /// Every year near the range, month and day of two digits, at any hour and minute of two
    /// digits and at one of a day's.
    fn all_days(&mut self) -> Agreed {
        for (year, number) in (1990..=2060).flat_map(|year| (0..10_000).map(move |n| (year, n))) {
            let (month, day) = (number / 100, number % 100);
            let (hour, minute) = (self.random.below(100), self.random.below(100));
            self.read(&shape(year, month, day, hour, minute))?;
            self.read(&shape(year, month, day, hour % 24, minute % 60))?;
        }
        Ok(())
    }

    /// Every hour and minute of two digits, on random days and on the last one.
    fn all_clocks(&mut self) -> Agreed {
        const DAYS: usize = 60;
        for index in 0..DAYS {
            let mut text = self.random_print();
            if index == 0 {
                text = *b"2049-12-31 23:59";
            }
            for number in 0..10_000 {
                put_number(&mut text[11..13], number / 100);
                put_number(&mut text[14..16], number % 100);
                self.read(&text)?;
            }
        }
        Ok(())
    }

    /// Prints cut at either end, with what was cut off beside them, and prints among other bytes.
    fn other_lengths(&mut self) -> Agreed {
        const PRINTS: usize = 2_000;
        const AROUND: usize = 24;
        for _ in 0..PRINTS {
            let print = self.random_print();
            for cut in 0..=DATE_SIZE {
                self.read(&print[..cut])?;
                self.read(&print[cut..])?;
            }
            let filler = self.random.pick(b" 0\0\n\xFF-:1");
            let mut text = [filler; DATE_SIZE + AROUND];
            if self.random.percent(30) {
                self.random.fill(&mut text);
            }
            text[..DATE_SIZE].copy_from_slice(&print);
            for length in 0..=text.len() {
                self.read(&text[..length])?;
            }
            let at = self.random.between(1..=AROUND as u32) as usize;
            text[at..at + DATE_SIZE].copy_from_slice(&print);
            self.read(&text)?;
            self.read(&text[..at + DATE_SIZE])?;
            self.read(&text[at..])?;
        }
        Ok(())
    }

    /// Prints moved by a few places within sixteen, the rest blank, 0 or turned round.
    fn shifted(&mut self) -> Agreed {
        const PRINTS: usize = 2_000;
        for _ in 0..PRINTS {
            let print = self.random_print();
            for by in 1..DATE_SIZE {
                for filler in *b" 0" {
                    let mut text = [filler; DATE_SIZE];
                    text[by..].copy_from_slice(&print[..DATE_SIZE - by]);
                    self.read(&text)?;
                    let mut text = [filler; DATE_SIZE];
                    text[..DATE_SIZE - by].copy_from_slice(&print[by..]);
                    self.read(&text)?;
                }
                let mut text = print;
                text.rotate_right(by);
                self.read(&text)?;
            }
        }
        Ok(())
    }

    /// Any bytes, and any characters of dates, sixteen of them and other lengths.
    fn noise(&mut self) -> Agreed {
        const SIXTEENS: usize = 200_000;
        const OTHERS: usize = 50_000;
        const MOST: u32 = 40;
        for index in 0..SIXTEENS + OTHERS {
            let mut text = [0; MOST as usize];
            self.random.fill(&mut text);
            if self.random.percent(50) {
                text = text.map(|byte| b"0123456789-: 012"[usize::from(byte % 16)]);
            }
            let length = match index {
                0..SIXTEENS => DATE_SIZE,
                _ => self.random.between(0..=MOST) as usize,
            };
            self.read(&text[..length])?;
        }
        Ok(())
    }
}

/// A text of a date's shape.
fn shape(year: u32, month: u32, day: u32, hour: u32, minute: u32) -> Date {
    let mut text = *b"0000-00-00 00:00";
    put_number(&mut text[..4], year);
    put_number(&mut text[5..7], month);
    put_number(&mut text[8..10], day);
    put_number(&mut text[11..13], hour);
    put_number(&mut text[14..], minute);
    text
}

fn put_number(digits: &mut [u8], mut number: u32) {
    for digit in digits.iter_mut().rev() {
        *digit = b'0' + (number % 10) as u8;
        number /= 10;
    }
}
