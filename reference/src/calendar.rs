//! Dates printed, 22, and by A3 of paper 02 typed back in, 23.

use crate::quantities::Minute;

/// The refusal of "a date for a later minute".
pub const LATER_MINUTE: u8 = 22;

/// The refusal of "a text that is the print of no minute".
pub const NO_PRINT: u8 = 23;

/// The refusal of a place for a date that is too short for it.
pub const SHORT_PLACE: u8 = 43;

/// Characters of a date, as in 2026-03-01 00:10.
pub const DATE_SIZE: usize = 16;

const HOUR: u32 = 60;
const DAY: u32 = 24 * HOUR;

/// Years are counted from 2000.
const YEARS: u32 = 50;

// Days are counted from 1996-03-01, in years that begin in March: every fourth one ends with 29
// February, 1900 and 2100 being far, and each month starts on the same day of all of them.
const FOUR_YEARS: u32 = 4 * 365 + 1;
const MARCH_YEARS_BEFORE_2000: u32 = 4;
const DAYS_BEFORE_2000: u32 = FOUR_YEARS - 31 - 29;
const MARCH_TO_JULY: u32 = 31 + 30 + 31 + 30 + 31;

/// Year, month and day of a day number, 0 being 2000-01-01.
fn year_month_day(day_number: u32) -> (u32, u32, u32) {
    // A day is 2141 / 65536 of a month, near enough for each day of a year; March is month 3.
    const MONTH: u32 = 65_536;
    const DAY_OF_MONTH: u32 = 2_141;
    const FIRST_OF_MARCH: u32 = 3 * MONTH + 1_305;

    let quarter_days = 4 * (day_number + DAYS_BEFORE_2000) + 3;
    let march_year = quarter_days / FOUR_YEARS;
    let day_of_year = quarter_days % FOUR_YEARS / 4;
    let months = FIRST_OF_MARCH + DAY_OF_MONTH * day_of_year;
    let (month, day) = (months / MONTH, months % MONTH / DAY_OF_MONTH + 1);
    if month <= 12 {
        (march_year - MARCH_YEARS_BEFORE_2000, month, day)
    } else {
        (march_year + 1 - MARCH_YEARS_BEFORE_2000, month - 12, day)
    }
}

/// The day number of a date that there is.
fn day_number(year: u32, month: u32, day: u32) -> u32 {
    let (march_year, months_from_march) = match month {
        1 | 2 => (year + MARCH_YEARS_BEFORE_2000 - 1, month + 9),
        _ => (year + MARCH_YEARS_BEFORE_2000, month - 3),
    };
    let year_start = march_year * FOUR_YEARS / 4;
    let month_start = (months_from_march * MARCH_TO_JULY + 2) / 5;
    year_start + month_start + day - 1 - DAYS_BEFORE_2000
}

/// The days of a month from 1 to 12.
fn month_length(year: u32, month: u32) -> u32 {
    const COMMON: [u32; 12] = [31, 28, 31, 30, 31, 30, 31, 31, 30, 31, 30, 31];
    match month {
        2 if year.is_multiple_of(4) => 29,
        _ => COMMON[month as usize - 1],
    }
}

/// The date of a minute, as in 2026-03-01 00:10, or 22.
pub fn date(minute: u32) -> Result<[u8; DATE_SIZE], u8> {
    let mut text = [0; DATE_SIZE];
    print_date(minute, &mut text)?;
    Ok(text)
}

/// Writes the date of a minute into the first bytes of a text, or 22, or 43 where they are too few.
pub fn print_date(minute: u32, text: &mut [u8]) -> Result<(), u8> {
    let Minute(minute) = Minute::from_count(minute).ok_or(LATER_MINUTE)?;
    let text = text.first_chunk_mut().ok_or(SHORT_PLACE)?;
    let (year, month, day) = year_month_day(minute / DAY);
    *text = *b"2000-00-00 00:00";
    put_pair(text, 2, year);
    put_pair(text, 5, month);
    put_pair(text, 8, day);
    put_pair(text, 11, minute % DAY / HOUR);
    put_pair(text, 14, minute % HOUR);
    Ok(())
}

fn put_pair(text: &mut [u8; DATE_SIZE], at: usize, number: u32) {
    text[at..at + 2].copy_from_slice(&DIGIT_PAIRS[number as usize]);
}

/// 00 to 99.
static DIGIT_PAIRS: [[u8; 2]; 100] = {
    let mut pairs = [[0; 2]; 100];
    let mut number = 0;
    while number < pairs.len() {
        pairs[number] = [b'0' + number as u8 / 10, b'0' + number as u8 % 10];
        number += 1;
    }
    pairs
};

/// The minute whose date a text is, or 23.
pub fn read_date(text: &[u8]) -> Result<Minute, u8> {
    let text = text.try_into().map_err(|_| NO_PRINT)?;
    let [year, month, day, hour, minute] = read_fields(text).ok_or(NO_PRINT)?;
    let right = year < YEARS
        && (1..=12).contains(&month)
        && (1..=month_length(year, month)).contains(&day)
        && hour < 24
        && minute < 60;
    if !right {
        return Err(NO_PRINT);
    }
    let days = day_number(year, month, day);
    Ok(Minute(days * DAY + hour * HOUR + minute))
}

/// The five numbers of two digits, if every character is of a date's kind: all sixteen at once.
fn read_fields(text: &[u8; DATE_SIZE]) -> Option<[u32; 5]> {
    const ZEROS: u128 = u128::from_le_bytes(*b"2000-00-00 00:00");
    const TOP_BITS: u128 = u128::from_le_bytes([0x80; DATE_SIZE]);
    // What takes a byte to its top bit: at a digit from 10 on, at a fixed character from 1 on.
    const D: u8 = 0x80 - 10;
    const F: u8 = 0x80 - 1;
    const TO_TOP: u128 = u128::from_le_bytes([F, F, D, D, F, D, D, F, D, D, F, D, D, F, D, D]);

    let digits = u128::from_le_bytes(*text) ^ ZEROS;
    if (digits | digits.wrapping_add(TO_TOP)) & TOP_BITS != 0 {
        return None;
    }
    let pairs = (10 * digits + (digits >> 8)).to_le_bytes();
    Some([2, 5, 8, 11, 14].map(|at| pairs[at].into()))
}
