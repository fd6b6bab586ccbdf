//! Why a text is no date, read from the text alone and by no other code, to be counted.

/// A text that is a date.
pub const READ: &str = "read";
/// A text with more than one thing wrong.
const SEVERAL: &str = "23: several reasons";
/// A minute printed.
pub const PRINTED: &str = "printed";
/// A later minute, with a place for its date.
pub const LATER: &str = "22";
/// A later minute, and a place too short.
pub const LATER_AND_SHORT: &str = "22: place too short as well";
/// A minute with a place too short.
pub const SHORT: &str = "43";

/// What stands in for a wrong character or a missing one.
const MODEL: &[u8; 16] = b"2000-01-01 00:00";

/// Something that can be wrong with a text, and whether it is.
type Reason = (&'static str, bool);

/// All kinds.
pub fn kinds() -> impl Iterator<Item = &'static str> {
    let others = [READ, PRINTED, LATER, LATER_AND_SHORT, SHORT, SEVERAL];
    let reasons = reasons(MODEL).map(|(reason, _)| reason);
    others.into_iter().chain(reasons)
}

/// The kind of a text: what is wrong with it, if that is one thing.
pub fn kind(text: &[u8]) -> &'static str {
    let mut wrong = reasons(text).filter(|(_, wrong)| *wrong);
    match (wrong.next(), wrong.next()) {
        (None, _) => READ,
        (Some((reason, _)), None) => reason,
        (Some(_), Some(_)) => SEVERAL,
    }
}

fn reasons(text: &[u8]) -> impl Iterator<Item = Reason> {
    let (shape, date) = mended(text);
    shape.into_iter().chain(wrong_numbers(&date))
}

/// What is wrong with length and characters, and the text without that.
fn mended(text: &[u8]) -> ([Reason; 4], [u8; 16]) {
    let mut date = *MODEL;
    let (mut separator, mut no_digit) = (false, false);
    for ((&given, mended), model) in text.iter().zip(&mut date).zip(MODEL) {
        let fits = match model {
            b'0'..=b'9' => given.is_ascii_digit(),
            _ => given == *model,
        };
        if fits {
            *mended = given;
        } else if model.is_ascii_digit() {
            no_digit = true;
        } else {
            separator = true;
        }
    }
    let shape = [
        ("23: too short", text.len() < date.len()),
        ("23: too long", text.len() > date.len()),
        ("23: separator", separator),
        ("23: no digit", no_digit),
    ];
    (shape, date)
}

/// What is wrong with the numbers of a text of a date's shape.
fn wrong_numbers(date: &[u8; 16]) -> [Reason; 9] {
    let [year, month, day, hour, minute] =
        [0..4, 5..7, 8..10, 11..13, 14..16].map(|place| number(&date[place]));
    let leap_day = month == 2 && day == 29;
    [
        ("23: year before 2000", year < 2000),
        ("23: year after 2049", year > 2049),
        ("23: month 00", month == 0),
        ("23: month above 12", month > 12),
        ("23: day 00", day == 0),
        ("23: day past the month's end", day > longest(month)),
        (
            "23: 29 February of a common year",
            leap_day && !leap_year(year),
        ),
        ("23: hour", hour > 23),
        ("23: minute", minute > 59),
    ]
}

fn number(digits: &[u8]) -> u32 {
    let values = digits.iter().map(|digit| u32::from(digit - b'0'));
    values.fold(0, |number, value| 10 * number + value)
}

fn leap_year(year: u32) -> bool {
    match year % 100 {
        0 => year.is_multiple_of(400),
        _ => year.is_multiple_of(4),
    }
}

/// The days of a month, in a leap year.
fn longest(month: u32) -> u32 {
    match month {
        2 => 29,
        4 | 6 | 9 | 11 => 30,
        _ => 31,
    }
}
