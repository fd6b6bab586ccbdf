//! What a report that has a form is like, and how much room there was, to be counted.

use reference::codes::RecordType;
use reference::fields::{u16_at, u32_at};
use reference::record::{MAX_PARTS, MRID_SIZE};
use reference::report::{head, question_2_report_whole, StatedPart, MAX_TEXT};

/// A kind, and whether something is of it.
pub type Kinds<const COUNT: usize> = [(&'static str, bool); COUNT];

/// Types 1 to 6, created, changed and withdrawn; an event is always a creation.
const OPERATIONS: [&str; 16] = [
    "form: stop created",
    "form: stop changed",
    "form: stop withdrawn",
    "form: positive derating created",
    "form: positive derating changed",
    "form: positive derating withdrawn",
    "form: negative derating created",
    "form: negative derating changed",
    "form: negative derating withdrawn",
    "form: forced work created",
    "form: forced work changed",
    "form: forced work withdrawn",
    "form: off-grid work created",
    "form: off-grid work changed",
    "form: off-grid work withdrawn",
    "form: event",
];

/// Which type and operation a report with a form has.
pub fn operations(report: &[u8]) -> Kinds<{ OPERATIONS.len() }> {
    let [record_type, operation] = [head::TYPE, head::OPERATION].map(|at| usize::from(report[at]));
    let mut index = 0;
    OPERATIONS.map(|kind| {
        index += 1;
        (kind, index == 3 * (record_type - 1) + operation)
    })
}

/// Resolutions and points of a form.
pub fn grids(form: &[u8]) -> Kinds<11> {
    let form = String::from_utf8_lossy(form);
    let value = |name: &str| {
        let mut lines = form.lines().filter_map(|line| line.split_once('='));
        lines
            .find(|(given, _)| *given == name)
            .map_or("", |line| line.1)
    };
    let resolution = value("resolution");
    let points = form.lines().filter(|line| line.starts_with("point="));
    let points: Vec<&str> = points.collect();
    let long = |line: &&str| {
        line.split(' ')
            .next()
            .is_some_and(|first| first.len() == 14)
    };
    [
        ("form: no resolution", resolution.is_empty()),
        ("form: resolution 1440", resolution == "1440"),
        ("form: resolution 60", resolution == "60"),
        ("form: resolution 15", resolution == "15"),
        ("form: resolution 5", resolution == "5"),
        ("form: resolution 1", resolution == "1"),
        ("form: no point", points.is_empty()),
        ("form: 1 point", points.len() == 1),
        (
            "form: 2 to 99 points",
            (2..MAX_PARTS).contains(&points.len()),
        ),
        ("form: 100 points", points.len() == MAX_PARTS),
        ("form: position of eight digits", points.iter().any(long)),
    ]
}

/// Numbers of a report that has a form, on an edge.
pub fn numbers(report: &[u8]) -> Kinds<7> {
    let [unit, owner, ordinal] =
        [head::UNIT, head::OWNER, head::REVISION].map(|at| u16_at(report, at));
    let event = report[head::TYPE] == RecordType::Event as u8;
    let zero_mrid = report[head::MRID..][..MRID_SIZE] == [0; MRID_SIZE];
    [
        ("form: unit 1", unit == 1),
        ("form: unit 64", unit == 64),
        ("form: owner 1", owner == 1),
        ("form: owner 999", owner == 999),
        ("form: ordinal 1", ordinal == 1),
        ("form: ordinal 9999", ordinal == 9_999),
        ("form: identifier zero, no event", zero_mrid && !event),
    ]
}

/// Direction, marks and times of a report that has a form, of the rarer kind.
pub fn marks_and_times(report: &[u8]) -> Kinds<8> {
    let [start, end] = [head::START, head::END].map(|at| u32_at(report, at));
    let has_parts = u16_at(report, head::PART_COUNT) > 0;
    let both_ways = report[head::DIRECTION] == 3;
    let early = report[head::END_MARK] == 2;
    let [record_type, operation] = [head::TYPE, head::OPERATION].map(|at| report[at]);
    let [start_off, end_off] = [start, end].map(|time| !time.is_multiple_of(15));
    [
        (
            "form: both directions beside points",
            both_ways && has_parts,
        ),
        ("form: executed", report[head::START_MARK] == 2),
        ("form: end mark 2 on a change", early && operation == 2),
        ("form: end mark 2 on a creation", early && operation == 1),
        ("form: end mark 2 on a stop", early && record_type == 1),
        ("form: start not before the end", start >= end),
        ("form: start off the quarter hour", start_off),
        (
            "form: end off the quarter hour beside points",
            end_off && has_parts,
        ),
    ]
}

/// Powers and text of a report that has a form.
pub fn parts_and_text(report: &[u8]) -> Kinds<15> {
    let whole = question_2_report_whole(report);
    let parts: Vec<StatedPart> = whole.iter().flat_map(|whole| whole.parts()).collect();
    let text = whole.map_or(&[][..], |whole| whole.text());
    let has = |power: i32| parts.iter().any(|part| part.power == power);
    let equal = parts.windows(2).any(|pair| pair[0].power == pair[1].power);
    [
        ("form: power 0", has(0)),
        ("form: power -1", has(-1)),
        ("form: power -2147483648", has(i32::MIN)),
        ("form: power 2147483647", has(i32::MAX)),
        ("form: power 99999999", has(99_999_999)),
        ("form: power 100000000", has(100_000_000)),
        ("form: equal neighbours", equal),
        ("form: no text", text.is_empty()),
        ("form: text of 1", text.len() == 1),
        (
            "form: text of 2 to 199",
            (2..MAX_TEXT).contains(&text.len()),
        ),
        ("form: text of 200", text.len() == MAX_TEXT),
        ("form: text with =", text.contains(&b'=')),
        ("form: text begins with =", text.first() == Some(&b'=')),
        (
            "form: text begins with a blank",
            text.first() == Some(&b' '),
        ),
        ("form: text ends with a blank", text.last() == Some(&b' ')),
    ]
}

/// The room for an answer, by its length if there is one. The first names of a list are those of
/// an answer, the last of a refusal.
pub fn rooms(names: [&'static str; 6], answer: Option<usize>, room: usize) -> Kinds<6> {
    let [exact, short, shorter, none, larger, refused] = names;
    [
        (exact, answer == Some(room)),
        (short, answer == Some(room + 1)),
        (
            shorter,
            room > 0 && answer.is_some_and(|length| length > room + 1),
        ),
        (none, answer.is_some() && room == 0),
        (larger, answer.is_some_and(|length| length < room)),
        (refused, answer.is_none() && room == 0),
    ]
}

/// The rooms for a form.
pub const FORM_ROOMS: [&str; 6] = [
    "form written: room to the byte",
    "43: form, one byte short",
    "43: form, more than one byte short",
    "43: form, no byte",
    "form written: more room",
    "25 beside no byte",
];

/// The rooms for a report.
pub const REPORT_ROOMS: [&str; 6] = [
    "form read: room to the byte",
    "43: report, one byte short",
    "43: report, more than one byte short",
    "43: report, no byte",
    "form read: more room",
    "24 beside no byte",
];
