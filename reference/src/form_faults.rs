//! Why a text is no form and why a report has none, found line by line in a slow and plain way, to
//! be counted; and what each gives where there is no reason.

use crate::calendar::{date, read_date};
use crate::compose::{PartFields, ReportFields};
use crate::fields::{u16_at, u32_at};
use crate::quantities::LAST_MINUTE;
use crate::record::MRID_SIZE;
use crate::report::{head, question_2_report_whole, WholeReport, HEAD_SIZE, PART_SIZE};
use std::fmt::Write;
use std::ops::RangeInclusive;

/// A text that is a form.
pub const READ: &str = "form: read";
/// A text with more than one thing wrong.
const SEVERAL_24: &str = "24: several reasons";
/// A report that has a form.
pub const WRITTEN: &str = "form: written";
/// A report with more than one thing wrong.
const SEVERAL_25: &str = "25: several reasons";

const LAST_LINE_FEED: &str = "24: last line feed missing";
const CARRIAGE_RETURN: &str = "24: line ends with CR LF";
const EMPTY_LINE: &str = "24: empty line";
const AFTER_TEXT: &str = "24: line after the text";
const MISSING: &str = "24: line missing";
const DOUBLED: &str = "24: line doubled";
const UNKNOWN: &str = "24: unknown name";
const ORDER: &str = "24: order of lines";
const SPELLING: &str = "24: number in another spelling";
const RANGES: [&str; 9] = [
    "24: unit",
    "24: owner",
    "24: type",
    "24: operation",
    "24: direction",
    "24: start mark",
    "24: end mark",
    "24: qualification",
    "24: ordinal",
];
const IDENTIFIER: &str = "24: identifier";
const CAPITAL: &str = "24: identifier with a capital";
const DATES: [&str; 3] = ["24: stamp", "24: start", "24: end"];
/// What question 4 asks of several fields at once.
const TOGETHER: [&str; 5] = [
    RANGES[7],
    "24: event that is no creation",
    "24: event with an identifier",
    "24: event with end mark 2",
    "24: withdrawal with end mark 2",
];
const NO_POINTS: &str = "24: no points";
const POINTS: &str = "24: points where none may be";
const MANY_POINTS: &str = "24: more than 100 points";
const PERIOD: &str = "24: points beside a start not before the end";
const POWER: &str = "24: power";
const RESOLUTION: &str = "24: resolution none of the five";
const TOO_COARSE: &str = "24: end off the resolution";
const TOO_FINE: &str = "24: resolution finer than need be";
const FIRST_POSITION: &str = "24: first position not 1";
const RISING: &str = "24: positions don't rise";
const PAST_END: &str = "24: position not before the end";
const NOT_PRINTABLE: &str = "24: text not printable";
const TOO_LONG: &str = "24: text too long";

const NOT_WHOLE: [&str; 9] = [
    "25: not whole, no head",
    "25: not whole, mark",
    "25: not whole, zero",
    "25: not whole, more than 100 parts",
    "25: not whole, text longer than 200",
    "25: not whole, length",
    "25: not whole, mark of a part",
    "25: not whole, zero of a part",
    "25: not whole, mark of the text",
];
const RANGES_25: [&str; 9] = [
    "25: unit",
    "25: owner",
    "25: type",
    "25: operation",
    "25: direction",
    "25: start mark",
    "25: end mark",
    "25: qualification",
    "25: ordinal",
];
const DATES_25: [&str; 3] = ["25: stamp", "25: start", "25: end"];
const TOGETHER_25: [&str; 5] = [
    RANGES_25[7],
    "25: event that is no creation",
    "25: event with an identifier",
    "25: event with end mark 2",
    "25: withdrawal with end mark 2",
];
const NO_PARTS: &str = "25: no parts";
const PARTS: &str = "25: parts where none may be";
const COVER: &str = "25: parts that don't cover the period";
const TEXT_25: &str = "25: text not printable";

/// What becomes of a text or a report.
pub struct Finding {
    /// What is wrong, if that is one thing.
    pub kind: &'static str,
    /// What it gives, if nothing is wrong.
    pub bytes: Option<Vec<u8>>,
}

/// All kinds of texts and of reports.
pub fn kinds() -> Vec<&'static str> {
    let mut kinds = vec![READ, SEVERAL_24, WRITTEN, SEVERAL_25];
    kinds.extend([LAST_LINE_FEED, CARRIAGE_RETURN, EMPTY_LINE, AFTER_TEXT]);
    kinds.extend([MISSING, DOUBLED, UNKNOWN, ORDER, SPELLING]);
    kinds.extend(RANGES);
    kinds.extend([IDENTIFIER, CAPITAL]);
    kinds.extend(DATES);
    kinds.extend(&TOGETHER[1..]);
    kinds.extend([NO_POINTS, POINTS, MANY_POINTS, PERIOD, POWER]);
    kinds.extend([RESOLUTION, TOO_COARSE, TOO_FINE, FIRST_POSITION]);
    kinds.extend([RISING, PAST_END, NOT_PRINTABLE, TOO_LONG]);
    kinds.extend(NOT_WHOLE);
    kinds.extend(RANGES_25);
    kinds.extend(DATES_25);
    kinds.extend(&TOGETHER_25[1..]);
    kinds.extend([NO_PARTS, PARTS, COVER, TEXT_25]);
    kinds
}

/// The finding of faults found, the whole of it given where there is none.
fn finding(
    faults: &[&'static str],
    [none, several]: [&'static str; 2],
    bytes: impl FnOnce() -> Vec<u8>,
) -> Finding {
    match faults {
        [] => Finding {
            kind: none,
            bytes: Some(bytes()),
        },
        [fault] => Finding {
            kind: fault,
            bytes: None,
        },
        _ => Finding {
            kind: several,
            bytes: None,
        },
    }
}

/// Unit, owner, six codes and ordinal, where they are in their own ranges.
type Numbers = [Option<i128>; 9];

const LIMITS: [RangeInclusive<i128>; 9] = [
    1..=64,
    1..=999,
    1..=6,
    1..=3,
    1..=3,
    1..=2,
    1..=2,
    0..=7,
    1..=9_999,
];

/// What question 4 asks of several fields at once, and whether it says no: by type the
/// qualification; of an event operation, identifier and end mark; of a withdrawal the end mark.
fn wrong_together(numbers: Numbers, mrid: Option<[u8; MRID_SIZE]>) -> [bool; 5] {
    let [_, _, record_type, operation, _, _, end_mark, qualification, _] = numbers;
    let qualifications = match record_type {
        Some(1) => 1..=7,
        Some(5) => 1..=5,
        Some(6) => 1..=6,
        Some(_) => 0..=0,
        None => 0..=7,
    };
    let (event, ended) = (record_type == Some(6), end_mark == Some(2));
    [
        qualification.is_some_and(|code| !qualifications.contains(&code)),
        event && operation.is_some_and(|code| code != 1),
        event && mrid.is_some_and(|mrid| mrid != [0; MRID_SIZE]),
        event && ended,
        !event && operation == Some(3) && ended,
    ]
}

/// Whether question 8 asks for parts, if the codes say so.
fn parts_needed(numbers: Numbers) -> Option<bool> {
    let (record_type, operation) = (numbers[2]?, numbers[3]?);
    Some((2..=4).contains(&record_type) && operation != 3)
}

/// Why a report has no form, or its form.
pub fn of_report(report: &[u8]) -> Finding {
    let mut faults = whole_faults(report);
    let whole = question_2_report_whole(report).filter(|_| faults.is_empty());
    let Some(whole) = whole else {
        return finding(&faults, [WRITTEN, SEVERAL_25], Vec::new);
    };
    let two = |at| i128::from(u16_at(report, at));
    let one = |at: usize| i128::from(report[at]);
    let mut numbers = [two(head::UNIT), two(head::OWNER), 0, 0, 0, 0, 0, 0, 0].map(Some);
    for (number, at) in numbers[2..8].iter_mut().zip(head::TYPE..) {
        *number = Some(one(at));
    }
    numbers[8] = Some(two(head::REVISION));
    for ((number, limits), fault) in numbers.iter_mut().zip(LIMITS).zip(RANGES_25) {
        *number = number.filter(|number| limits.contains(number));
        faults.extend(number.is_none().then_some(fault));
    }
    let times = [head::STAMP, head::START, head::END].map(|at| u32_at(report, at));
    for (time, fault) in times.into_iter().zip(DATES_25) {
        faults.extend((time > LAST_MINUTE.0).then_some(fault));
    }
    let mrid = report[head::MRID..head::STAMP].try_into().ok();
    for (wrong, fault) in wrong_together(numbers, mrid).into_iter().zip(TOGETHER_25) {
        faults.extend(wrong.then_some(fault));
    }
    faults.extend(parts_needed(numbers).and_then(|needed| parts_fault(&whole, needed)));
    let printable = |byte: &u8| byte.is_ascii_graphic() || *byte == b' ';
    faults.extend((!whole.text().iter().all(printable)).then_some(TEXT_25));
    finding(&faults, [WRITTEN, SEVERAL_25], || form_of(&whole))
}

/// What question 2 finds.
fn whole_faults(report: &[u8]) -> Vec<&'static str> {
    let Some(head) = report.get(..HEAD_SIZE) else {
        return vec![NOT_WHOLE[0]];
    };
    let [parts, text] =
        [head::PART_COUNT, head::TEXT_LENGTH].map(|at| usize::from(u16_at(head, at)));
    let text_mark = HEAD_SIZE + PART_SIZE * parts;
    let right_length = report.len() == text_mark + 2 + text;
    // Without the right length parts and text have no place.
    let (listed, mark) = match right_length {
        true => (
            &report[HEAD_SIZE..text_mark],
            &report[text_mark..text_mark + 2],
        ),
        false => (&[][..], &b"TX"[..]),
    };
    let mut listed = listed.chunks(PART_SIZE);
    let wrong = [
        !head.starts_with(b"RP"),
        head[head::ZERO..] != [0, 0],
        parts > 100,
        text > 200,
        !right_length,
        listed.clone().any(|part| !part.starts_with(b"PK")),
        listed.any(|part| part[2..4] != [0, 0]),
        mark != b"TX",
    ];
    let faults = wrong.into_iter().zip(&NOT_WHOLE[1..]);
    faults
        .filter_map(|(wrong, fault)| wrong.then_some(*fault))
        .collect()
}

/// What question 8 finds, part by part. A part's time out of range is past the end as well.
fn parts_fault(report: &WholeReport, needed: bool) -> Option<&'static str> {
    let parts: Vec<_> = report.parts().collect();
    if !needed {
        return (!parts.is_empty()).then_some(PARTS);
    }
    let [mut due, end] = [head::START, head::END].map(|at| u32_at(report.bytes(), at));
    let covers = parts.iter().all(|part| {
        let fits = part.start == due && part.start < part.end && part.end <= end;
        due = part.end;
        fits
    });
    match parts.is_empty() {
        true => Some(NO_PARTS),
        false => (!covers || due != end).then_some(COVER),
    }
}

/// The form of a report that has one.
fn form_of(report: &WholeReport) -> Vec<u8> {
    let bytes = report.bytes();
    let mut form = String::new();
    let mut put = |name: &str, value: String| _ = writeln!(form, "{name}={value}");
    put("unit", report.unit().to_string());
    put("owner", report.owner().to_string());
    for (name, at) in CODES.iter().zip(head::TYPE..) {
        put(name, bytes[at].to_string());
    }
    put("ordinal", u16_at(bytes, head::REVISION).to_string());
    let mrid = &bytes[head::MRID..head::MRID + MRID_SIZE];
    let digits = mrid.iter().map(|byte| format!("{byte:02x}"));
    put("identifier", digits.collect());
    for (name, at) in TIMES.iter().zip([head::STAMP, head::START, head::END]) {
        let text = date(u32_at(bytes, at)).unwrap_or_default();
        put(name, String::from_utf8_lossy(&text).into_owned());
    }
    let [start, end] = [head::START, head::END].map(|at| u32_at(bytes, at));
    let parts: Vec<_> = report.parts().collect();
    if !parts.is_empty() {
        let places: Vec<u32> = parts.iter().map(|part| part.start - start).collect();
        let resolution = coarsest(end - start, &places);
        put("resolution", resolution.to_string());
        for (part, place) in parts.iter().zip(places) {
            put(
                "point",
                format!("{} {}", place / resolution + 1, part.power),
            );
        }
    }
    put("text", String::from_utf8_lossy(report.text()).into_owned());
    form.into_bytes()
}

const CODES: [&str; 6] = [
    "type",
    "operation",
    "direction",
    "start_mark",
    "end_mark",
    "qualification",
];
const TIMES: [&str; 3] = ["stamp", "start", "end"];

/// The coarsest resolution that divides a length and all places.
fn coarsest(length: u32, places: &[u32]) -> u32 {
    let fits = |&resolution: &u32| {
        let mut all = places.iter().chain([&length]);
        all.all(|place| place % resolution == 0)
    };
    RESOLUTIONS.into_iter().find(fits).unwrap_or(1)
}

const RESOLUTIONS: [u32; 5] = [1_440, 60, 15, 5, 1];

/// Why a text is no form, or its report.
pub fn of_form(form: &[u8]) -> Finding {
    let mut faults = Vec::new();
    let lines = lines(form, &mut faults);
    if names_are_right(&lines, &mut faults) {
        let report = Values::new(&lines, &mut faults).report();
        faults.dedup();
        return finding(&faults, [READ, SEVERAL_24], || report.bytes());
    }
    faults.dedup();
    finding(&faults, [READ, SEVERAL_24], Vec::new)
}

/// A name and a value.
type Line<'a> = (&'a [u8], &'a [u8]);

/// The lines, with what is wrong at their ends put right.
fn lines<'a>(form: &'a [u8], faults: &mut Vec<&'static str>) -> Vec<Line<'a>> {
    let mut pieces: Vec<&[u8]> = form.split(|&byte| byte == b'\n').collect();
    match pieces.pop() {
        Some([]) => {}
        Some(rest) => {
            faults.push(LAST_LINE_FEED);
            pieces.push(rest);
        }
        None => {}
    }
    let mut lines = Vec::new();
    for piece in pieces {
        let line = piece.strip_suffix(b"\r").unwrap_or(piece);
        if line.len() < piece.len() {
            faults.push(CARRIAGE_RETURN);
        }
        let mut sides = line.splitn(2, |&byte| byte == b'=');
        match (sides.next(), sides.next()) {
            (Some(name), Some(value)) => lines.push((name, value)),
            (Some([]), None) => faults.push(EMPTY_LINE),
            _ => faults.push(UNKNOWN),
        }
    }
    lines
}

/// Whether the names are those of a form, in order; the values may still be anything.
fn names_are_right(lines: &[Line], faults: &mut Vec<&'static str>) -> bool {
    let before = faults.len();
    let mut names: Vec<&[u8]> = lines.iter().map(|(name, _)| *name).collect();
    if let Some(text) = names.iter().position(|name| name == b"text") {
        faults.extend((text + 1 < names.len()).then_some(AFTER_TEXT));
        names.truncate(text + 1);
    }
    let expected = expected_names(&names);
    let count = |name: &str| times(name, &names);
    let known = |given: &&[u8]| expected.iter().any(|name| name.as_bytes() == *given);
    let twice = |name: &&str| *name != "point" && count(name) > 1;
    let wrong = [
        (UNKNOWN, !names.iter().all(known)),
        (MISSING, expected.iter().any(|name| count(name) == 0)),
        (DOUBLED, expected.iter().any(twice)),
    ];
    faults.extend(
        wrong
            .iter()
            .filter(|(_, wrong)| *wrong)
            .map(|(fault, _)| fault),
    );
    let in_order = names
        .iter()
        .copied()
        .eq(expected.iter().map(|name| name.as_bytes()));
    faults.extend((faults.len() == before && !in_order).then_some(ORDER));
    faults.len() == before
}

fn times(name: &str, names: &[&[u8]]) -> usize {
    names
        .iter()
        .filter(|given| **given == name.as_bytes())
        .count()
}

/// The names in order, with as many points as there are; resolution and points go together.
fn expected_names(names: &[&[u8]]) -> Vec<&'static str> {
    let (points, resolutions) = (times("point", names), times("resolution", names));
    let mut expected = vec!["unit", "owner"];
    expected.extend(CODES);
    expected.extend(["ordinal", "identifier"]);
    expected.extend(TIMES);
    if points + resolutions > 0 {
        expected.push("resolution");
        expected.resize(expected.len() + points.max(1), "point");
    }
    expected.push("text");
    expected
}

/// The values of lines whose names are right.
struct Values<'a> {
    lines: &'a [Line<'a>],
    faults: &'a mut Vec<&'static str>,
}

impl<'a> Values<'a> {
    fn new(lines: &'a [Line<'a>], faults: &'a mut Vec<&'static str>) -> Self {
        Values { lines, faults }
    }

    fn fault(&mut self, fault: &'static str, there: bool) {
        if there {
            self.faults.push(fault);
        }
    }

    fn value(&self, name: &str) -> &'a [u8] {
        let mut lines = self.lines.iter();
        let line = lines.find(|(given, _)| *given == name.as_bytes());
        line.map_or(&[], |(_, value)| value)
    }

    /// A number in a range; None after a fault that leaves it open.
    fn number(
        &mut self,
        value: &[u8],
        range: RangeInclusive<i128>,
        out_of_range: &'static str,
    ) -> Option<i128> {
        let text = String::from_utf8_lossy(value);
        let number = text.trim().parse::<i128>().ok();
        let spelled = number.is_some_and(|number| number.to_string() == text);
        self.fault(SPELLING, !spelled);
        self.fault(
            out_of_range,
            number.is_some_and(|number| !range.contains(&number)),
        );
        number.filter(|number| range.contains(number))
    }

    fn date(&mut self, name: &str, fault: &'static str) -> Option<u32> {
        let minute = read_date(self.value(name)).ok().map(|minute| minute.0);
        self.fault(fault, minute.is_none());
        minute
    }

    fn mrid(&mut self) -> Option<[u8; MRID_SIZE]> {
        let text = String::from_utf8_lossy(self.value("identifier")).into_owned();
        let digits = text.len() == 2 * MRID_SIZE && text.bytes().all(|c| c.is_ascii_hexdigit());
        self.fault(IDENTIFIER, !digits);
        self.fault(CAPITAL, digits && text.to_ascii_lowercase() != text);
        let number = u128::from_str_radix(&text, 16).ok().filter(|_| digits);
        number.map(u128::to_be_bytes)
    }

    /// The report; what has a fault is left at 0.
    fn report(mut self) -> ReportFields {
        let numbers = self.numbers();
        let mrid = self.mrid();
        let mut times = [None; 3];
        for (index, name) in TIMES.into_iter().enumerate() {
            times[index] = self.date(name, DATES[index]);
        }
        for (wrong, fault) in wrong_together(numbers, mrid).into_iter().zip(TOGETHER) {
            self.fault(fault, wrong);
        }
        let parts = self.parts(numbers, times);
        let [unit, owner, codes @ .., revision] = numbers.map(Option::unwrap_or_default);
        let codes = codes.map(|code| code as u8);
        let [stamp, start, end] = times.map(Option::unwrap_or_default);
        ReportFields {
            unit: unit as u16,
            owner: owner as u16,
            record_type: codes[0],
            operation: codes[1],
            direction: codes[2],
            start_mark: codes[3],
            end_mark: codes[4],
            qualification: codes[5],
            revision: revision as u16,
            mrid: mrid.unwrap_or_default(),
            stamp,
            start,
            end,
            parts,
            text: self.text(),
        }
    }

    fn numbers(&mut self) -> Numbers {
        let names = ["unit", "owner"]
            .into_iter()
            .chain(CODES)
            .chain(["ordinal"]);
        let mut numbers = [None; 9];
        for (index, (name, range)) in names.zip(LIMITS).enumerate() {
            numbers[index] = self.number(self.value(name), range, RANGES[index]);
        }
        numbers
    }

    fn text(&mut self) -> Vec<u8> {
        let text = self.value("text");
        let printable = text.iter().all(|&byte| (0x20..0x7F).contains(&byte));
        self.fault(NOT_PRINTABLE, !printable);
        self.fault(TOO_LONG, text.len() > 200);
        text.to_vec()
    }

    fn parts(&mut self, numbers: Numbers, times: [Option<u32>; 3]) -> Vec<PartFields> {
        let lines = self.lines.iter();
        let points: Vec<&[u8]> = lines
            .filter(|(name, _)| *name == b"point")
            .map(|line| line.1)
            .collect();
        if let Some(needed) = parts_needed(numbers) {
            self.fault(NO_POINTS, needed && points.is_empty());
            self.fault(POINTS, !needed && !points.is_empty());
        }
        self.fault(MANY_POINTS, points.len() > 100);
        let mut places = Vec::new();
        for point in &points {
            let mut sides = point.splitn(2, |&byte| byte == b' ');
            let (position, power) = (sides.next().unwrap_or(&[]), sides.next().unwrap_or(&[]));
            let position = self.number(position, 0..=i128::MAX, RISING);
            let power = self.number(power, i32::MIN.into()..=i32::MAX.into(), POWER);
            places.push((position, power));
        }
        if points.is_empty() {
            return Vec::new();
        }
        let resolution = self.number(self.value("resolution"), 0..=i128::MAX, RESOLUTION);
        let known =
            resolution.filter(|&minutes| RESOLUTIONS.iter().any(|&r| i128::from(r) == minutes));
        self.fault(RESOLUTION, known.is_none() && resolution.is_some());
        match (known, times) {
            (Some(resolution), [_, Some(start), Some(end)]) => {
                self.check_period(i128::from(end) - i128::from(start), resolution, &places);
                parts(start, end, resolution, &places)
            }
            _ => Vec::new(),
        }
    }

    /// Positions and resolution, beside a period of so many minutes.
    fn check_period(
        &mut self,
        length: i128,
        resolution: i128,
        places: &[(Option<i128>, Option<i128>)],
    ) {
        self.fault(PERIOD, length <= 0);
        let positions: Option<Vec<i128>> = places.iter().map(|(position, _)| *position).collect();
        let Some(positions) = positions.filter(|_| length > 0) else {
            return;
        };
        let rise = positions.windows(2).all(|pair| pair[0] < pair[1]);
        self.fault(FIRST_POSITION, positions[0] != 1);
        self.fault(RISING, !rise);
        let last = positions.iter().max().copied().unwrap_or(1);
        self.fault(
            PAST_END,
            last > 1 && (last - 1).saturating_mul(resolution) >= length,
        );
        self.fault(TOO_COARSE, length % resolution != 0);
        let coarser_fits = RESOLUTIONS.into_iter().map(i128::from).any(|coarser| {
            let on_it = |position: &i128| (position - 1).saturating_mul(resolution) % coarser == 0;
            coarser > resolution && length % coarser == 0 && positions.iter().all(on_it)
        });
        self.fault(TOO_FINE, coarser_fits);
    }
}

/// The parts of positions and powers; what they would be past a fault does not matter.
fn parts(
    start: u32,
    end: u32,
    resolution: i128,
    places: &[(Option<i128>, Option<i128>)],
) -> Vec<PartFields> {
    let place = |position: Option<i128>| {
        let offset = (position.unwrap_or(1) - 1).saturating_mul(resolution);
        (i128::from(start).saturating_add(offset)) as u32
    };
    let mut starts: Vec<u32> = places
        .iter()
        .map(|(position, _)| place(*position))
        .collect();
    starts.push(end);
    let powers = places
        .iter()
        .map(|(_, power)| power.unwrap_or_default() as i32);
    let periods = starts.windows(2).zip(powers);
    periods
        .map(|(period, power)| PartFields {
            start: period[0],
            end: period[1],
            power,
        })
        .collect()
}
