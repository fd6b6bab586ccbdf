//! Random reports with a form and without one; forms damaged in every place.

use super::broken_report;
use crate::codes::{Operation, RecordType, OFF_GRID_QUALIFICATIONS, OUTAGE_QUALIFICATIONS};
use crate::compose::{PartFields, ReportFields};
use crate::forms::RESOLUTIONS;
use crate::quantities::LAST_MINUTE;
use crate::random::Random;
use crate::record::{MAX_PARTS, MRID_SIZE};
use crate::report::{HEAD_SIZE, MAX_TEXT};

const TYPES: [RecordType; 6] = [
    RecordType::Outage,
    RecordType::PositiveDerating,
    RecordType::NegativeDerating,
    RecordType::MustRun,
    RecordType::OffGrid,
    RecordType::Event,
];

/// A report that has a form, of any type and operation, often on an edge.
pub fn report_with_form(random: &mut Random) -> ReportFields {
    let record_type = random.pick(&[TYPES, TYPES].concat());
    let mut fields = ReportFields::creation(1, 1, record_type);
    fields.unit = on_edge(random, 1, 64) as u16;
    fields.owner = on_edge(random, 1, 999) as u16;
    if record_type != RecordType::Event {
        fields.operation = random.pick(&[1, 1, 2, 3]);
        fields.mrid = mrid(random);
    }
    fields.direction = random.pick(&[1, 2, 3]);
    fields.start_mark = random.pick(&[1, 2]);
    let withdraws = fields.operation == Operation::Withdraw as u8;
    if record_type != RecordType::Event && !withdraws {
        fields.end_mark = random.pick(&[1, 1, 2]);
    }
    let codes = match record_type {
        RecordType::Outage => OUTAGE_QUALIFICATIONS,
        RecordType::OffGrid => OFF_GRID_QUALIFICATIONS,
        RecordType::Event => 1..=6,
        _ => 0..=0,
    };
    fields.qualification = on_edge(random, (*codes.start()).into(), (*codes.end()).into()) as u8;
    fields.revision = on_edge(random, 1, 9_999) as u16;
    fields.stamp = on_edge(random, 0, LAST_MINUTE.0);
    fields.start = on_edge(random, 0, LAST_MINUTE.0);
    fields.end = on_edge(random, 0, LAST_MINUTE.0);
    if record_type.has_parts() && !withdraws {
        put_parts(random, &mut fields);
    }
    fields.text = text(random);
    fields
}

/// A number of a range, now and then its first or its last one.
fn on_edge(random: &mut Random, first: u32, last: u32) -> u32 {
    match random.below(8) {
        0 => first,
        1 => last,
        _ => random.between(first..=last),
    }
}

fn mrid(random: &mut Random) -> [u8; MRID_SIZE] {
    let mut mrid = [random.bits() as u8; MRID_SIZE];
    match random.below(8) {
        0 => mrid = [0; MRID_SIZE],
        1 => mrid = [0xFF; MRID_SIZE],
        2 => {}
        _ => random.fill(&mut mrid),
    }
    mrid
}

/// Parts on one of the resolutions, at times on a coarser one without meaning to.
fn put_parts(random: &mut Random, fields: &mut ReportFields) {
    let any = random.between(1..=MAX_PARTS as u32) as usize;
    let count = random.pick(&[1, 1, 2, 3, 10, any, any, MAX_PARTS]);
    let resolution = random.pick(&RESOLUTIONS);
    let most = random.pick(&[1, 2, 5, 30, 150]);
    let mut place = 0;
    let mut ends = Vec::new();
    for _ in 0..count {
        place += resolution * random.between(1..=most);
        ends.push(place);
    }
    // Now and then one part is long, and the positions behind it are of many digits.
    let rest = LAST_MINUTE.0.saturating_sub(place) / resolution;
    if random.percent(10) && rest > 0 {
        let longer = resolution * random.between(1..=rest);
        let from = random.below(count as u32) as usize;
        ends[from..].iter_mut().for_each(|end| *end += longer);
    }
    let start = match ends.last() {
        Some(length) => on_edge(random, 0, LAST_MINUTE.0.saturating_sub(*length)),
        None => 0,
    };
    let mut power = 0;
    let steps: Vec<(u32, i32)> = ends
        .iter()
        .map(|end| {
            power = self::power(random, power);
            (start + end, power)
        })
        .collect();
    let period = (start, start + ends.last().copied().unwrap_or(1));
    *fields = fields.clone().over(period.0, period.1).stepping(&steps);
}

/// Any i32, the one before at times, the edges of each number of digits.
fn power(random: &mut Random, before: i32) -> i32 {
    let digits = 10_i32.pow(random.below(10));
    match random.below(10) {
        0..=2 => before,
        3 => random.pick(&[0, 1, -1, i32::MIN, i32::MIN + 1, i32::MAX, i32::MAX - 1]),
        4 => digits,
        5 => digits - 1,
        6 => -digits,
        7 => 1 - digits,
        8 => random.bits() as i32,
        _ => random.between(0..=99_999_999) as i32,
    }
}

/// A text of printable characters, "=" and blanks often among them and at its ends.
fn text(random: &mut Random) -> Vec<u8> {
    let any = random.between(0..=MAX_TEXT as u32) as usize;
    let length = random.pick(&[0, 0, 1, 2, any, any, MAX_TEXT]);
    let mut text: Vec<u8> = (0..length).map(|_| printable(random)).collect();
    for at in [0, length.saturating_sub(1)] {
        if at < length && random.percent(40) {
            text[at] = random.pick(b" =");
        }
    }
    text
}

fn printable(random: &mut Random) -> u8 {
    match random.below(8) {
        0 => random.pick(b" =~"),
        _ => random.between(0x20..=0x7E) as u8,
    }
}

/// A report that has a form but for one change as a rule, in bytes.
pub fn report_without_form(random: &mut Random) -> Vec<u8> {
    let mut fields = report_with_form(random);
    match random.below(12) {
        0 => fields.unit = random.pick(&[0, 65, 256, u16::MAX]),
        1 => fields.owner = random.pick(&[0, 1_000, 1_024, u16::MAX]),
        2 => spoil_code(random, &mut fields),
        3 => fields.revision = random.pick(&[0, 10_000, u16::MAX]),
        4 => spoil_time(random, &mut fields),
        5 => match random.percent(80) {
            true => fields.mrid[random.below(16) as usize] = 1,
            false => fields.operation = random.pick(&[2, 3]),
        },
        6 => fields.end_mark = random.pick(&[0, 2, 3, 17, 255]),
        7 | 8 => spoil_parts(random, &mut fields),
        9 | 10 => spoil_text(random, &mut fields),
        _ => {
            let whole = fields.bytes();
            return match random.percent(2) {
                true => whole[..random.below(HEAD_SIZE as u32) as usize].to_vec(),
                false => broken_report(random, &whole),
            };
        }
    }
    fields.bytes()
}

fn spoil_code(random: &mut Random, fields: &mut ReportFields) {
    let code = random.pick(&[0, 1, 2, 3, 4, 6, 7, 8, 9, 10, 255]);
    match random.below(5) {
        0 => fields.record_type = code,
        1 => fields.operation = code,
        2 => fields.direction = code,
        3 => fields.start_mark = code,
        _ => fields.qualification = code,
    }
}

fn spoil_time(random: &mut Random, fields: &mut ReportFields) {
    let late = random.pick(&[LAST_MINUTE.0 + 1, u32::MAX]);
    match random.below(5) {
        0 => fields.stamp = late,
        1 => fields.start = late,
        2 => fields.end = late,
        _ => {
            if let Some(part) = fields.parts.last_mut() {
                part.end = late;
            }
        }
    }
}

/// Parts that don't cover the period, none where they are needed, some where none may be.
fn spoil_parts(random: &mut Random, fields: &mut ReportFields) {
    let (start, end) = (fields.start, fields.end);
    let Some(last) = fields.parts.len().checked_sub(1) else {
        fields.parts = vec![PartFields {
            start,
            end,
            power: 0,
        }];
        return;
    };
    let any = random.below(last as u32 + 1) as usize;
    match random.below(8) {
        0 => fields.parts.clear(),
        1 => _ = fields.parts.remove(any),
        2 => fields.parts[any].start += 1,
        3 => fields.parts[any].end -= 1,
        4 => fields.end = end.wrapping_add(1),
        5 => (fields.start, fields.end) = (end, start),
        6 => {
            let (start, more) = (LAST_MINUTE.0 - 1_000, MAX_PARTS as u32 + 1);
            let steps: Vec<(u32, i32)> = (1..=more).map(|part| (start + part, 7)).collect();
            *fields = fields.clone().over(start, start + more).stepping(&steps);
        }
        _ => fields.operation = Operation::Withdraw as u8,
    }
}

fn spoil_text(random: &mut Random, fields: &mut ReportFields) {
    let byte = random.pick(&[0, 9, b'\n', b'\r', 0x1F, 0x7F, 0x80, 0xA0, 0xFF]);
    if fields.text.is_empty() {
        fields.text.push(byte);
    } else {
        let at = random.below(fields.text.len() as u32) as usize;
        fields.text[at] = byte;
    }
}

/// A form damaged once in each place and way: lines, names, values, ends of lines.
pub fn damaged_forms(form: &[u8]) -> Vec<Vec<u8>> {
    let lines: Vec<&[u8]> = form.split_inclusive(|&byte| byte == b'\n').collect();
    let mut forms = whole_damages(form, &lines);
    for at in 0..lines.len() {
        forms.extend(line_damages(&lines, at));
        for line in other_lines(lines[at]) {
            let mut lines = lines.clone();
            lines[at] = &line;
            forms.push(lines.concat());
        }
    }
    forms
}

/// What concerns the whole form.
fn whole_damages(form: &[u8], lines: &[&[u8]]) -> Vec<Vec<u8>> {
    let before_last = &form[..form.len().saturating_sub(1)];
    let mut forms = vec![
        Vec::new(),
        before_last.to_vec(),
        [before_last, b"\r\n"].concat(),
        [before_last, b"\r"].concat(),
        form.repeat(2),
        form.to_ascii_uppercase(),
        lines.iter().rev().copied().collect::<Vec<_>>().concat(),
    ];
    let ends: [&[u8]; 3] = [b"\r\n", b"\r", b"\n\n"];
    for end in ends {
        let mut other = Vec::new();
        for &byte in form {
            match byte {
                b'\n' => other.extend_from_slice(end),
                _ => other.push(byte),
            }
        }
        forms.push(other);
    }
    let added: [&[u8]; 7] = [b"\n", b" ", b"\0", b"=", b"=\n", b"text=\n", b"length=0\n"];
    for piece in added {
        forms.push([form, piece].concat());
        forms.push([piece, form].concat());
    }
    forms
}

/// One line dropped, doubled, swapped with the next, set apart, or with another end.
fn line_damages(lines: &[&[u8]], at: usize) -> Vec<Vec<u8>> {
    let (before, rest) = lines.split_at(at);
    let (line, after) = (rest[0], &rest[1..]);
    let with = |pieces: &[&[u8]]| [before, pieces, after].concat().concat();
    let mut forms = vec![
        with(&[]),
        with(&[line, line]),
        with(&[line, b"\n"]),
        with(&[b"\n", line]),
        with(&[b"parts=1\n", line]),
        with(&[b"point=1 0\n", line]),
        with(&[b"resolution=60\n", line]),
        with(&[&line[..line.len().saturating_sub(1)], b"\r\n"]),
        with(&[&line[..line.len().saturating_sub(1)]]),
        with(&[b" ", line]),
    ];
    if at + 1 < lines.len() {
        let mut lines = lines.to_vec();
        lines.swap(at, at + 1);
        forms.push(lines.concat());
    }
    forms
}

/// A line with another name or another value.
fn other_lines(line: &[u8]) -> Vec<Vec<u8>> {
    let line = line.strip_suffix(b"\n").unwrap_or(line);
    let at = line.iter().position(|&byte| byte == b'=').unwrap_or(0);
    let (name, value) = (&line[..at], &line[at + 1..]);
    let with = |pieces: &[&[u8]]| [pieces, &[b"\n"]].concat().concat();
    let mut lines = vec![
        with(&[&name.to_ascii_uppercase(), b"=", value]),
        with(&[name, b" =", value]),
        with(&[name, b":", value]),
        with(&[name, b"==", value]),
        with(&[name, value]),
        with(&[name, b"s=", value]),
        with(&[&name[1..], b"=", value]),
    ];
    for other in other_values(value) {
        lines.push(with(&[name, b"=", &other]));
    }
    let mut sides = value.splitn(2, |&byte| byte == b' ');
    if let (b"point", Some(first), Some(second)) = (name, sides.next(), sides.next()) {
        for other in other_values(first) {
            lines.push(with(&[name, b"=", &other, b" ", second]));
        }
        for other in other_values(second) {
            lines.push(with(&[name, b"=", first, b" ", &other]));
        }
        let between: [&[u8]; 6] = [b"", b"  ", b"\t", b",", b" \t", b" 0 "];
        lines.extend(between.map(|between| with(&[name, b"=", first, between, second])));
    }
    lines
}

/// Numbers on the edges of the fields, dates and identifiers.
const OTHERS: [&str; 60] = [
    "",
    "0",
    "1",
    "2",
    "3",
    "4",
    "5",
    "6",
    "7",
    "8",
    "9",
    "10",
    "11",
    "15",
    "16",
    "60",
    "64",
    "65",
    "100",
    "101",
    "256",
    "257",
    "258",
    "999",
    "1000",
    "1440",
    "9999",
    "10000",
    "65535",
    "65536",
    "65537",
    "26298719",
    "26298720",
    "99999999",
    "100000000",
    "1000000000",
    "2147483647",
    "2147483648",
    "4294967295",
    "4294967296",
    "4294967297",
    "9999999999",
    "18446744073709551617",
    "-0",
    "-1",
    "-2147483648",
    "-2147483649",
    "-4294967295",
    "00",
    "01",
    "--1",
    "1e3",
    "0x1",
    "2026-03-01 24:00",
    "2026-02-29 00:00",
    "2026-03-01T00:00",
    "2050-01-01 00:00",
    "2049-12-31 23:59",
    "00000000000000000000000000000000",
    "0123456789ABCDEF0123456789abcdef",
];

/// A value spelled otherwise, and values on the edges of all the fields.
fn other_values(value: &[u8]) -> Vec<Vec<u8>> {
    let mut values: Vec<Vec<u8>> = OTHERS.iter().map(|text| text.as_bytes().to_vec()).collect();
    let before: [&[u8]; 7] = [b"0", b"00000000", b"+", b"-", b" ", b"\t", b"="];
    values.extend(before.map(|piece| [piece, value].concat()));
    let after: [&[u8]; 8] = [b"0", b" ", b"\t", b".0", b"a", b"\0", b"\r", b":00"];
    values.extend(after.map(|piece| [value, piece].concat()));
    values.push(value.to_ascii_uppercase());
    values.push(value.to_ascii_lowercase());
    values.push(value.iter().rev().copied().collect());
    if let [first, middle @ .., last] = value {
        values.push([middle, &[*last]].concat());
        values.push([&[*first], middle].concat());
        values.push(middle.to_vec());
    }
    values
}

/// A form with points on each resolution, the positions kept, and where they can be, at the same
/// minutes; with its positions moved; with more points.
pub fn regridded_forms(form: &[u8]) -> Vec<Vec<u8>> {
    let text = String::from_utf8_lossy(form);
    let Some((head, rest)) = text.split_once("\nresolution=") else {
        return Vec::new();
    };
    let Some((points, text)) = rest.split_once("\ntext=") else {
        return Vec::new();
    };
    let mut values = points.split("\npoint=");
    let resolution = number(values.next());
    let points: Vec<Point> = values
        .filter_map(|value| value.split_once(' '))
        .map(|(position, power)| (number(Some(position)), power))
        .collect();
    let write = |(resolution, points): (u32, Vec<Point>)| {
        let lines = points
            .iter()
            .map(|(position, power)| format!("\npoint={position} {power}"));
        let points: String = lines.collect();
        format!("{head}\nresolution={resolution}{points}\ntext={text}").into_bytes()
    };
    let grids = grids(resolution, &points).into_iter();
    grids.map(write).collect()
}

/// Position and power.
type Point<'a> = (u32, &'a str);

/// Other resolutions and points.
fn grids<'a>(resolution: u32, points: &[Point<'a>]) -> Vec<(u32, Vec<Point<'a>>)> {
    let moved = |place: &dyn Fn(u32) -> u32| -> Vec<Point<'a>> {
        let points = points.iter();
        points
            .map(|(position, power)| (place(*position), *power))
            .collect()
    };
    let power = points.last().map_or("0", |point| point.1);
    let many = |count: u32| (1..=count).map(|position| (position, power)).collect();
    let mut grids = vec![(resolution, many(100)), (resolution, many(101))];
    for other in RESOLUTIONS.into_iter().chain([0, 2, 10, 30, 120, 14_400]) {
        grids.push((other, points.to_vec()));
        let same_minute = |position: u32| (position - 1) * resolution / other.max(1) + 1;
        grids.push((other, moved(&same_minute)));
    }
    for by in [1, 2, 3, 5, 24] {
        grids.push((resolution, moved(&|position| position + by)));
        grids.push((resolution, moved(&|position| (position - 1) * by + 1)));
    }
    grids
}

fn number(text: Option<&str>) -> u32 {
    text.and_then(|text| text.parse().ok()).unwrap_or(1)
}
