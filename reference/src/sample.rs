//! Named samples: streams for the log, and registers.

use crate::codes::RecordType;
use crate::compose::ReportFields;
use crate::cover_sample;
use crate::damage;
use crate::evening;
use crate::processor::answer;
use crate::quantities::LAST_MINUTE;
use crate::register::BLOCK_SIZE;
use crate::remark::STANDING;
use crate::report::MAX_TEXT;
use crate::roster::ENTRY_SIZE;
use crate::setup::set_up;
use crate::shift_log::LOG_ENTRIES;
use crate::worked_examples::{
    bench_findings, early_ends, examples, roster_a, roster_a_reports, Example, D,
};

/// A name and its bytes.
pub struct Sample {
    /// The name.
    pub name: String,
    /// A stream for the log, or a register.
    pub bytes: Vec<u8>,
}

/// A report of a sample that is explained line by line.
pub struct Step {
    /// In words.
    pub what: &'static str,
    /// The report.
    pub report: ReportFields,
    /// Number, warnings and part.
    pub answer: (u8, u8, u8),
}

pub(crate) fn step(what: &'static str, report: ReportFields, answer: (u8, u8, u8)) -> Step {
    Step {
        what,
        report,
        answer,
    }
}

/// All samples, those of roster A first.
pub fn samples() -> Vec<Sample> {
    let fixed = [
        ("roster-a-log", stream(&roster_a_reports())),
        ("evening", evening::stream()),
        ("cover", cover_sample::stream()),
        ("roster-a", roster_a()),
        ("register-a", register_after(&[])),
        ("register-a-after", register_after(&roster_a_reports())),
        ("register-all-kinds", damage::base()),
        ("eight-entries", entries(LOG_ENTRIES)),
        ("nine-entries", entries(LOG_ENTRIES + 1)),
        ("entry-cut-short", cut(&roster_a(), 1)),
        ("bad-roster", bad_roster()),
        ("report-cut-short", cut(&stream(&roster_a_reports()), 1)),
        ("stamp-out-of-range", stream(&[late_stamp()])),
        ("hundred-parts", stream(&hundred_parts())),
        ("texts", stream(&texts())),
    ];
    let fixed = fixed.into_iter().map(|(name, bytes)| Sample {
        name: name.to_string(),
        bytes,
    });
    let worked = examples().into_iter().map(|example| ("example", example));
    let found = bench_findings()
        .into_iter()
        .map(|example| ("finding", example));
    let ended = early_ends()
        .into_iter()
        .map(|example| ("early-end", example));
    fixed
        .chain(
            worked
                .chain(found)
                .chain(ended)
                .map(|(group, example)| of_example(group, &example)),
        )
        .collect()
}

/// The bytes of a name.
pub fn sample(name: &str) -> Option<Vec<u8>> {
    let mut samples = samples().into_iter();
    samples
        .find(|sample| sample.name == name)
        .map(|sample| sample.bytes)
}

fn of_example(group: &str, example: &Example) -> Sample {
    Sample {
        name: format!("{group}-{}", example.name),
        bytes: stream(&example.reports),
    }
}

fn stream(reports: &[Vec<u8>]) -> Vec<u8> {
    [roster_a(), reports.concat()].concat()
}

fn register_after(reports: &[Vec<u8>]) -> Vec<u8> {
    let roster = roster_a();
    let mut register = vec![0; roster.len() / ENTRY_SIZE * BLOCK_SIZE];
    set_up(&roster, &mut register);
    for report in reports {
        answer(&mut register, report);
    }
    register
}

/// Roster A's units in turn, then its reports.
fn entries(count: usize) -> Vec<u8> {
    let roster = roster_a().repeat(count.div_ceil(2));
    [&roster[..count * ENTRY_SIZE], &roster_a_reports().concat()].concat()
}

fn cut(bytes: &[u8], by: usize) -> Vec<u8> {
    bytes[..bytes.len().saturating_sub(by)].to_vec()
}

/// Roster A with owner 0 in the second entry.
fn bad_roster() -> Vec<u8> {
    let mut roster = roster_a();
    roster[ENTRY_SIZE + 2..ENTRY_SIZE + 4].fill(0);
    roster
}

fn late_stamp() -> Vec<u8> {
    ReportFields::creation(1, 7, RecordType::PositiveDerating)
        .over(D + 60, D + 120)
        .at(20_000)
        .stamped(LAST_MINUTE.0 + 1)
        .bytes()
}

/// A derating and forced work of a hundred quarter hours each.
fn hundred_parts() -> Vec<Vec<u8>> {
    let steps = |power: fn(u32) -> u32| -> Vec<(u32, i32)> {
        (1..=100)
            .map(|part| (D + 60 + 15 * part, power(part) as i32))
            .collect()
    };
    let record = |record_type, mrid, steps: &[(u32, i32)]| {
        ReportFields::creation(1, 7, record_type)
            .over(D + 60, D + 60 + 1_500)
            .stepping(steps)
            .stamped(D + 10)
            .named(mrid)
            .bytes()
    };
    let deratings = steps(|part| 100 * part);
    let levels = steps(|part| 200_000 - 100 * part);
    vec![
        record(RecordType::PositiveDerating, 1, &deratings),
        record(RecordType::MustRun, 2, &levels),
    ]
}

/// Texts of every byte, of 1 and of 200, one that looks like the standing remark, and none.
fn texts() -> Vec<Vec<u8>> {
    let texts: [Vec<u8>; 7] = [
        (0x00..=0x7F).collect(),
        (0x80..=0xFF).collect(),
        vec![b'\\'],
        b" | feed pump B \\x0a".to_vec(),
        STANDING.to_vec(),
        vec![b'\n'; MAX_TEXT],
        Vec::new(),
    ];
    let report = ReportFields::creation(1, 7, RecordType::PositiveDerating)
        .over(D + 60, D + 120)
        .at(20_000)
        .stamped(D + 10);
    let with_text = |text| ReportFields {
        text,
        ..report.clone()
    };
    texts.map(|text| with_text(text).bytes()).to_vec()
}
