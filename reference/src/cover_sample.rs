//! The sample `cover`: a derating of ninety parts, put right after an 8, and other lists that break
//! cover.

use crate::codes::{Operation, RecordType, UnitKind, UnitState};
use crate::compose::{EntryFields, ReportFields};
use crate::quantities::QUARTER;
use crate::sample::{step, Step};
use crate::worked_examples::D;

const PARTS: u32 = 90;

/// The day after D.
const START: u32 = D + 24 * 60;

/// Part 57 in a list that counts from 0.
const PART_57: usize = 56;

/// Unit 1 works and is owner 7's.
fn roster() -> Vec<u8> {
    let working = UnitState::InOperation as u8;
    let entry = EntryFields::generating(7, UnitKind::W1, working, D, 200_000, 80_000);
    entry.bytes().to_vec()
}

/// The roster, then the reports.
pub fn stream() -> Vec<u8> {
    let reports = steps().into_iter().flat_map(|step| step.report.bytes());
    roster().into_iter().chain(reports).collect()
}

/// The reports in order, a minute from stamp to stamp.
pub fn steps() -> Vec<Step> {
    let mut steps = vec![
        step(
            "a derating of ninety parts, the 57th starting a minute late",
            derating_with(|report| report.parts[PART_57].start += 1),
            (8, 0, 57),
        ),
        step(
            "the same with its 57th part put right",
            derating(),
            (0, 0, 0),
        ),
    ];
    steps.extend(broken_changes());
    steps.extend(lists_where_none_may_be());
    for (step, minute) in steps.iter_mut().zip(D + 18 * 60..) {
        step.report.stamp = minute;
    }
    steps
}

/// Ninety quarter hours from midnight to 22:30, 100 kW more in each.
fn derating() -> ReportFields {
    let quarters: Vec<(u32, i32)> = (1..=PARTS)
        .map(|part| (START + QUARTER * part, 100 * part as i32))
        .collect();
    ReportFields::creation(1, 7, RecordType::PositiveDerating)
        .over(START, START + QUARTER * PARTS)
        .stepping(&quarters)
        .named(1)
}

fn derating_with(change: impl Fn(&mut ReportFields)) -> ReportFields {
    let mut report = derating();
    change(&mut report);
    report
}

/// A change of the derating, which would be its second version.
fn changed(change: impl Fn(&mut ReportFields)) -> ReportFields {
    ReportFields {
        operation: Operation::Update as u8,
        revision: 2,
        ..derating_with(change)
    }
}

fn broken_changes() -> Vec<Step> {
    vec![
        step(
            "a change of it, the 57th part starting a minute early",
            changed(|report| report.parts[PART_57].start -= 1),
            (8, 0, 57),
        ),
        step(
            "the 57th part ending where it starts",
            changed(|report| report.parts[PART_57].end = report.parts[PART_57].start),
            (8, 0, 57),
        ),
        step(
            "the 57th part ending a minute late: the quarter hours are asked first",
            changed(|report| report.parts[PART_57].end += 1),
            (7, 0, 0),
        ),
        step(
            "the first part starting a quarter hour before the derating",
            changed(|report| report.parts[0].start -= QUARTER),
            (8, 0, 1),
        ),
        step(
            "without the last part: the list stops short, the 89th is its last",
            changed(|report| report.parts.truncate(89)),
            (8, 0, 89),
        ),
        step(
            "the derating a quarter hour shorter: the 90th part is left over",
            changed(|report| report.end -= QUARTER),
            (8, 0, 90),
        ),
        step(
            "without parts: there is no part to name",
            changed(|report| report.parts.clear()),
            (8, 0, 0),
        ),
    ]
}

fn lists_where_none_may_be() -> Vec<Step> {
    let stop = ReportFields::creation(1, 7, RecordType::Outage)
        .qualified(1)
        .over(START, START + QUARTER)
        .at(0)
        .named(2);
    let withdrawal = |parts| ReportFields {
        operation: Operation::Withdraw as u8,
        parts,
        ..changed(|_| ())
    };
    vec![
        step("a stop with a part, where none may be", stop, (8, 0, 0)),
        step(
            "the derating withdrawn, its ninety parts sent along",
            withdrawal(derating().parts),
            (8, 0, 0),
        ),
        step(
            "the derating withdrawn without them",
            withdrawal(Vec::new()),
            (0, 0, 0),
        ),
    ]
}
