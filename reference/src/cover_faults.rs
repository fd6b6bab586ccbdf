//! How a report's part list breaks cover, read from the report part by part: what tests and
//! comparisons count.

use crate::codes::{Operation, RecordType};
use crate::fields::u32_at;
use crate::record::MAX_PARTS;
use crate::report::{head, StatedPart, WholeReport};

/// The ways, each at the first, at a middle and at the hundredth part, and where they name 0.
pub const KINDS: [&str; 19] = [
    "8: gap at part 1",
    "8: gap at part 2 to 99",
    "8: gap at part 100",
    "8: overlap at part 1",
    "8: overlap at part 2 to 99",
    "8: overlap at part 100",
    "8: start not before end at part 1",
    "8: start not before end at part 2 to 99",
    "8: start not before end at part 100",
    "8: end past the period's at part 1",
    "8: end past the period's at part 2 to 99",
    "8: end past the period's at part 100",
    "8: list of 1 part stops short",
    "8: list of 2 to 99 parts stops short",
    "8: list of 100 parts stops short",
    MISSING,
    "8: list of 1 part where none may be",
    "8: list of 2 to 99 parts where none may be",
    "8: list of 100 parts where none may be",
];

const MISSING: &str = "8: list missing";
const PLACES: usize = 3;
const STOPS_SHORT: usize = 4;
const NONE_MAY_BE: usize = 16;

/// What is wrong with a list.
#[derive(Clone, Copy, Debug, PartialEq, Eq)]
pub struct CoverFault {
    /// One of the kinds; None where the named part is wrong in more than one way.
    pub kind: Option<&'static str>,
    /// The part that is named, from 1, or 0.
    pub part: usize,
}

/// The fault of a whole report's list, if it has one.
pub fn cover_fault(report: &WholeReport) -> Option<CoverFault> {
    let parts: Vec<StatedPart> = report.parts().collect();
    let count = parts.len();
    let has_parts = RecordType::from_code(report.byte(head::TYPE))
        .is_some_and(|record_type| record_type.has_parts());
    let withdraws = report.byte(head::OPERATION) == Operation::Withdraw as u8;
    let fault = |kind, part| Some(CoverFault { kind, part });
    match (has_parts && !withdraws, count) {
        (true, 0) => fault(Some(MISSING), 0),
        (true, _) => list_fault(period(report), &parts),
        (false, 0) => None,
        (false, _) => fault(Some(KINDS[NONE_MAY_BE + place(count)]), 0),
    }
}

fn period(report: &WholeReport) -> (u32, u32) {
    let head = report.bytes();
    (u32_at(head, head::START), u32_at(head, head::END))
}

/// First, middle or hundredth.
fn place(part: usize) -> usize {
    match part {
        1 => 0,
        MAX_PARTS => 2,
        _ => 1,
    }
}

/// In which of the first four ways a part breaks cover, the parts before it having none.
fn wrong_ways((start, end): (u32, u32), parts: &[StatedPart], index: usize) -> Vec<usize> {
    let due = if index == 0 {
        start
    } else {
        parts[index - 1].end
    };
    let part = &parts[index];
    let wrong = [
        part.start > due,
        part.start < due,
        part.start >= part.end,
        part.end > end,
    ];
    (0..wrong.len()).filter(|&way| wrong[way]).collect()
}

fn list_fault(period: (u32, u32), parts: &[StatedPart]) -> Option<CoverFault> {
    let wrong = (0..parts.len())
        .map(|index| (index + 1, wrong_ways(period, parts, index)))
        .find(|(_, ways)| !ways.is_empty());
    let stops_short = parts.last().is_none_or(|last| last.end != period.1);
    let (part, ways) = match wrong {
        Some(wrong) => wrong,
        None if stops_short => (parts.len(), vec![STOPS_SHORT]),
        None => return None,
    };
    let alone = ways.first().filter(|_| ways.len() == 1);
    Some(CoverFault {
        kind: alone.map(|way| KINDS[way * PLACES + place(part)]),
        part,
    })
}
