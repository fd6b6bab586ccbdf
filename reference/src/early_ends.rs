//! What became of an early end, read from the report and the block before it: what tests and
//! comparisons count.

use crate::codes::{Mark, Operation, RecordType, UnitKind};
use crate::cover_faults::cover_fault;
use crate::questions::{
    question_16_derating_limit, question_17_level_limits, question_4_fields_in_range, Case,
};
use crate::record::{Record, MAX_PARTS};
use crate::register::{Block, BLOCK_SIZE, SLOT_COUNT};
use crate::report::{head, question_2_report_whole, WholeReport};
use crate::warnings::level_warnings;

/// What is to occur. A reason for a refusal is counted where it is the only one.
pub const KINDS: [&str; 48] = [
    "early end 0: W1, positive derating",
    "early end 0: W1, negative derating",
    "early end 0: W1, forced work",
    "early end 0: M1, positive derating",
    "early end 0: M1, negative derating",
    "early end 0: M1, forced work",
    "early end 0: Z1, positive derating",
    "early end 0: Z1, negative derating",
    "early end 0: Z1, forced work",
    "early end 0: A, positive derating",
    "early end 0: A, negative derating",
    END_OFF_QUARTER,
    PART_END_OFF_QUARTER,
    END_AT_STAMP,
    ONE_MINUTE,
    HUNDRED_PARTS,
    PASSES_16,
    PASSES_17,
    UNDER_STOP,
    LEVEL_ABOVE,
    LEVEL_BELOW,
    FULL_BLOCK,
    WITH_DEAD_SLOTS,
    MARK_0,
    MARK_ABOVE_2,
    ON_EVENT,
    ON_WITHDRAWAL,
    ANSWER_5,
    ON_CREATION,
    ON_STOP,
    ON_OFF_GRID,
    BESIDE_PLANNED_START,
    END_AFTER_STAMP,
    STORED_END,
    END_NOT_AFTER_START,
    PART_PAST_END,
    LIST_SHORT,
    LIST_MISSING,
    GAP_OR_OVERLAP,
    ANSWER_9,
    ANSWER_10,
    RECORD_GONE,
    MRID_UNKNOWN,
    REVISION_NOT_GREATER,
    OTHER_TYPE,
    OTHER_DIRECTION,
    SLOT_PLANNED,
    OTHER_START,
];

/// What can't occur: 7 and 15 to 17 are passed over, a creation is refused before 11 and 19, no
/// record of types 2 to 4 moves a state.
pub const NEVER: [&str; 8] = [
    "early end answered 7",
    "early end answered 11",
    "early end answered 15",
    "early end answered 16",
    "early end answered 17",
    "early end answered 18",
    "early end answered 19",
    WARNED,
];

const WARNED: &str = "early end with warnings";

const END_OFF_QUARTER: &str = "early end 0: end off the quarter hour";
const PART_END_OFF_QUARTER: &str = "early end 0: part end off the quarter hour";
const END_AT_STAMP: &str = "early end 0: end at the stamp";
const ONE_MINUTE: &str = "early end 0: one minute";
const HUNDRED_PARTS: &str = "early end 0: 100 parts";
const PASSES_16: &str = "early end 0: power that 16 refuses";
const PASSES_17: &str = "early end 0: level that 17 refuses";
const UNDER_STOP: &str = "early end 0: under a stop";
const LEVEL_ABOVE: &str = "early end 0: level above Pmax";
const LEVEL_BELOW: &str = "early end 0: level below Pmin";
const FULL_BLOCK: &str = "early end 0: eight live slots";
const WITH_DEAD_SLOTS: &str = "early end 0: dead slots go as well";
const MARK_0: &str = "early end 4: end mark 0";
const MARK_ABOVE_2: &str = "early end 4: end mark 3 and above";
const ON_EVENT: &str = "early end 4: on an event";
const ON_WITHDRAWAL: &str = "early end 4: on a withdrawal";
const ANSWER_5: &str = "early end 5";
const ON_CREATION: &str = "early end 6: on a creation";
const ON_STOP: &str = "early end 6: on a stop";
const ON_OFF_GRID: &str = "early end 6: on off-grid work";
const BESIDE_PLANNED_START: &str = "early end 6: beside start mark 1";
const END_AFTER_STAMP: &str = "early end 6: end after the stamp";
const STORED_END: &str = "early end 6: the stored end";
const END_NOT_AFTER_START: &str = "early end 6: end not after the start";
const PART_PAST_END: &str = "early end 8: part past the shortened end";
const LIST_SHORT: &str = "early end 8: list short of the end";
const LIST_MISSING: &str = "early end 8: list missing";
const GAP_OR_OVERLAP: &str = "early end 8: gap or overlap";
const ANSWER_9: &str = "early end 9";
const ANSWER_10: &str = "early end 10";
const RECORD_GONE: &str = "early end 12: record gone";
const MRID_UNKNOWN: &str = "early end 12: identifier in no slot";
const REVISION_NOT_GREATER: &str = "early end 13: ordinal not greater";
const OTHER_TYPE: &str = "early end 13: another type";
const OTHER_DIRECTION: &str = "early end 13: another direction";
const SLOT_PLANNED: &str = "early end 14: planned in its slot";
const OTHER_START: &str = "early end 14: another start";

/// Kinds, and of which a report was.
type Kinds<const COUNT: usize> = [(&'static str, bool); COUNT];

/// The kinds that a report with an end mark other than 1 was of, by the register before it and by
/// the number and the warnings that it got; none of another report.
pub fn early_end_kinds(
    before: &[u8],
    report: &[u8],
    (number, warnings): (u32, u32),
) -> Vec<&'static str> {
    let stated = question_2_report_whole(report)
        .filter(|stated| stated.byte(head::END_MARK) != Mark::Planned as u8);
    match (stated, number) {
        (None, _) | (_, 1..=3) => Vec::new(),
        (Some(stated), 4) => alone(out_of_range(stated)),
        (Some(stated), _) => in_range(before, stated, number, warnings).unwrap_or_default(),
    }
}

fn occurring<const COUNT: usize>(kinds: Kinds<COUNT>) -> Vec<&'static str> {
    let occurring = kinds.into_iter().filter(|&(_, occurs)| occurs);
    occurring.map(|(kind, _)| kind).collect()
}

/// The reason, if there is one only.
fn alone<const COUNT: usize>(reasons: Kinds<COUNT>) -> Vec<&'static str> {
    let mut reasons = occurring(reasons);
    if reasons.len() > 1 {
        reasons.clear();
    }
    reasons
}

/// Question 4, of a report whose other fields are in range.
fn out_of_range(stated: WholeReport) -> Kinds<4> {
    let mut planned = stated.bytes().to_vec();
    planned[head::END_MARK] = Mark::Planned as u8;
    let alone = question_2_report_whole(&planned)
        .and_then(question_4_fields_in_range)
        .is_some();
    let executed = alone && stated.byte(head::END_MARK) == Mark::Actual as u8;
    let is = |at, code| stated.byte(at) == code;
    [
        (MARK_0, alone && is(head::END_MARK, 0)),
        (MARK_ABOVE_2, alone && stated.byte(head::END_MARK) > 2),
        (ON_EVENT, executed && is(head::TYPE, 6)),
        (ON_WITHDRAWAL, executed && is(head::OPERATION, 3)),
    ]
}

fn in_range(
    before: &[u8],
    stated: WholeReport,
    number: u32,
    warnings: u32,
) -> Option<Vec<&'static str>> {
    let report = question_4_fields_in_range(stated)?;
    let block = before
        .chunks(BLOCK_SIZE)
        .nth(usize::from(stated.unit()) - 1)?;
    let block = Block::read(block)?;
    let case = Case::new(&block, report);
    Some(match number {
        0 => accepted(&block, &case, warnings),
        5 => vec![ANSWER_5],
        6 => dishonest(&case),
        8 => uncovered(&stated),
        9 => vec![ANSWER_9],
        10 => vec![ANSWER_10],
        12 => alone(not_live(&block, &case)),
        13 => alone(of_another(&case)),
        14 => alone(not_begun(&case)),
        _ => {
            let answered = format!("early end answered {number}");
            let never = NEVER.into_iter().filter(|never| *never == answered);
            never.collect()
        }
    })
}

/// The live record with the report's identifier.
fn stored<'c>(case: &'c Case) -> Option<&'c Record<'c>> {
    case.named_slot().and_then(|slot| case.live[slot])
}

/// Question 6.
fn dishonest(case: &Case) -> Vec<&'static str> {
    let record = &case.report.record;
    let (start, end) = (record.period.start, record.period.end);
    let mut reasons = alone([
        (ON_CREATION, case.report.operation == Operation::Create),
        (ON_STOP, record.record_type == RecordType::Outage),
        (ON_OFF_GRID, record.record_type == RecordType::OffGrid),
        (BESIDE_PLANNED_START, !record.begun()),
        (END_AFTER_STAMP, end > record.stamp),
        (END_NOT_AFTER_START, start >= end),
    ]);
    let as_stored = stored(case).is_some_and(|stored| stored.period == record.period);
    if as_stored && reasons == [END_AFTER_STAMP] {
        reasons.push(STORED_END);
    }
    reasons
}

/// Question 8.
fn uncovered(stated: &WholeReport) -> Vec<&'static str> {
    let kind = cover_fault(stated).and_then(|fault| fault.kind);
    let is = |words| kind.is_some_and(|kind| kind.contains(words));
    occurring([
        (PART_PAST_END, is("end past the period's")),
        (LIST_SHORT, is("stops short")),
        (LIST_MISSING, is("list missing")),
        (GAP_OR_OVERLAP, is("gap") || is("overlap")),
    ])
}

/// Question 12.
fn not_live(block: &Block, case: &Case) -> Kinds<2> {
    let mut slots = block.slots.iter().flatten();
    let gone = slots.any(|record| record.mrid == case.report.record.mrid);
    [(RECORD_GONE, gone), (MRID_UNKNOWN, !gone)]
}

/// Question 13.
fn of_another(case: &Case) -> Kinds<3> {
    let record = &case.report.record;
    let differs = |test: fn(&Record, &Record) -> bool| {
        stored(case).is_some_and(|stored| test(record, stored))
    };
    [
        (
            REVISION_NOT_GREATER,
            differs(|record, stored| record.revision <= stored.revision),
        ),
        (
            OTHER_TYPE,
            differs(|record, stored| record.record_type != stored.record_type),
        ),
        (
            OTHER_DIRECTION,
            differs(|record, stored| record.direction != stored.direction),
        ),
    ]
}

/// Question 14.
fn not_begun(case: &Case) -> Kinds<2> {
    let start = case.report.record.period.start;
    let stored = stored(case);
    [
        (SLOT_PLANNED, stored.is_some_and(|stored| !stored.begun())),
        (
            OTHER_START,
            stored.is_some_and(|stored| stored.period.start != start),
        ),
    ]
}

fn accepted(block: &Block, case: &Case, warnings: u32) -> Vec<&'static str> {
    let pair = pair(case.unit.kind, case.report.record.record_type);
    let warned = (warnings != 0).then_some(WARNED);
    pair.into_iter()
        .chain(warned)
        .chain(occurring(times(case)))
        .chain(occurring(passed_over(block, case)))
        .chain(occurring(slots(case)))
        .collect()
}

/// Kind and type.
fn pair(kind: UnitKind, record_type: RecordType) -> Option<&'static str> {
    let row = match kind {
        UnitKind::W1 => 0,
        UnitKind::M1 => 3,
        UnitKind::Z1 => 6,
        UnitKind::A => 9,
    };
    let column = match record_type {
        RecordType::PositiveDerating => 0,
        RecordType::NegativeDerating => 1,
        RecordType::MustRun if kind != UnitKind::A => 2,
        _ => return None,
    };
    Some(KINDS[row + column])
}

fn times(case: &Case) -> Kinds<5> {
    let record = &case.report.record;
    let (start, end) = (record.period.start, record.period.end);
    let mut inner = record.parts.iter().filter(|part| part.end != end);
    [
        (END_OFF_QUARTER, !end.on_quarter_hour()),
        (
            PART_END_OFF_QUARTER,
            inner.any(|part| !part.end.on_quarter_hour()),
        ),
        (END_AT_STAMP, end == record.stamp),
        (ONE_MINUTE, end.0 == start.0 + 1),
        (HUNDRED_PARTS, record.parts.len() == MAX_PARTS),
    ]
}

/// What an ordinary change would be refused or warned for.
fn passed_over(block: &Block, case: &Case) -> Kinds<5> {
    let record = &case.report.record;
    let under_stop = case.others().any(|(_, other)| {
        other.record_type == RecordType::Outage
            && other.direction.meets(record.direction)
            && other.period.overlaps(record.period)
    });
    let mut changed = *block;
    for slot in 0..SLOT_COUNT {
        changed.slots[slot] = case.live[slot].copied();
    }
    if let Some(slot) = case.named_slot() {
        changed.slots[slot] = Some(*record);
    }
    let (above, below) = level_warnings(record, &changed);
    let refused_by_16 = !question_16_derating_limit(case);
    let refused_by_17 = !refused_by_16 && !question_17_level_limits(case);
    [
        (PASSES_16, refused_by_16),
        (PASSES_17, refused_by_17),
        (UNDER_STOP, under_stop),
        (LEVEL_ABOVE, above),
        (LEVEL_BELOW, below),
    ]
}

fn slots(case: &Case) -> Kinds<2> {
    let live = case.live.iter().flatten().count();
    [
        (FULL_BLOCK, live == SLOT_COUNT),
        (WITH_DEAD_SLOTS, case.dead.contains(&true)),
    ]
}
