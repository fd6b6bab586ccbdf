//! Questions 4 to 19, one function to a question, in the paper's order.
//!
//! Question 1 is in `register`, question 2 in `report`, question 3 in `processor`.

use crate::codes::{Direction, EventCode, Operation, RecordType, UnitKind, UnitState};
use crate::codes::{Mark, RESERVE_SHUTDOWN};
use crate::fields::all_zero;
use crate::minutes::{at_every_change_point, in_every_minute, InMinute};
use crate::processor::Answer;
use crate::quantities::{Kilowatt, Minute, Period};
use crate::record::Record;
use crate::register::{Block, SLOT_COUNT};
use crate::report::{head, Report, WholeReport};
use crate::unit::{PowerRange, Row, Unit};

/// A report on a unit, and what the unit's block holds at its stamp.
pub struct Case<'b, 'r> {
    /// Owner, kind, row, powers.
    pub unit: Unit,
    /// The unit's last stamp.
    pub last_stamp: Minute,
    /// "a slot is live if its end > stamp; others count as free": None is free or dead.
    pub live: [Option<&'b Record<'b>>; SLOT_COUNT],
    /// Used slots that are not live.
    pub dead: [bool; SLOT_COUNT],
    /// The report.
    pub report: Report<'r>,
    /// The live slot with the report's identifier.
    same_mrid: Option<usize>,
}

type Question = fn(&Case) -> bool;

/// From 5 on; the first "no" is the refusal.
const QUESTIONS: [(u8, Question); 15] = [
    (5, question_5_kind),
    (6, question_6_times),
    (7, question_7_quarter_hours),
    (8, question_8_cover),
    (9, question_9_powers),
    (10, question_10_stamp),
    (11, question_11_mrid_unused),
    (12, question_12_mrid_known),
    (13, question_13_same_record),
    (14, question_14_begun),
    (15, question_15_overlap),
    (16, question_16_derating_limit),
    (17, question_17_level_limits),
    (18, question_18_transition),
    (19, question_19_free_slot),
];

/// Questions 4 to 19 of a report on a unit's block: the case they agree to, or the refusal.
pub fn ask<'b, 'r>(block: &'b Block<'b>, report: WholeReport<'r>) -> Result<Case<'b, 'r>, Answer> {
    let report = question_4_fields_in_range(report).ok_or(Answer::refusal(4))?;
    let case = Case::new(block, report);
    for (number, question) in QUESTIONS {
        if case.asks(number) && !question(&case) {
            return Err(match cover_verdict(&case.report) {
                Err(part) if number == 8 => Answer::refusal_of_part(part),
                _ => Answer::refusal(number),
            });
        }
    }
    Ok(case)
}

impl<'b, 'r> Case<'b, 'r> {
    /// The case of a report on a block.
    pub fn new(block: &'b Block<'b>, report: Report<'r>) -> Case<'b, 'r> {
        let Record { stamp, mrid, .. } = report.record;
        let mut case = Case {
            unit: block.unit,
            last_stamp: block.last_stamp,
            live: [None; SLOT_COUNT],
            dead: [false; SLOT_COUNT],
            report,
            same_mrid: None,
        };
        for (index, slot) in block.slots.iter().enumerate() {
            let live = slot.as_ref().filter(|record| record.period.end > stamp);
            case.dead[index] = slot.is_some() && live.is_none();
            case.live[index] = live;
            if live.is_some_and(|record| record.mrid == mrid) {
                case.same_mrid = Some(index);
            }
        }
        case
    }

    /// "A withdrawal skips 6, 7, 9 and 15–19; an event skips 9, 11–17 and 19." Of an early end
    /// "neither its end nor its part ends are held to quarter hours, and the overlap and power
    /// questions 15 to 17 are passed over".
    fn asks(&self, question: u8) -> bool {
        let skipped = match (self.report.operation, self.report.record.record_type) {
            (Operation::Withdraw, _) => matches!(question, 6 | 7 | 9 | 15..=19),
            (_, RecordType::Event) => matches!(question, 9 | 11..=17 | 19),
            _ => self.report.ends_early && matches!(question, 7 | 15..=17),
        };
        !skipped
    }

    fn is_event(&self) -> bool {
        self.report.record.record_type == RecordType::Event
    }

    /// The live slot that the report changes or withdraws.
    pub fn named_slot(&self) -> Option<usize> {
        match self.report.operation {
            Operation::Create => None,
            Operation::Update | Operation::Withdraw => self.same_mrid,
        }
    }

    fn named_record(&self) -> Option<&'b Record<'b>> {
        self.named_slot().and_then(|slot| self.live[slot])
    }

    /// The other live records: "a changed slot counts as the report".
    pub fn others(&self) -> impl Iterator<Item = (usize, &'b Record<'b>)> {
        let named = self.named_slot();
        let live = self.live.into_iter().enumerate();
        live.filter(move |(slot, _)| Some(*slot) != named)
            .filter_map(|(slot, record)| Some((slot, record?)))
    }

    /// "W1, for an event, or a stop or off-grid record that this report begins".
    pub fn changes_state(&self) -> bool {
        let record = &self.report.record;
        let begins = match self.report.operation {
            Operation::Create => record.begun(),
            Operation::Update => {
                record.begun() && self.named_record().is_some_and(|named| !named.begun())
            }
            Operation::Withdraw => false,
        };
        let moves_state = matches!(record.record_type, RecordType::Outage | RecordType::OffGrid);
        self.unit.kind == UnitKind::W1 && (self.is_event() || (moves_state && begins))
    }

    /// Question 15's exception: "both are begun stops and the other started earlier; it then
    /// closes at the new start and leaves (rules 15, 38)".
    fn closes(&self, other: &Record) -> bool {
        let record = &self.report.record;
        record.record_type == RecordType::Outage
            && record.clashes(other)
            && record.begun()
            && other.begun()
            && other.period.start < record.period.start
    }

    /// The live slots that leave: closed, or, at a state change, "every other live begun stop or
    /// off-grid record of the unit".
    pub fn leaving(&self) -> [bool; SLOT_COUNT] {
        let mut leaving = [false; SLOT_COUNT];
        if self.report.operation == Operation::Withdraw {
            return leaving;
        }
        let changes_state = self.changes_state();
        for (slot, other) in self.others() {
            let ends_with_state =
                matches!(other.record_type, RecordType::Outage | RecordType::OffGrid)
                    && other.begun();
            leaving[slot] = self.closes(other) || (changes_state && ends_with_state);
        }
        leaving
    }

    /// Forced work and deratings of the report's direction, the reported record with them.
    fn powers_of_direction(&self) -> impl Iterator<Item = &Record<'_>> {
        let record = &self.report.record;
        self.others()
            .map(|(_, other)| other)
            .filter(|other| other.record_type.has_parts() && other.direction == record.direction)
            .chain([record])
    }

    /// Whether forced work and a derating of one direction share a minute of the reported record.
    fn levels_meet_deratings(&self) -> bool {
        let record = &self.report.record;
        let is_level = |record: &Record| record.record_type == RecordType::MustRun;
        self.powers_of_direction().any(|other| {
            is_level(other) != is_level(record) && other.period.overlaps(record.period)
        })
    }

    fn range(&self) -> PowerRange {
        self.unit.powers.of(self.report.record.direction)
    }
}

/// "Are the fields in range: those above, times (parts' too), ordinal 1–9,999, operation 1 and
/// identifier zero for an event, event code 1–6 as qualification, qualification 0 for types 2–4?"
/// "end mark 2 on an event or a withdrawal is 4". The report with its types, if they are.
pub fn question_4_fields_in_range(stated: WholeReport) -> Option<Report> {
    let operation = Operation::from_code(stated.byte(head::OPERATION))?;
    let ends_early = Mark::from_code(stated.byte(head::END_MARK))? == Mark::Actual;
    let record = stated.record()?;
    let event_fits = record.record_type != RecordType::Event
        || (operation == Operation::Create && all_zero(&record.mrid) && !ends_early);
    let withdrawal_fits = operation != Operation::Withdraw || !ends_early;
    let parts = stated.part_findings(record.stamp, record.period);
    let in_range = event_fits && withdrawal_fits && Minute::from_count(parts.latest).is_some();
    in_range.then_some(Report {
        operation,
        ends_early,
        record,
        parts,
    })
}

/// "Does the kind carry it? W1, Z1: direction 1. M1, A: 1 or 2, and 3 for stops. Types 5, 6: W1
/// only. Type 4: not A."
pub fn question_5_kind_carries(
    kind: UnitKind,
    record_type: RecordType,
    direction: Direction,
) -> bool {
    let direction_fits = match kind {
        UnitKind::W1 | UnitKind::Z1 => direction == Direction::Generation,
        UnitKind::M1 | UnitKind::A => {
            direction != Direction::Both || record_type == RecordType::Outage
        }
    };
    let type_fits = match record_type {
        RecordType::OffGrid | RecordType::Event => kind == UnitKind::W1,
        RecordType::MustRun => kind != UnitKind::A,
        RecordType::Outage | RecordType::PositiveDerating | RecordType::NegativeDerating => true,
    };
    direction_fits && type_fits
}

fn question_5_kind(case: &Case) -> bool {
    let record = &case.report.record;
    question_5_kind_carries(case.unit.kind, record.record_type, record.direction)
}

/// "Types 1–5: start < end, end > stamp; mark 1 with start > stamp, mark 2 with start ≤ stamp;
/// type 5 needs mark 2. Event: mark 2, start ≤ stamp, end = start."
pub fn question_6_times(case: &Case) -> bool {
    let record = &case.report.record;
    let Period { start, end } = record.period;
    if case.is_event() {
        return record.begun() && start <= record.stamp && end == start;
    }
    if case.report.ends_early {
        return early_end_is_honest(&case.report);
    }
    let mark_fits = match record.start_mark {
        Mark::Planned => start > record.stamp,
        Mark::Actual => start <= record.stamp,
    };
    let off_grid_fits = record.record_type != RecordType::OffGrid || record.begun();
    start < end && end > record.stamp && mark_fits && off_grid_fits
}

/// "A change to a begun record of types 2 to 4 may carry end mark 2, with start < end ≤ stamp."
fn early_end_is_honest(report: &Report) -> bool {
    let record = &report.record;
    let Period { start, end } = record.period;
    report.operation == Operation::Update
        && record.record_type.has_parts()
        && record.begun()
        && start < end
        && end <= record.stamp
}

/// "For types 1–5, are end, a planned start and every part end after the stamp multiples of 15
/// (rule 18)?" Asked of every part listed, cover not yet being known.
pub fn question_7_quarter_hours(case: &Case) -> bool {
    let record = &case.report.record;
    case.is_event()
        || (record.period.end.on_quarter_hour()
            && (record.begun() || record.period.start.on_quarter_hour())
            && case.report.parts.on_quarter_hours)
}

/// "Types 2–4: do 1 to 100 parts, each start < end, cover the period, in time order, without gap
/// or overlap? Other types, and withdrawals: no parts?"
pub fn question_8_cover(case: &Case) -> bool {
    cover_verdict(&case.report).is_ok()
}

/// Question 8 with the number of the part that is wrong. More than 100 parts are no whole report.
pub fn cover_verdict(report: &Report) -> Result<(), u32> {
    match (report.has_parts(), report.record.parts.is_empty()) {
        (true, false) => report.parts.cover,
        (false, true) => Ok(()),
        // "a missing list, or a list where none may be, names 0"
        _ => Err(0),
    }
}

/// "Is each part's power, left by 4, 0 to 99,999,999?"
pub fn question_9_powers(case: &Case) -> bool {
    Kilowatt::from_count(case.report.parts.highest_power).is_some()
}

/// "Is the stamp not before the unit's last stamp?"
pub fn question_10_stamp(case: &Case) -> bool {
    case.report.record.stamp >= case.last_stamp
}

/// "Create: is the identifier in no live slot?"
pub fn question_11_mrid_unused(case: &Case) -> bool {
    case.report.operation != Operation::Create || case.same_mrid.is_none()
}

/// "Change, withdraw: is it in one?"
pub fn question_12_mrid_known(case: &Case) -> bool {
    case.report.operation == Operation::Create || case.same_mrid.is_some()
}

/// "Are type, direction and qualification those of that slot, and the ordinal greater?"
pub fn question_13_same_record(case: &Case) -> bool {
    let record = &case.report.record;
    case.named_record().is_none_or(|named| {
        record.record_type == named.record_type
            && record.direction == named.direction
            && record.qualification == named.qualification
            && record.revision > named.revision
    })
}

/// "Change of a begun (mark 2) record: same start and mark? Withdrawal: not begun?" For end mark
/// 2, "where the record in the slot has not begun it is 14".
pub fn question_14_begun(case: &Case) -> bool {
    let Report {
        operation,
        ends_early,
        record,
        ..
    } = &case.report;
    case.named_record().is_none_or(|named| {
        if named.begun() {
            *operation == Operation::Update
                && record.period.start == named.period.start
                && record.start_mark == named.start_mark
        } else {
            !ends_early
        }
    })
}

/// "Does no other live record of its type with a meeting direction overlap it?" But for those
/// that it closes.
pub fn question_15_overlap(case: &Case) -> bool {
    let record = &case.report.record;
    case.others()
        .all(|(_, other)| !record.clashes(other) || case.closes(other))
}

/// "Is each reported positive derating ≤ Pmax, each negative ≤ Pmax − Pmin of its direction?"
pub fn question_16_derating_limit(case: &Case) -> bool {
    let limit = match case.report.record.record_type {
        RecordType::PositiveDerating => case.range().p_max,
        RecordType::NegativeDerating => case.range().span(),
        _ => return true,
    };
    Kilowatt(case.report.parts.highest_power) <= limit
}

/// Rule 20 in one minute "that forced work and deratings of one direction share". Nothing is
/// taken away, so that no bound falls below 0.
fn rule_20(kind: UnitKind, range: PowerRange, minute: &InMinute) -> bool {
    let Some(level) = minute.level else {
        return true;
    };
    let (level, p_max, p_min) = (level.wide(), range.p_max.wide(), range.p_min.wide());
    let (positive, negative) = (
        minute.positive.map(Kilowatt::wide),
        minute.negative.map(Kilowatt::wide),
    );
    match kind {
        UnitKind::W1 | UnitKind::M1 => {
            positive.is_none_or(|positive| level + positive <= p_max)
                && negative.is_none_or(|negative| level >= p_min + negative)
        }
        UnitKind::Z1 => {
            let both = positive.unwrap_or(0) + negative.unwrap_or(0);
            (positive.is_none() && negative.is_none()) || level + p_min + both <= p_max
        }
        UnitKind::A => true,
    }
}

/// "Rule 20: for each minute of a reported record of types 2–4 that forced work and deratings of
/// one direction share: W1, M1: level ≤ Pmax − positive derating where there is one, level ≥ Pmin
/// + negative where there is one. Z1: where either is, level ≤ Pmax − Pmin − both."
pub fn question_17_level_limits(case: &Case) -> bool {
    let record = &case.report.record;
    !record.record_type.has_parts()
        || !case.levels_meet_deratings()
        || at_every_change_point(case.powers_of_direction(), record.period, |minute| {
            rule_20(case.unit.kind, case.range(), minute)
        })
}

/// Question 17 minute by minute, for tests.
pub fn question_17_each_minute(case: &Case) -> bool {
    let record = &case.report.record;
    !record.record_type.has_parts()
        || in_every_minute(case.powers_of_direction(), record.period, |minute| {
            rule_20(case.unit.kind, case.range(), minute)
        })
}

/// The event arrows: "1 R→RO; 2 RO→U1; 3 U1→U2 and RP→P; 4 U2→P; 5 P, RP→R; 6 RO, U1, U2→R".
pub fn event_transition(state: UnitState, event: EventCode) -> Option<UnitState> {
    use UnitState::{Firing, InOperation, OffGrid, ShutDown, StartUp, Synchronised};
    match (event, state) {
        (EventCode::Firing, ShutDown) => Some(Firing),
        (EventCode::StartUp, Firing) => Some(StartUp),
        (EventCode::Synchronise, StartUp) => Some(Synchronised),
        (EventCode::Synchronise, OffGrid) => Some(InOperation),
        (EventCode::StartUpEnd, Synchronised) => Some(InOperation),
        (EventCode::ShutDown, InOperation | OffGrid) => Some(ShutDown),
        (EventCode::Abort, Firing | StartUp | Synchronised) => Some(ShutDown),
        _ => None,
    }
}

/// The row that an event, a begun stop or begun off-grid work leads to, if there is an arrow.
pub fn row_after(row: Row, record: &Record) -> Option<Row> {
    let state = row.state?;
    let (next, qualification) = match record.record_type {
        RecordType::Event => {
            let next = event_transition(state, EventCode::from_code(record.qualification)?)?;
            // "Codes 5 and 6 give qualification 8 (RE), 1 to 4 give 0."
            let to_reserve = next == UnitState::ShutDown;
            (next, if to_reserve { RESERVE_SHUTDOWN } else { 0 })
        }
        // "A begun stop leads to R from every state, from R only with another qualification."
        RecordType::Outage => {
            let same = state == UnitState::ShutDown && row.qualification == record.qualification;
            if same {
                return None;
            }
            (UnitState::ShutDown, record.qualification)
        }
        // "Off-grid: P→RP."
        RecordType::OffGrid if state == UnitState::InOperation => {
            (UnitState::OffGrid, record.qualification)
        }
        _ => return None,
    };
    Some(Row {
        state: Some(next),
        qualification,
        since: record.period.start,
    })
}

/// "W1, for an event, or a stop or off-grid record that this report begins: is start > since, and
/// is there an arrow?"
pub fn question_18_transition(case: &Case) -> bool {
    let record = &case.report.record;
    !case.changes_state()
        || (record.period.start > case.unit.row.since && row_after(case.unit.row, record).is_some())
}

/// "Create, types 1–5: is a slot free, after those that leave?"
pub fn question_19_free_slot(case: &Case) -> bool {
    case.report.operation != Operation::Create || lowest_free_slot(case).is_some()
}

/// The lowest slot that is free, dead or leaving.
pub fn lowest_free_slot(case: &Case) -> Option<usize> {
    let leaving = case.leaving();
    (0..SLOT_COUNT).find(|&slot| case.live[slot].is_none() || leaving[slot])
}
