//! The codes in words. A code that the paper does not have is its number and "unknown".

use crate::codes::{Direction, EventCode, Mark, Operation, RecordType, UnitKind, UnitState};

/// The qualifications of a stop, from 1; the last one "stands only in a unit's row".
const OUTAGE_LETTERS: &[&str] = &["RA", "RB", "RS", "RK", "Q", "WE", "OS", "RE"];

/// The qualifications of off-grid work, from 1.
const OFF_GRID_LETTERS: &[&str] = &["PZM", "DZM", "PPW", "PLK", "BLT"];

/// Where there is no qualification: 0.
const NO_LETTERS: &[&str] = &[];

fn unknown(field: &str, code: u8) -> String {
    format!("{field} {code} unknown")
}

/// What is qualified, and the letters of its qualification after a word between them.
fn qualified(what: &str, between: &str, letters: &[&str], code: u8) -> String {
    let known = usize::from(code)
        .checked_sub(1)
        .and_then(|at| letters.get(at));
    match known {
        Some(known) => format!("{what}{between}{known}"),
        None if letters.is_empty() && code == 0 => what.to_string(),
        None => format!("{what}, {}", unknown("qualification", code)),
    }
}

/// The kind of a unit.
pub fn kind(code: u8) -> String {
    let name = match UnitKind::from_code(code) {
        Some(UnitKind::W1) => "W1",
        Some(UnitKind::M1) => "M1",
        Some(UnitKind::Z1) => "Z1",
        Some(UnitKind::A) => "A",
        None => return unknown("kind", code),
    };
    name.to_string()
}

/// State and qualification of a unit of a kind; kinds other than W1 have none.
pub fn row(kind: u8, state: u8, qualification: u8) -> String {
    let (name, letters) = match UnitState::from_code(state) {
        Some(UnitState::ShutDown) => ("state R stop", OUTAGE_LETTERS),
        Some(UnitState::Firing) => ("state RO boiler lit", NO_LETTERS),
        Some(UnitState::StartUp) => ("state U1 start-up before synchronising", NO_LETTERS),
        Some(UnitState::Synchronised) => ("state U2 start-up after synchronising", NO_LETTERS),
        Some(UnitState::InOperation) => ("state P work", NO_LETTERS),
        Some(UnitState::OffGrid) => ("state RP off-grid work", OFF_GRID_LETTERS),
        None if state == 0 && kind != UnitKind::W1 as u8 => ("no state", NO_LETTERS),
        None => (&*unknown("state", state), NO_LETTERS),
    };
    qualified(name, ", qualification ", letters, qualification)
}

/// Type and qualification of a record or of an event.
pub fn record(record_type: u8, qualification: u8) -> String {
    let (name, letters) = match RecordType::from_code(record_type) {
        Some(RecordType::Outage) => ("stop", OUTAGE_LETTERS),
        Some(RecordType::PositiveDerating) => ("positive derating", NO_LETTERS),
        Some(RecordType::NegativeDerating) => ("negative derating", NO_LETTERS),
        Some(RecordType::MustRun) => ("forced work", NO_LETTERS),
        Some(RecordType::OffGrid) => ("off-grid work", OFF_GRID_LETTERS),
        Some(RecordType::Event) => return event(qualification),
        None => (&*unknown("type", record_type), NO_LETTERS),
    };
    qualified(name, " ", letters, qualification)
}

/// An event by its code and what it leads to.
fn event(code: u8) -> String {
    let arrows = match EventCode::from_code(code) {
        Some(EventCode::Firing) => "R to RO",
        Some(EventCode::StartUp) => "RO to U1",
        Some(EventCode::Synchronise) => "U1 to U2, RP to P",
        Some(EventCode::StartUpEnd) => "U2 to P",
        Some(EventCode::ShutDown) => "P, RP to R",
        Some(EventCode::Abort) => "RO, U1, U2 to R",
        None => return unknown("event", code),
    };
    format!("event {code} ({arrows})")
}

/// What a report asks for.
pub fn operation(code: u8) -> String {
    let name = match Operation::from_code(code) {
        Some(Operation::Create) => "create",
        Some(Operation::Update) => "change",
        Some(Operation::Withdraw) => "withdraw",
        None => return unknown("operation", code),
    };
    name.to_string()
}

/// The direction.
pub fn direction(code: u8) -> String {
    let name = match Direction::from_code(code) {
        Some(Direction::Generation) => "generation",
        Some(Direction::Consumption) => "consumption",
        Some(Direction::Both) => "both directions",
        None => return unknown("direction", code),
    };
    name.to_string()
}

fn mark(code: u8) -> Option<&'static str> {
    Mark::from_code(code).map(|mark| match mark {
        Mark::Planned => "planned",
        Mark::Actual => "executed",
    })
}

/// The start mark.
pub fn start_mark(code: u8) -> String {
    mark(code).map_or_else(|| unknown("start mark", code), str::to_string)
}

/// The end mark.
pub fn end_mark(code: u8) -> String {
    mark(code).map_or_else(
        || unknown("end mark", code),
        |name| format!("end mark {name}"),
    )
}
