//! The tests of the reference, one module to a subject.

mod calendar;
mod command_line;
mod compare_logs;
mod cover;
mod coverage;
mod early_end;
mod forms;
mod given_registers;
mod minutes;
mod question_1;
mod questions;
mod register_faults;
mod remark;
mod sample_files;
mod set_up;
mod shift_log;
mod show;
mod stand_alone;
mod totality;
mod warnings;
mod worked_examples;

use reference::codes::{RecordType, UnitKind};
use reference::compose::{EntryFields, ReportFields};
use reference::register::{question_1_register_whole, BLOCK_SIZE, HEAD_SIZE, SLOT_SIZE};
use reference::worked_examples::D;
use reference::{answer, set_up as write_register};

/// A register of one unit of each kind, all of one owner.
struct TestRegister {
    bytes: Vec<u8>,
}

const W1: u16 = 1;
const M1: u16 = 2;
const Z1: u16 = 3;
const A: u16 = 4;
const OWNER: u16 = 7;

impl TestRegister {
    fn new() -> TestRegister {
        TestRegister::in_state(5, 0)
    }

    /// The W1 unit in a state.
    fn in_state(state: u8, qualification: u8) -> TestRegister {
        let entry = |kind: UnitKind, state, qualification, powers| EntryFields {
            owner: OWNER,
            kind: kind as u8,
            state,
            qualification,
            since: D,
            powers,
        };
        let roster = [
            entry(UnitKind::W1, state, qualification, [200_000, 80_000, 0, 0]),
            entry(UnitKind::M1, 0, 0, [100_000, 20_000, 60_000, 10_000]),
            entry(UnitKind::Z1, 0, 0, [50_000, 10_000, 0, 0]),
            entry(UnitKind::A, 0, 0, [40_000, 10_000, 30_000, 0]),
        ]
        .map(|entry| entry.bytes())
        .concat();
        let mut bytes = vec![0; 4 * BLOCK_SIZE];
        assert_eq!(write_register(&roster, &mut bytes), 0);
        TestRegister { bytes }
    }

    /// The answer to a report, after which the register is whole; a refusal writes nothing.
    fn answer(&mut self, report: &ReportFields) -> (u8, u8, u8) {
        let before = self.bytes.clone();
        let given = answer(&mut self.bytes, &report.bytes());
        assert!(given.number == 0 || self.bytes == before);
        assert!(question_1_register_whole(&self.bytes));
        (given.number, given.warnings, given.part)
    }

    /// Answers without warnings and part, one after another.
    fn expect<const N: usize>(&mut self, steps: [(ReportFields, u8); N]) {
        for (place, (report, number)) in steps.iter().enumerate() {
            assert_eq!(self.answer(report), (*number, 0, 0), "report {}", place + 1);
        }
    }

    fn head(&self, unit: u16) -> &[u8] {
        &self.bytes[usize::from(unit - 1) * BLOCK_SIZE..][..HEAD_SIZE]
    }

    fn slot(&self, unit: u16, index: usize) -> &[u8] {
        let block = usize::from(unit - 1) * BLOCK_SIZE;
        &self.bytes[block + HEAD_SIZE + index * SLOT_SIZE..][..SLOT_SIZE]
    }

    /// State, qualification, since less D, last stamp less D.
    fn row(&self, unit: u16) -> (u8, u8, u32, u32) {
        let head = self.head(unit);
        let at = |at: usize| u32::from_le_bytes(head[at..at + 4].try_into().unwrap()) - D;
        (head[7], head[8], at(12), at(16))
    }
}

/// The answer on a fresh register.
fn fresh(report: &ReportFields) -> u8 {
    TestRegister::new().answer(report).0
}

fn of_type(unit: u16, record_type: RecordType) -> ReportFields {
    ReportFields::creation(unit, OWNER, record_type)
        .stamped(D + 10)
        .named(1)
}

/// A planned positive derating of 20,000, D+60 to D+120, stamp D+10.
fn derating(unit: u16) -> ReportFields {
    of_type(unit, RecordType::PositiveDerating)
        .over(D + 60, D + 120)
        .at(20_000)
}

fn negative(unit: u16, power: i32) -> ReportFields {
    of_type(unit, RecordType::NegativeDerating)
        .over(D + 60, D + 120)
        .at(power)
        .named(2)
}

fn must_run(unit: u16, level: i32) -> ReportFields {
    of_type(unit, RecordType::MustRun)
        .over(D + 60, D + 120)
        .at(level)
        .named(3)
}

/// A planned stop, D+60 to D+120.
fn outage(unit: u16) -> ReportFields {
    of_type(unit, RecordType::Outage)
        .qualified(1)
        .over(D + 60, D + 120)
        .named(4)
}

/// A begun stop to D+180.
fn begun_outage(unit: u16, qualification: u8, start: u32) -> ReportFields {
    outage(unit)
        .begun()
        .qualified(qualification)
        .over(start, D + 180)
}

/// Off-grid work to D+180.
fn off_grid(start: u32) -> ReportFields {
    of_type(W1, RecordType::OffGrid)
        .begun()
        .qualified(2)
        .over(start, D + 180)
        .named(5)
}

fn event(code: u8, minute: u32) -> ReportFields {
    of_type(W1, RecordType::Event)
        .begun()
        .qualified(code)
        .over(minute, minute)
        .named(0)
}

fn with(mut fields: ReportFields, change: impl Fn(&mut ReportFields)) -> ReportFields {
    change(&mut fields);
    fields
}

fn towards(direction: u8, fields: ReportFields) -> ReportFields {
    with(fields, |fields| fields.direction = direction)
}

/// The next report on a record.
fn again(operation: u8, fields: ReportFields) -> ReportFields {
    with(fields, |fields| {
        fields.operation = operation;
        fields.revision += 1;
    })
}

fn update(fields: ReportFields) -> ReportFields {
    again(2, fields)
}

fn withdrawal(fields: ReportFields) -> ReportFields {
    with(again(3, fields), |fields| fields.parts.clear())
}
