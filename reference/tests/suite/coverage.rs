//! What the random source reaches: every answer, every sum of warnings, every deep situation.

use reference::codes::{Direction, Operation, RecordType, UnitKind};
use reference::cover_faults::{cover_fault, KINDS};
use reference::early_ends::{self, early_end_kinds};
use reference::quantities::{Kilowatt, Minute, LAST_MINUTE};
use reference::questions::{question_17_level_limits, question_4_fields_in_range, Case};
use reference::random::Random;
use reference::record::{Record, MAX_PARTS};
use reference::register::{question_1_register_whole, Block, BLOCK_SIZE, SLOT_COUNT};
use reference::report::{question_2_report_whole, Report, WholeReport};
use reference::source::{damaged_register, whole_register, Source};
use reference::{answer, Answer};
use std::collections::{BTreeMap, HashSet};
use std::io::Write;

const STREAMS: u64 = 500;
const REPORTS: usize = 150;

/// Sums of warnings that can occur. Warning 8 is carried by stops, 2 and 4 by forced work, so 8
/// never meets 2 or 4: 10 to 15 can't be. 1 goes with each, and 2 with 4 where one part lies
/// above Pmax and another below Pmin: 0 to 9 all can.
const WARNING_SUMS: std::ops::RangeInclusive<usize> = 0..=9;

#[derive(Default)]
struct Table {
    answers: [u64; 20],
    warnings: [u64; 16],
    situations: BTreeMap<&'static str, u64>,
    reports: u64,
}

impl Table {
    fn count(&mut self, answer: Answer) {
        self.reports += 1;
        self.answers[usize::from(answer.number)] += 1;
        if answer.number == 0 {
            self.warnings[usize::from(answer.warnings)] += 1;
        }
    }

    fn note(&mut self, situation: &'static str, there: bool) {
        *self.situations.entry(situation).or_default() += u64::from(there);
    }

    fn notes<const N: usize>(&mut self, situations: [(&'static str, bool); N]) {
        for (situation, there) in situations {
            self.note(situation, there);
        }
    }

    /// Past the test harness, which would keep it to itself.
    fn print(&self) {
        let mut text = format!("\ncoverage of {} reports\n", self.reports);
        for (number, count) in self.answers.iter().enumerate() {
            text += &format!("  answer {number:2} {count:8}\n");
        }
        for (sum, count) in self.warnings.iter().enumerate().take(10) {
            text += &format!("  warnings {sum} {count:7}\n");
        }
        for (situation, count) in &self.situations {
            text += &format!("  {count:7} {situation}\n");
        }
        let _ = std::io::stderr().write_all(text.as_bytes());
    }
}

/// One accepted or refused report with what the unit's block held before it.
struct Seen<'a> {
    block: &'a Block<'a>,
    case: &'a Case<'a, 'a>,
    answer: Answer,
}

impl<'a> Seen<'a> {
    fn report(&self) -> &Report<'a> {
        &self.case.report
    }

    fn record(&self) -> &Record<'a> {
        &self.case.report.record
    }

    fn accepted(&self) -> bool {
        self.answer.number == 0
    }

    fn has_power(&self, power: u32) -> bool {
        let mut parts = self.record().parts.iter();
        parts.any(|part| part.power == Kilowatt(power))
    }

    fn number(&self) -> u8 {
        self.answer.number
    }

    /// A live record with the report's identifier, of which the test holds.
    fn names(&self, test: impl Fn(&Record) -> bool) -> bool {
        let mrid = self.record().mrid;
        let mut live = self.case.live.iter().flatten();
        live.any(|record| record.mrid == mrid && test(record))
    }

    /// A dead record still in its slot with the report's identifier.
    fn names_dead(&self) -> bool {
        let mrid = self.record().mrid;
        let mut slots = self.block.slots.iter().flatten();
        !self.names(|_| true) && slots.any(|record| record.mrid == mrid)
    }

    fn makes_leave(&self, record_type: RecordType) -> bool {
        let leaving = self.case.leaving();
        let mut slots = self.case.live.iter().zip(leaving);
        self.accepted()
            && slots.any(|(slot, leaves)| {
                leaves && slot.is_some_and(|record| record.record_type == record_type)
            })
    }

    fn overlaps(&self, test: impl Fn(&Record) -> bool) -> bool {
        let record = self.record();
        self.case
            .others()
            .any(|(_, other)| record.period.overlaps(other.period) && test(other))
    }
}

fn note_changes(table: &mut Table, seen: &Seen) {
    let update = seen.report().operation == Operation::Update;
    let begun = update && seen.names(|named| named.begun());
    let planned = update && seen.names(|named| !named.begun());
    let dead = update && seen.names_dead();
    table.notes([
        (
            "change of a begun record accepted",
            begun && seen.accepted(),
        ),
        (
            "change of a begun record refused 14",
            begun && seen.number() == 14,
        ),
        (
            "change of a planned record accepted",
            planned && seen.accepted(),
        ),
        (
            "change of a dead record refused 12",
            dead && seen.number() == 12,
        ),
        (
            "change with no greater ordinal refused 13",
            update && seen.number() == 13,
        ),
    ]);
}

fn note_withdrawals(table: &mut Table, seen: &Seen) {
    let withdraw = seen.report().operation == Operation::Withdraw;
    let stamp = seen.record().stamp;
    let begun = withdraw && seen.names(|named| named.begun());
    let planned = withdraw && seen.names(|named| !named.begun());
    let passed = planned && seen.names(|named| named.period.start <= stamp);
    let dead = withdraw && seen.names_dead();
    let record = seen.record();
    let meets = planned && seen.case.others().any(|(_, other)| record.clashes(other));
    table.notes([
        (
            "withdrawal whose times meet another record",
            meets && seen.accepted(),
        ),
        (
            "withdrawal of a planned record accepted",
            planned && seen.accepted(),
        ),
        (
            "withdrawal of a planned record whose start passed",
            passed && seen.accepted(),
        ),
        (
            "withdrawal of a begun record refused 14",
            begun && seen.number() == 14,
        ),
        (
            "withdrawal of a dead record refused 12",
            dead && seen.number() == 12,
        ),
    ]);
}

fn note_beginnings(table: &mut Table, seen: &Seen) {
    let begins = seen.report().operation == Operation::Update
        && seen.names(|named| !named.begun())
        && seen.record().begun()
        && seen.accepted();
    let of = |record_type| begins && seen.record().record_type == record_type;
    let makes_leave = seen.answer.warnings & 8 != 0;
    table.notes([
        ("planned stop begins", of(RecordType::Outage)),
        (
            "planned positive derating begins",
            of(RecordType::PositiveDerating),
        ),
        (
            "planned negative derating begins",
            of(RecordType::NegativeDerating),
        ),
        ("planned forced work begins", of(RecordType::MustRun)),
        ("planned stop begins, another leaves", begins && makes_leave),
    ]);
}

fn note_blocks(table: &mut Table, seen: &Seen) {
    let create = seen.report().operation == Operation::Create;
    let is_event = seen.record().record_type == RecordType::Event;
    let full = seen.case.live.iter().flatten().count() == SLOT_COUNT;
    let used = seen.block.slots.iter().flatten().count() == SLOT_COUNT;
    let leaves = seen.case.leaving().contains(&true);
    let created = create && !is_event && seen.accepted();
    let hundred = seen.record().parts.len() == MAX_PARTS && seen.accepted();
    table.notes([
        ("full block refused 19", full && seen.number() == 19),
        (
            "full block, event accepted",
            full && is_event && seen.accepted(),
        ),
        (
            "full block, created in a slot that leaves",
            full && leaves && created,
        ),
        (
            "full block, created in a dead slot",
            used && !full && created,
        ),
        (
            "full block, change accepted",
            full && !create && seen.accepted(),
        ),
        ("100 parts accepted", hundred),
        (
            "identifier of a dead slot created anew",
            created && seen.names_dead(),
        ),
    ]);
}

fn note_leaving(table: &mut Table, seen: &Seen) {
    let w1 = seen.block.unit.kind == UnitKind::W1;
    let outage = seen.record().record_type == RecordType::Outage;
    let event = seen.record().record_type == RecordType::Event;
    let ends_outage = seen.makes_leave(RecordType::Outage);
    let ends_off_grid = seen.makes_leave(RecordType::OffGrid);
    let leaving = seen.case.leaving().iter().filter(|&&leaves| leaves).count();
    let record = seen.record();
    let over_passed = record.begun()
        && seen.overlaps(|other| {
            let earlier = other.period.start < record.period.start;
            outage && record.clashes(other) && !other.begun() && earlier
        });
    table.notes([
        (
            "begun stop over a planned one whose start passed, 15",
            over_passed && seen.number() == 15,
        ),
        ("stop closes an older stop, W1", w1 && outage && ends_outage),
        (
            "stop closes an older stop, other kinds",
            !w1 && outage && ends_outage,
        ),
        ("stop ends off-grid work", outage && ends_off_grid),
        ("event ends a stop", event && ends_outage),
        ("event ends off-grid work", event && ends_off_grid),
        (
            "one stop closes several",
            outage && seen.accepted() && leaving > 1,
        ),
    ]);
}

fn note_directions(table: &mut Table, seen: &Seen) {
    let (record, kind) = (seen.record(), seen.block.unit.kind);
    let (m1, a) = (kind == UnitKind::M1, kind == UnitKind::A);
    let outage = record.record_type == RecordType::Outage;
    let other_meets = |other: &Record| {
        other.direction != record.direction && other.direction.meets(record.direction)
    };
    let meets = outage
        && seen.overlaps(|other| other.record_type == RecordType::Outage && other_meets(other));
    let apart = seen.accepted()
        && seen.overlaps(|other| {
            other.record_type == record.record_type && !other.direction.meets(record.direction)
        });
    let refused = meets && seen.number() == 15;
    let closes = meets && seen.makes_leave(RecordType::Outage);
    let warned = seen.answer.warnings & 1 != 0 && seen.overlaps(other_meets);
    table.notes([
        ("M1: stop meets one of another direction, 15", m1 && refused),
        ("M1: stop closes one of another direction", m1 && closes),
        ("M1: two directions overlap and pass", m1 && apart),
        ("A: stop meets one of another direction, 15", a && refused),
        ("A: stop closes one of another direction", a && closes),
        ("A: two directions overlap and pass", a && apart),
        ("warning 1 by a meeting direction", warned),
    ]);
}

fn note_powers(table: &mut Table, seen: &Seen) {
    let (record, kind) = (seen.record(), seen.block.unit.kind);
    let beside = |record_type| {
        seen.overlaps(|other| {
            other.record_type == record_type && other.direction == record.direction
        })
    };
    let positive = beside(RecordType::PositiveDerating);
    let negative = beside(RecordType::NegativeDerating);
    let is_level = record.record_type == RecordType::MustRun;
    let is_derating = record.record_type.has_parts() && !is_level;
    let shared =
        (is_level && (positive || negative)) || (is_derating && beside(RecordType::MustRun));
    let refused = seen.number() == 17;
    let met = shared && seen.accepted();
    let both = kind == UnitKind::Z1 && is_level && positive && negative;
    table.notes([
        ("W1: rule 20 refused", kind == UnitKind::W1 && refused),
        ("W1: rule 20 met", kind == UnitKind::W1 && met),
        ("M1: rule 20 refused", kind == UnitKind::M1 && refused),
        ("M1: rule 20 met", kind == UnitKind::M1 && met),
        ("Z1: rule 20 refused", kind == UnitKind::Z1 && refused),
        ("Z1: rule 20 met", kind == UnitKind::Z1 && met),
        ("Z1: level beside both deratings refused", both && refused),
        (
            "Z1: level beside both deratings accepted",
            both && seen.accepted(),
        ),
        (
            "rule 20 refused in consumption",
            record.direction == Direction::Consumption && refused,
        ),
    ]);
}

/// Refused by rule 20 though it holds up to the end of the first part, or up to its first minute
/// though it breaks within the first part.
fn note_steps(table: &mut Table, seen: &Seen) {
    let record = seen.record();
    let Some(first) = record.parts.get(0).filter(|_| seen.number() == 17) else {
        return;
    };
    let holds_up_to = |end: Minute| {
        let mut report = *seen.report();
        report.record.period.end = end;
        question_17_level_limits(&Case::new(seen.block, report))
    };
    let is_level = record.record_type == RecordType::MustRun;
    let first_minute = holds_up_to(Minute(record.period.start.0 + 1));
    let first_part = holds_up_to(first.end);
    table.notes([
        (
            "level refused inside its first part, a derating steps there",
            is_level && first_minute && !first_part,
        ),
        (
            "derating refused by a later part over a level",
            !is_level && first_part,
        ),
    ]);
}

fn note_values(table: &mut Table, seen: &Seen) {
    let (record, accepted) = (seen.record(), seen.accepted());
    let has = |power| seen.has_power(power);
    let too_great = seen.number() == 9 && has(100_000_000);
    let revision = accepted && record.revision == 9_999;
    let zero_mrid = record.record_type != RecordType::Event && record.mrid == [0; 16];
    table.notes([
        ("power 0 accepted", accepted && has(0)),
        ("power 99,999,999 accepted", accepted && has(99_999_999)),
        ("power 100,000,000 refused 9", too_great),
        ("ordinal 9,999 accepted", revision),
        ("zero identifier accepted", accepted && zero_mrid),
    ]);
}

fn note_times(table: &mut Table, seen: &Seen) {
    let (record, accepted) = (seen.record(), seen.accepted());
    let (stamp, start, end) = (record.stamp, record.period.start, record.period.end);
    let since = seen.block.unit.row.since;
    let mut slots = seen.block.slots.iter().flatten();
    let at_an_end = slots.any(|other| other.period.end == stamp);
    let at_since = seen.number() == 18 && start == since;
    let after_since = start.0 == since.0 + 1 && seen.case.changes_state();
    let last_quarter = accepted && end == Minute(26_298_705);
    table.notes([
        ("start 0 accepted", accepted && start == Minute(0)),
        ("stamp 0 accepted", accepted && stamp == Minute(0)),
        (
            "stamp 26,298,719 accepted",
            accepted && stamp == LAST_MINUTE,
        ),
        ("end 26,298,705, the last quarter hour", last_quarter),
        ("stamp equal to an end accepted", accepted && at_an_end),
        ("start equal to since refused 18", at_since),
        ("start one after since accepted", accepted && after_since),
    ]);
}

/// The way in which a list broke cover, read from the report, and that the part named is its.
fn note_cover(table: &mut Table, report: &WholeReport, answer: Answer) {
    let fault = cover_fault(report).filter(|_| answer.number == 8);
    let part = fault.map_or(0, |fault| fault.part);
    assert_eq!(usize::from(answer.part), part, "{:?}", report.bytes());
    for kind in KINDS {
        table.note(kind, fault.is_some_and(|fault| fault.kind == Some(kind)));
    }
}

/// The kinds of early end that the report was of; none that can't be.
fn note_early_ends(table: &mut Table, before: &[u8], report: &[u8], answer: Answer) {
    let given = (answer.number.into(), answer.warnings.into());
    let kinds = early_end_kinds(before, report, given);
    let impossible = kinds.iter().find(|kind| early_ends::NEVER.contains(kind));
    assert_eq!(impossible, None, "{report:?}");
    for kind in early_ends::KINDS {
        table.note(kind, kinds.contains(&kind));
    }
}

/// Answers a report, counts the answer and notes what it met.
fn see(table: &mut Table, register: &mut [u8], report: &[u8]) -> Answer {
    let before = register.to_vec();
    let given = answer(register, report);
    table.count(given);
    assert!(given.number == 0 || before == register, "a refusal wrote");
    note_early_ends(table, &before, report, given);
    let whole = question_2_report_whole(report);
    if let Some(whole) = &whole {
        note_cover(table, whole, given);
    }
    let judged = whole.filter(|_| !matches!(given.number, 1 | 3));
    let typed = judged.and_then(|whole| Some((whole.unit(), question_4_fields_in_range(whole)?)));
    if let Some((unit, typed)) = typed {
        let at = (usize::from(unit) - 1) * BLOCK_SIZE;
        let block = Block::read(&before[at..at + BLOCK_SIZE]).unwrap();
        let case = Case::new(&block, typed);
        let seen = Seen {
            block: &block,
            case: &case,
            answer: given,
        };
        for note in [
            note_changes,
            note_withdrawals,
            note_beginnings,
            note_blocks,
            note_leaving,
            note_directions,
            note_powers,
            note_steps,
            note_values,
            note_times,
        ] {
            note(table, &seen);
        }
    }
    given
}

fn run_stream(table: &mut Table, mut source: Source, reports: usize) {
    let mut register = source.register().to_vec();
    let (mut created, mut ended) = (HashSet::new(), HashSet::new());
    for _ in 0..reports {
        let report = source.whole_or_broken_report();
        let whole = question_2_report_whole(&report).is_some();
        if whole {
            let given = see(table, &mut register, &report);
            assert!(question_1_register_whole(&register));
            let is_creation = report[7] == Operation::Create as u8 && report[6] != 6;
            let creates = given.number == 0 && is_creation;
            let anew = creates && !created.insert(report[16..32].to_vec());
            table.note("identifier reused", anew);
            let named = report[2..4].iter().chain(&report[16..32]).copied();
            let named: Vec<u8> = named.collect();
            let again = creates && ended.remove(&named);
            table.note("identifier of an early end created again", again);
            if given.number == 0 && report[10] == 2 {
                ended.insert(named);
            }
            assert_eq!(register, source.register());
        } else {
            // The source has moved on with the report it broke.
            assert_eq!(see(table, &mut register, &report).number, 2);
            register.copy_from_slice(source.register());
        }
    }
}

#[test]
fn every_answer_warning_and_situation_occurs() {
    let mut table = Table::default();
    for seed in 0..STREAMS {
        let units = if seed % 50 == 0 { 64 } else { 8 };
        run_stream(&mut table, Source::new(seed, units), REPORTS);
    }
    for seed in 0..STREAMS {
        let source = Source::on_given_register(seed, 3);
        run_stream(&mut table, source, REPORTS / 5);
    }
    let mut random = Random::new(1);
    for seed in 0..STREAMS {
        let register = whole_register(&mut random, 3);
        let mut damaged = damaged_register(&mut random, &register);
        let report = Source::new(seed, 1).report();
        table.count(answer(&mut damaged, &report));
    }
    table.print();
    for (number, &count) in table.answers.iter().enumerate() {
        assert!(count > 0, "answer {number} never occurred");
    }
    for (sum, &count) in table.warnings.iter().enumerate() {
        let can_occur = WARNING_SUMS.contains(&sum);
        assert_eq!(count > 0, can_occur, "warnings {sum}: {count}");
    }
    for (situation, &count) in &table.situations {
        assert!(count > 0, "never: {situation}");
    }
}
