//! The worked examples of the paper: roster A, its log, the reports on it, the bench findings; and
//! early ends, sentence by sentence.

use crate::codes::{Mark, Operation, RecordType, UnitKind, UnitState};
use crate::compose::{EntryFields, ReportFields};
use crate::processor::Answer;

/// "D is 13,760,640, which is 2026-03-01 00:00."
pub const D: u32 = 13_760_640;

/// RA and RB.
const EMERGENCY_REPAIR: u8 = 1;
const ROUTINE_MAINTENANCE: u8 = 2;

/// The log of roster A, to the byte.
pub const ROSTER_A_LOG: &str = "\
no unit answer warn part stamp
1 1 0 0 0 2026-03-01 00:10
2 1 17 0 0 2026-03-01 00:11
3 1 0 0 0 2026-03-01 00:11
4 1 0 1 0 2026-03-01 00:25
5 2 3 0 0 2026-03-01 00:26
total 2 1 2
";

/// Reports in order on a fresh register of roster A, and the answer to each.
pub struct Example {
    /// A short name.
    pub name: &'static str,
    /// Whether the paper stars it.
    pub starred: bool,
    /// The reports' bytes.
    pub reports: Vec<Vec<u8>>,
    /// The answers.
    pub answers: Vec<Answer>,
}

/// "Roster A: unit 1, owner 7, W1, state 5, since D, 200,000 and 80,000; unit 2, owner 9, Z1, since
/// D, 50,000 and 0."
pub fn roster_a() -> Vec<u8> {
    let in_operation = UnitState::InOperation as u8;
    [
        EntryFields::generating(7, UnitKind::W1, in_operation, D, 200_000, 80_000).bytes(),
        EntryFields::generating(9, UnitKind::Z1, 0, D, 50_000, 0).bytes(),
    ]
    .concat()
}

/// The five reports of roster A's log.
pub fn roster_a_reports() -> Vec<Vec<u8>> {
    let on_unit_1 = |record_type| ReportFields::creation(1, 7, record_type);
    let derating = on_unit_1(RecordType::PositiveDerating)
        .over(D + 60, D + 120)
        .at(20_000)
        .stamped(D + 10);
    let must_run = |level| {
        on_unit_1(RecordType::MustRun)
            .over(D + 60, D + 120)
            .at(level)
            .stamped(D + 11)
    };
    let outage = on_unit_1(RecordType::Outage)
        .qualified(EMERGENCY_REPAIR)
        .begun()
        .over(D + 20, D + 180)
        .stamped(D + 25);
    let mut on_unit_2 = derating.clone().stamped(D + 26);
    on_unit_2.unit = 2;
    let reports = [
        derating,
        must_run(190_000),
        must_run(180_000),
        outage,
        on_unit_2,
    ];
    reports
        .into_iter()
        .zip(1..)
        .map(|(report, line)| report.named(line).bytes())
        .collect()
}

/// "Unless said: create, positive derating, owner 7, direction 1, planned, ordinal 1, t = 0, 20,000
/// in one part D+60 to D+120", stamp D+10.
fn derating() -> ReportFields {
    derating_of(20_000)
}

fn derating_of(power: i32) -> ReportFields {
    of_type(RecordType::PositiveDerating)
        .over(D + 60, D + 120)
        .at(power)
}

fn derating_from(start: u32, end: u32) -> ReportFields {
    derating().over(start, end).at(20_000)
}

fn must_run(level: i32) -> ReportFields {
    of_type(RecordType::MustRun).over(D + 60, D + 120).at(level)
}

fn begun_outage(start: u32, qualification: u8) -> ReportFields {
    of_type(RecordType::Outage)
        .qualified(qualification)
        .begun()
        .over(start, D + 180)
}

fn event(code: u8, minute: u32) -> ReportFields {
    of_type(RecordType::Event)
        .qualified(code)
        .begun()
        .over(minute, minute)
}

fn of_type(record_type: RecordType) -> ReportFields {
    ReportFields::creation(1, 7, record_type).stamped(D + 10)
}

/// An example from reports and answers; identifier bytes are the place, zero for events.
fn example(
    name: &'static str,
    starred: bool,
    steps: impl IntoIterator<Item = (ReportFields, (u8, u8, u8))>,
) -> Example {
    let (reports, answers) = steps
        .into_iter()
        .zip(1..)
        .map(|((report, (number, warnings, part)), place)| {
            let is_event = report.record_type == RecordType::Event as u8;
            let report = report.named(if is_event { 0 } else { place });
            let answer = Answer {
                number,
                warnings,
                part,
            };
            (report.bytes(), answer)
        })
        .unzip();
    Example {
        name,
        starred,
        reports,
        answers,
    }
}

/// An example of one report.
fn one(name: &'static str, starred: bool, report: ReportFields, answer: (u8, u8, u8)) -> Example {
    example(name, starred, [(report, answer)])
}

/// An example of two reports, the first one clean.
fn two(
    name: &'static str,
    starred: bool,
    first: ReportFields,
    second: ReportFields,
    answer: (u8, u8, u8),
) -> Example {
    example(name, starred, [(first, (0, 0, 0)), (second, answer)])
}

/// "Reports on fresh roster A, unit 1, stamp D+10", in the paper's order.
pub fn examples() -> Vec<Example> {
    let mut examples = vec![Example {
        name: "empty",
        starred: true,
        reports: vec![Vec::new()],
        answers: vec![Answer::refusal(2)],
    }];
    examples.extend(derating_examples());
    examples.extend(state_examples());
    examples.extend([
        one("stamp-before", false, derating().stamped(D - 1), (10, 0, 0)),
        one("level-above", true, must_run(200_001), (0, 2, 0)),
        one("level-below", false, must_run(79_999), (0, 4, 0)),
        ninth_record(),
    ]);
    examples
}

fn derating_examples() -> [Example; 10] {
    let (of_owner_9, on_unit_3) = (of_owner(9), on_unit(3));
    let mut gap = derating().stepping(&[(D + 90, 20_000), (D + 120, 20_000)]);
    gap.parts[1].start = D + 91;
    let from = |start, end| derating_from(D + start, D + end);
    [
        one("owner-9", true, of_owner_9, (3, 0, 0)),
        one("unit-3", false, on_unit_3, (3, 0, 0)),
        one("derating", true, derating(), (0, 0, 0)),
        one("start-61", true, from(61, 120), (7, 0, 0)),
        one("planned-start-10", true, from(10, 120), (6, 0, 0)),
        one("gap", true, gap, (8, 0, 2)),
        one("derating-p-max", true, derating_of(200_000), (0, 0, 0)),
        one(
            "derating-above-p-max",
            false,
            derating_of(200_001),
            (16, 0, 0),
        ),
        two("touching", true, derating(), from(120, 180), (0, 0, 0)),
        two("overlapping", false, derating(), from(105, 180), (15, 0, 0)),
    ]
}

fn state_examples() -> [Example; 5] {
    let repair = || begun_outage(D + 5, EMERGENCY_REPAIR);
    let maintenance = begun_outage(D + 8, ROUTINE_MAINTENANCE);
    let repair_again = begun_outage(D + 8, EMERGENCY_REPAIR);
    [
        one("event-5", true, event(5, D + 10), (0, 0, 0)),
        one("event-5-at-since", true, event(5, D), (18, 0, 0)),
        one("event-1", false, event(1, D + 10), (18, 0, 0)),
        two(
            "repair-then-maintenance",
            true,
            repair(),
            maintenance,
            (0, 8, 0),
        ),
        two(
            "repair-then-repair",
            false,
            repair(),
            repair_again,
            (18, 0, 0),
        ),
    ]
}

fn of_owner(owner: u16) -> ReportFields {
    ReportFields {
        owner,
        ..derating()
    }
}

fn on_unit(unit: u16) -> ReportFields {
    ReportFields { unit, ..derating() }
}

/// "A ninth live record: 19."
fn ninth_record() -> Example {
    let steps = (0..9).map(|place| {
        let start = D + 60 + 60 * place;
        let number = if place < 8 { 0 } else { 19 };
        (derating_from(start, start + 60), (number, 0, 0))
    });
    example("ninth-record", false, steps)
}

/// "Bench findings to rule out".
pub fn bench_findings() -> Vec<Example> {
    let stepping = || derating().stepping(&[(D + 90, 20_000), (D + 120, 30_000)]);
    let units = [(on_unit(3), (3, 0, 0)), (on_unit(2), (3, 0, 0))];
    let steps_inside = [
        (stepping(), (0, 0, 0)),
        (must_run(170_001), (17, 0, 0)),
        (must_run(170_000), (0, 0, 0)),
    ];
    vec![
        example("unknown-and-other-unit", false, units),
        example("derating-steps-inside-level", false, steps_inside),
        two(
            "level-under-stepping-derating",
            false,
            must_run(170_001),
            stepping(),
            (17, 0, 0),
        ),
        dead_slots(),
        refused_stamp(),
    ]
}

/// The refused report's stamp is not kept, an accepted one's is.
fn refused_stamp() -> Example {
    let overlapping = derating_from(D + 105, D + 180).stamped(D + 50);
    let later = derating_from(D + 180, D + 240).stamped(D + 50);
    let level = || must_run(180_000).stamped(D + 20);
    let steps = [
        (derating(), (0, 0, 0)),
        (overlapping, (15, 0, 0)),
        (level(), (0, 0, 0)),
        (later, (0, 0, 0)),
        (level(), (10, 0, 0)),
    ];
    example("refused-stamp", false, steps)
}

/// Eight records end; over their time, with their identifiers, eight others are free to come.
fn dead_slots() -> Example {
    let full = (0..8).map(|place| {
        let start = D + 60 + 15 * place;
        (derating_from(start, start + 15), (0, 0, 0))
    });
    let begun_over_the_dead = derating_from(D + 60, D + 240).begun().stamped(D + 180);
    let steps = full.chain([(begun_over_the_dead, (0, 0, 0))]);
    let mut example = example("dead-slots", false, steps);
    let reused = derating_from(D + 240, D + 300).stamped(D + 180).named(1);
    example.reports.push(reused.bytes());
    example.answers.push(Answer::accepted(0));
    example
}

/// The derating, begun at D+5, as an ordinary creation.
fn begun_derating() -> ReportFields {
    derating_from(D + 5, D + 120).begun()
}

/// Its early end at D+67, stamp D+70.
fn early_end() -> ReportFields {
    ReportFields {
        operation: Operation::Update as u8,
        revision: 2,
        ..begun_derating().ended_early(D + 67).stamped(D + 70)
    }
}

/// The early end with one thing changed.
fn early_end_with(change: impl Fn(&mut ReportFields)) -> ReportFields {
    let mut report = early_end();
    change(&mut report);
    report
}

/// A record and a report on it, of one identifier; the record is accepted.
fn on_record(
    name: &'static str,
    record: ReportFields,
    report: ReportFields,
    (number, warnings, part): (u8, u8, u8),
) -> Example {
    let answer = Answer {
        number,
        warnings,
        part,
    };
    Example {
        name,
        starred: false,
        reports: [record, report]
            .map(|report| report.named(1).bytes())
            .to_vec(),
        answers: vec![Answer::accepted(0), answer],
    }
}

/// "A derating that ended early", each on a begun derating of 20,000 from D+5 to D+120.
pub fn early_ends() -> Vec<Example> {
    let on_derating = |name, report, answer| on_record(name, begun_derating(), report, answer);
    let mut examples = vec![
        on_derating("accepted", early_end(), (0, 0, 0)),
        ended_and_created_again(),
    ];
    examples.extend(
        marks_and_times().map(|(name, report, number)| on_derating(name, report, (number, 0, 0))),
    );
    examples.extend([
        on_derating(
            "part-past-the-end",
            early_end_with(|report| report.parts[0].end = D + 68),
            (8, 0, 1),
        ),
        on_derating(
            "list-short-of-the-end",
            early_end_with(|report| report.parts[0].end = D + 66),
            (8, 0, 1),
        ),
        on_derating("above-p-max", early_end().at(200_001), (0, 0, 0)),
        on_record(
            "planned-in-its-slot",
            derating(),
            early_end_with(|report| (report.start, report.parts[0].start) = (D + 60, D + 60)),
            (14, 0, 0),
        ),
        on_record(
            "forced-work",
            begun_level(),
            early_end_with(|report| report.record_type = RecordType::MustRun as u8).at(200_001),
            (0, 0, 0),
        ),
    ]);
    examples
}

fn begun_level() -> ReportFields {
    must_run(180_000).begun().over(D + 5, D + 120).at(180_000)
}

/// Names, reports and the numbers that they get.
fn marks_and_times() -> [(&'static str, ReportFields, u8); 10] {
    let ending_at = |end| early_end().over(D + 5, end).at(20_000);
    let with_mark = |mark| early_end_with(|report| report.end_mark = mark);
    [
        ("end-mark-0", with_mark(0), 4),
        ("end-mark-1", with_mark(1), 6),
        ("end-mark-3", with_mark(3), 4),
        (
            "withdrawal",
            early_end_with(|report| {
                report.operation = Operation::Withdraw as u8;
                report.parts.clear();
            }),
            4,
        ),
        (
            "creation",
            early_end_with(|report| report.operation = Operation::Create as u8),
            6,
        ),
        (
            "start-mark-1",
            early_end_with(|report| report.start_mark = Mark::Planned as u8),
            6,
        ),
        ("at-the-stamp", ending_at(D + 70), 0),
        ("after-the-stamp", ending_at(D + 71), 6),
        ("a-minute-long", ending_at(D + 6), 0),
        ("at-the-start", ending_at(D + 5), 6),
    ]
}

/// The identifier is free again, with ordinal 1; ended once more it is not there.
fn ended_and_created_again() -> Example {
    let created = || derating_from(D + 60, D + 120).begun().stamped(D + 70);
    let mut example = on_record("created-again", begun_derating(), early_end(), (0, 0, 0));
    for (report, answer) in [
        (early_end(), Answer::refusal(12)),
        (created(), Answer::accepted(0)),
        (created(), Answer::refusal(11)),
    ] {
        example.reports.push(report.named(1).bytes());
        example.answers.push(answer);
    }
    example
}
