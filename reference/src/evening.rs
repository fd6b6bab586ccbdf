//! The sample `evening`: an evening of reports on four units of three owners, to learn the log by.

use crate::codes::{Direction, Operation, RecordType, UnitKind, UnitState, RESERVE_SHUTDOWN};
use crate::compose::{EntryFields, ReportFields};
use crate::quantities::LAST_MINUTE;
use crate::sample::{step, Step};
use crate::worked_examples::D;

/// The minute at which a clock shows this on 2026-03-01.
fn at(hour: u32, minute: u32) -> u32 {
    D + 60 * hour + minute
}

/// Unit 1 works and is owner 7's, as is the storage unit 2; unit 3, wind, is owner 9's; unit 4,
/// an aggregate, is owner 12's.
fn roster() -> Vec<u8> {
    let working = UnitState::InOperation as u8;
    let both_ways = |owner, kind: UnitKind, powers| EntryFields {
        owner,
        kind: kind as u8,
        state: 0,
        qualification: 0,
        since: D,
        powers,
    };
    [
        EntryFields::generating(7, UnitKind::W1, working, D, 200_000, 80_000),
        both_ways(7, UnitKind::M1, [100_000, 20_000, 60_000, 10_000]),
        EntryFields::generating(9, UnitKind::Z1, 0, D, 50_000, 0),
        both_ways(12, UnitKind::A, [40_000, 10_000, 30_000, 0]),
    ]
    .map(|entry| entry.bytes())
    .concat()
}

/// The roster, then the reports.
pub fn stream() -> Vec<u8> {
    let reports = steps().into_iter().flat_map(|step| step.report.bytes());
    roster().into_iter().chain(reports).collect()
}

/// The reports in order.
pub fn steps() -> Vec<Step> {
    let mut steps = deratings_and_forced_work();
    steps.extend(faulty_forms());
    steps.extend(other_units());
    steps.extend(stops());
    steps.extend(events());
    steps.extend(early_end());
    steps
}

/// Unit 1's positive derating of 20,000 kW from 19:00 to 21:00.
fn derating() -> ReportFields {
    ReportFields::creation(1, 7, RecordType::PositiveDerating)
        .over(at(19, 0), at(21, 0))
        .at(20_000)
        .stamped(at(18, 5))
        .named(1)
}

/// Another derating of unit 1, clear of the first one.
fn later_derating() -> ReportFields {
    derating()
        .over(at(22, 30), at(23, 0))
        .at(20_000)
        .stamped(at(18, 12))
        .named(4)
}

/// Unit 1's forced work from 19:00 to 20:00.
fn forced(level: i32) -> ReportFields {
    ReportFields::creation(1, 7, RecordType::MustRun)
        .over(at(19, 0), at(20, 0))
        .at(level)
        .stamped(at(18, 6))
        .named(2)
}

/// The derating up to 22:00, as its second version.
fn longer_derating() -> ReportFields {
    ReportFields {
        operation: Operation::Update as u8,
        revision: 2,
        text: b"feed pump B still out".to_vec(),
        ..derating()
            .over(at(19, 0), at(22, 0))
            .at(20_000)
            .stamped(at(18, 10))
    }
}

fn deratings_and_forced_work() -> Vec<Step> {
    let overlapping = derating()
        .over(at(19, 30), at(20, 30))
        .at(5_000)
        .stamped(at(18, 8))
        .named(3);
    vec![
        step(
            "derating of 20,000 kW, 19:00 to 21:00",
            derating(),
            (0, 0, 0),
        ),
        step(
            "forced work at 190,000 kW beside it: only 180,000 are left",
            forced(190_000),
            (17, 0, 0),
        ),
        step("forced work at 180,000 kW", forced(180_000), (0, 0, 0)),
        step("a second derating over the first", overlapping, (15, 0, 0)),
        step(
            "the first derating changed to end at 22:00, with a text",
            longer_derating(),
            (0, 0, 0),
        ),
        step(
            "the same change sent again, with the same ordinal",
            longer_derating(),
            (13, 0, 0),
        ),
        step(
            "a change of a record that was never created",
            longer_derating().named(99),
            (12, 0, 0),
        ),
    ]
}

fn faulty_forms() -> Vec<Step> {
    let from = |start| later_derating().over(start, at(23, 0)).at(20_000);
    let mut gap = later_derating().stepping(&[(at(22, 45), 20_000), (at(23, 0), 10_000)]);
    gap.parts[1].start += 1;
    vec![
        step("a planned start at 22:37", from(at(22, 37)), (7, 0, 0)),
        step(
            "a planned start at 17:00, which has passed",
            from(at(17, 0)),
            (6, 0, 0),
        ),
        step(
            "a derating of 200,001 kW, Pmax being 200,000",
            later_derating().at(200_001),
            (16, 0, 0),
        ),
        step("two parts with a minute between them", gap, (8, 0, 2)),
    ]
}

/// The derating by some owner on some unit.
fn derating_of(unit: u16, owner: u16, stamp: u32) -> ReportFields {
    ReportFields {
        unit,
        owner,
        ..derating().stamped(stamp)
    }
}

/// Unit 2's forced work for an hour.
fn forced_storage(level: i32, hour: u32, name: u8) -> ReportFields {
    ReportFields {
        unit: 2,
        ..forced(0)
            .over(at(hour, 0), at(hour + 1, 0))
            .at(level)
            .stamped(at(18, 16))
            .named(name)
    }
}

/// Unit 4's stop of both directions.
fn planned_stop(qualification: u8) -> ReportFields {
    ReportFields {
        direction: Direction::Both as u8,
        ..ReportFields::creation(4, 12, RecordType::Outage)
            .qualified(qualification)
            .over(at(20, 0), at(23, 0))
            .stamped(at(18, 18))
            .named(1)
    }
}

fn other_units() -> Vec<Step> {
    let by_owner_7 = |unit| derating_of(unit, 7, at(18, 15));
    let too_late = derating_of(3, 9, LAST_MINUTE.0 + 1);
    vec![
        step(
            "unit 5, which is not in the roster",
            by_owner_7(5),
            (3, 0, 0),
        ),
        step("unit 3, reported by owner 7", by_owner_7(3), (3, 0, 0)),
        step(
            "forced work at 110,000 kW, Pmax being 100,000",
            forced_storage(110_000, 19, 1),
            (0, 2, 0),
        ),
        step(
            "forced work at 15,000 kW, Pmin being 20,000",
            forced_storage(15_000, 20, 2),
            (0, 4, 0),
        ),
        step(
            "a stop with qualification 8 (RE), which no report may carry",
            planned_stop(RESERVE_SHUTDOWN),
            (4, 0, 0),
        ),
        step(
            "a planned stop of both directions",
            planned_stop(2),
            (0, 0, 0),
        ),
        step("a stamp after the year 2049", too_late, (4, 0, 0)),
    ]
}

/// Unit 1's begun stop to 22:00, stamped five minutes after its start.
fn begun_stop(qualification: u8, start: u32, name: u8) -> ReportFields {
    ReportFields::creation(1, 7, RecordType::Outage)
        .begun()
        .qualified(qualification)
        .over(start, at(22, 0))
        .stamped(start + 5)
        .named(name)
}

fn withdrawal(report: ReportFields, stamp: u32) -> ReportFields {
    ReportFields {
        operation: Operation::Withdraw as u8,
        revision: 2,
        parts: Vec::new(),
        ..report.stamped(stamp)
    }
}

/// Unit 1's event, stamped in its minute.
fn event(code: u8, minute: u32) -> ReportFields {
    ReportFields::creation(1, 7, RecordType::Event)
        .begun()
        .qualified(code)
        .over(minute, minute)
        .stamped(minute)
}

fn stops() -> Vec<Step> {
    let second = || begun_stop(2, at(18, 40), 11);
    vec![
        step(
            "a stop RA that began at 18:20, over the derating and the forced work",
            begun_stop(1, at(18, 20), 10),
            (0, 1, 0),
        ),
        step(
            "a stop RB that began at 18:40: the one before closes",
            second(),
            (0, 9, 0),
        ),
        step(
            "that stop withdrawn, though it has begun",
            withdrawal(second(), at(18, 50)),
            (14, 0, 0),
        ),
        step(
            "the forced work withdrawn",
            withdrawal(forced(0), at(18, 52)),
            (0, 0, 0),
        ),
    ]
}

fn events() -> Vec<Step> {
    vec![
        step(
            "event 1 at 19:50, the boiler is lit",
            event(1, at(19, 50)),
            (0, 0, 0),
        ),
        step(
            "event 4 at 20:00: no arrow from a lit boiler to work",
            event(4, at(20, 0)),
            (18, 0, 0),
        ),
        step(
            "a derating stamped 18:30, before the unit's last stamp",
            later_derating().stamped(at(18, 30)),
            (10, 0, 0),
        ),
    ]
}

/// The derating up to 22:00, which began at 19:00, as its third version.
fn begun_derating() -> ReportFields {
    ReportFields {
        revision: 3,
        text: Vec::new(),
        ..longer_derating().begun().stamped(at(20, 9))
    }
}

/// Its end before 22:00, as its fourth version.
fn ended_derating(end: u32) -> ReportFields {
    ReportFields {
        revision: 4,
        text: b"feed pump B back".to_vec(),
        ..begun_derating().ended_early(end).stamped(at(20, 10))
    }
}

fn early_end() -> Vec<Step> {
    vec![
        step(
            "the first derating ended at 20:07 (end mark 2), but it is only planned so far",
            ended_derating(at(20, 7)).stamped(at(20, 8)),
            (14, 0, 0),
        ),
        step(
            "the first derating changed: it began at 19:00",
            begun_derating(),
            (0, 0, 0),
        ),
        step(
            "its end at 20:17 (end mark 2), which has not come",
            ended_derating(at(20, 17)),
            (6, 0, 0),
        ),
        step(
            "its end at 20:07 (end mark 2) instead of 22:00, with a text: it leaves",
            ended_derating(at(20, 7)),
            (0, 0, 0),
        ),
        step(
            "the same end sent again: the derating is gone",
            ended_derating(at(20, 7)),
            (12, 0, 0),
        ),
    ]
}
