//! The readable lines: every code by its name, unknown ones by their numbers.

use crate::{again, derating, event, of_type, off_grid, outage, towards, with, A, M1, W1};
use reference::codes::UnitState::{Firing, InOperation, OffGrid, ShutDown, StartUp, Synchronised};
use reference::codes::{EventCode, RecordType, UnitKind, UnitState};
use reference::compose::{EntryFields, ReportFields};
use reference::questions::event_transition;
use reference::sample::sample;
use reference::show::show;
use reference::worked_examples::D;

/// The line of one report, without its beginning and its times.
fn report_line(report: &ReportFields) -> String {
    let text = show(&report.bytes()).unwrap();
    let line = text.lines().next().unwrap();
    let line = line.strip_prefix("report 1: ").unwrap();
    line.split(", ordinal ").next().unwrap().to_string()
}

/// What the line of one entry says between kind and since.
fn row(kind: u8, state: u8, qualification: u8) -> String {
    let entry = EntryFields {
        kind,
        state,
        qualification,
        ..EntryFields::generating(7, UnitKind::W1, 5, D, 200_000, 80_000)
    };
    let text = show(&entry.bytes()).unwrap();
    let line = text.strip_prefix("entry 1: owner 7, ").unwrap();
    let end = line.find(", since 2026-03-01 00:00, ").unwrap();
    line[..end].to_string()
}

#[test]
fn whole_lines() {
    let begun = outage(W1).begun().over(D + 5, D + 180);
    let id = "04".repeat(16);
    assert_eq!(
        show(&begun.bytes()).unwrap(),
        format!(
            "report 1: unit 1, owner 7, create stop RA, generation, executed, end mark planned, \
             ordinal 1, id {id}, stamp 2026-03-01 00:10, 2026-03-01 00:05 to 2026-03-01 03:00\n"
        )
    );
    let register = show(&sample("register-a-after").unwrap()).unwrap();
    let head = "unit 1: owner 7, W1, state R stop, qualification RA, since 2026-03-01 00:20, \
                generation 200000/80000 kW, consumption 0/0 kW, last stamp 2026-03-01 00:25\n";
    assert!(register.contains(head), "{register}");
    let slot = format!(
        "  slot 3: stop RA, generation, executed, ordinal 1, id {id}, stamp 2026-03-01 00:25, \
         2026-03-01 00:20 to 2026-03-01 03:00\n"
    );
    assert!(register.contains(&slot), "{register}");
    let part = "    part 1: to 2026-03-01 02:00, 20000 kW\n";
    assert!(register.contains(part), "{register}");
}

#[test]
fn qualifications_of_reports() {
    let stop = |code| report_line(&outage(W1).qualified(code));
    let beside = ", generation, planned, end mark planned";
    let letters = ["RA", "RB", "RS", "RK", "Q", "WE", "OS", "RE"];
    for (letters, code) in letters.into_iter().zip(1..) {
        let expected = format!("unit 1, owner 7, create stop {letters}{beside}");
        assert_eq!(stop(code), expected);
    }
    for code in [0, 9, 255] {
        let expected = format!("create stop, qualification {code} unknown{beside}");
        assert!(stop(code).ends_with(&expected), "{}", stop(code));
    }
    let work = |code| report_line(&off_grid(D + 5).qualified(code));
    for (letters, code) in ["PZM", "DZM", "PPW", "PLK", "BLT"].into_iter().zip(1..) {
        let expected = format!("create off-grid work {letters}, generation, executed");
        assert!(work(code).contains(&expected), "{}", work(code));
    }
    assert!(work(6).contains("create off-grid work, qualification 6 unknown, "));
    let derating = |code| report_line(&derating(W1).qualified(code));
    assert!(derating(0).contains("create positive derating, generation, "));
    assert!(derating(3).contains("create positive derating, qualification 3 unknown, "));
}

/// What the line of an event says, and the arrows that it stands for.
const EVENTS: [(&str, &[(UnitState, UnitState)]); 6] = [
    ("R to RO", &[(ShutDown, Firing)]),
    ("RO to U1", &[(Firing, StartUp)]),
    (
        "U1 to U2, RP to P",
        &[(StartUp, Synchronised), (OffGrid, InOperation)],
    ),
    ("U2 to P", &[(Synchronised, InOperation)]),
    (
        "P, RP to R",
        &[(InOperation, ShutDown), (OffGrid, ShutDown)],
    ),
    (
        "RO, U1, U2 to R",
        &[
            (Firing, ShutDown),
            (StartUp, ShutDown),
            (Synchronised, ShutDown),
        ],
    ),
];

#[test]
fn events_by_code_and_arrows() {
    for ((text, arrows), code) in EVENTS.into_iter().zip(1..) {
        let line = report_line(&event(code, D + 10));
        let expected = format!("create event {code} ({text}), generation, executed");
        assert!(line.contains(&expected), "{line}");
        let event = EventCode::from_code(code).unwrap();
        let states = (1..=6).filter_map(UnitState::from_code);
        let led: Vec<_> = states
            .filter_map(|state| Some((state, event_transition(state, event)?)))
            .collect();
        assert_eq!(led, arrows);
    }
    for code in [0, 7, 200] {
        let line = report_line(&event(code, D + 10));
        assert!(line.contains(&format!("create event {code} unknown, ")));
    }
}

#[test]
fn the_other_fields_of_reports() {
    let types = [
        (RecordType::NegativeDerating, "negative derating"),
        (RecordType::MustRun, "forced work"),
    ];
    for (record_type, name) in types {
        let line = report_line(&of_type(W1, record_type));
        assert_eq!(
            line,
            format!("unit 1, owner 7, create {name}, generation, planned, end mark planned")
        );
    }
    let line = report_line(&again(2, towards(2, derating(M1))));
    assert!(line.starts_with("unit 2, owner 7, change positive derating, consumption, "));
    let line = report_line(&again(3, towards(3, outage(A))));
    assert!(line.starts_with("unit 4, owner 7, withdraw stop RA, both directions, "));
    let unknown = with(derating(W1), |fields| {
        (fields.record_type, fields.operation, fields.direction) = (9, 0, 4);
        (fields.start_mark, fields.end_mark) = (3, 255);
    });
    assert_eq!(
        report_line(&unknown),
        "unit 1, owner 7, operation 0 unknown type 9 unknown, direction 4 unknown, \
         start mark 3 unknown, end mark 255 unknown"
    );
    let executed = with(derating(W1), |fields| fields.end_mark = 2);
    assert!(report_line(&executed).ends_with(", end mark executed"));
}

#[test]
fn kinds_states_and_their_qualifications() {
    let w1 = |state, qualification| row(1, state, qualification);
    assert_eq!(w1(1, 8), "W1, state R stop, qualification RE");
    assert_eq!(w1(1, 0), "W1, state R stop, qualification 0 unknown");
    assert_eq!(w1(2, 0), "W1, state RO boiler lit");
    assert_eq!(w1(3, 0), "W1, state U1 start-up before synchronising");
    assert_eq!(w1(4, 0), "W1, state U2 start-up after synchronising");
    assert_eq!(w1(5, 0), "W1, state P work");
    assert_eq!(w1(5, 2), "W1, state P work, qualification 2 unknown");
    assert_eq!(w1(6, 5), "W1, state RP off-grid work, qualification BLT");
    assert_eq!(
        w1(6, 6),
        "W1, state RP off-grid work, qualification 6 unknown"
    );
    assert_eq!(w1(0, 0), "W1, state 0 unknown");
    assert_eq!(w1(7, 1), "W1, state 7 unknown, qualification 1 unknown");
    assert_eq!(row(2, 0, 0), "M1, no state");
    assert_eq!(row(3, 0, 4), "Z1, no state, qualification 4 unknown");
    assert_eq!(row(4, 5, 0), "A, state P work");
    assert_eq!(row(5, 0, 0), "kind 5 unknown, no state");
}
