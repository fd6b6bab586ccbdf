//! The warnings on hand-made reports; numbers in comments are those of READINGS.

use crate::{
    begun_outage, derating, event, must_run, negative, off_grid, outage, towards, update,
    withdrawal, TestRegister, A, M1, W1, Z1,
};
use reference::compose::ReportFields;
use reference::worked_examples::D;

fn last_answer<const N: usize>(reports: [ReportFields; N]) -> (u8, u8, u8) {
    let mut register = TestRegister::new();
    let mut last = (0, 0, 0);
    for report in &reports {
        last = register.answer(report);
    }
    last
}

#[test]
fn outage_and_powers_overlap() {
    for report in [derating(M1), negative(M1, 1), must_run(M1, 50_000)] {
        assert_eq!(last_answer([outage(M1), report.clone()]), (0, 1, 0));
        assert_eq!(last_answer([report.clone(), outage(M1)]), (0, 1, 0));
        assert_eq!(
            last_answer([report.clone(), towards(3, outage(M1))]),
            (0, 1, 0)
        );
        assert_eq!(
            last_answer([towards(2, outage(M1)), report.clone()]),
            (0, 0, 0)
        );
        let after = outage(M1).over(D + 120, D + 180);
        assert_eq!(last_answer([after, report.clone()]), (0, 0, 0));
        let before = outage(M1).over(D + 45, D + 75);
        assert_eq!(last_answer([before, report.clone()]), (0, 1, 0));
        // Changes are judged like creations; withdrawals carry none.
        assert_eq!(
            last_answer([report.clone(), outage(M1), update(report.clone())]),
            (0, 1, 0)
        );
        assert_eq!(
            last_answer([report.clone(), outage(M1), update(outage(M1))]),
            (0, 1, 0)
        );
        assert_eq!(
            last_answer([report.clone(), outage(M1), withdrawal(report)]),
            (0, 0, 0)
        );
    }
    assert_eq!(
        last_answer([towards(3, outage(A)), towards(2, derating(A))]),
        (0, 1, 0)
    );
}

#[test]
fn off_grid_work_neither_gives_nor_gets_warning_1() {
    let planned = outage(W1);
    assert_eq!(last_answer([derating(W1), off_grid(D + 5)]), (0, 0, 0));
    assert_eq!(last_answer([off_grid(D + 5), derating(W1)]), (0, 0, 0));
    assert_eq!(last_answer([planned.clone(), off_grid(D + 5)]), (0, 0, 0));
    assert_eq!(last_answer([off_grid(D + 5), planned]), (0, 0, 0));
}

/// 71: against the block afterwards.
#[test]
fn records_that_left_give_no_warning() {
    let past = derating(W1).begun().over(D + 2, D + 15).at(1);
    let stop = |stamp| begun_outage(W1, 1, D + 5).stamped(stamp);
    assert_eq!(last_answer([past.clone(), stop(D + 14)]), (0, 1, 0));
    assert_eq!(last_answer([past, stop(D + 15)]), (0, 0, 0));
    // The stop that closes the older one gives none for it.
    let older = begun_outage(Z1, 1, D + 1).over(D + 1, D + 240).named(8);
    let newer = begun_outage(Z1, 2, D + 2).over(D + 2, D + 30).named(9);
    assert_eq!(last_answer([older, newer, derating(Z1)]), (0, 0, 0));
}

#[test]
fn levels_above_and_below() {
    for (unit, level, warnings) in [
        (W1, 200_000, 0),
        (W1, 200_001, 2),
        (W1, 80_000, 0),
        (W1, 79_999, 4),
        (W1, 0, 4),
        (M1, 100_001, 2),
        (M1, 19_999, 4),
        // 74: Z1 has the difference above and nothing below.
        (Z1, 40_000, 0),
        (Z1, 40_001, 2),
        (Z1, 0, 0),
    ] {
        assert_eq!(
            last_answer([must_run(unit, level)]),
            (0, warnings, 0),
            "{unit} {level}"
        );
    }
    for (level, warnings) in [(60_000, 0), (60_001, 2), (10_000, 0), (9_999, 4)] {
        assert_eq!(
            last_answer([towards(2, must_run(M1, level))]),
            (0, warnings, 0)
        );
    }
    let both = must_run(W1, 0).stepping(&[(D + 75, 200_001), (D + 120, 0)]);
    assert_eq!(last_answer([both.clone()]), (0, 6, 0));
    assert_eq!(last_answer([outage(W1), both]), (0, 7, 0));
    assert_eq!(last_answer([outage(W1), must_run(W1, 200_001)]), (0, 3, 0));
    assert_eq!(last_answer([outage(W1), must_run(W1, 0)]), (0, 5, 0));
}

/// 53: under one derating alone the other bound still warns.
#[test]
fn levels_beside_deratings() {
    assert_eq!(last_answer([derating(W1), must_run(W1, 79_999)]), (0, 4, 0));
    assert_eq!(
        last_answer([negative(W1, 10_000), must_run(W1, 200_001)]),
        (0, 2, 0)
    );
    let elsewhere = derating(W1).over(D + 120, D + 180).at(1);
    assert_eq!(last_answer([elsewhere, must_run(W1, 200_001)]), (0, 2, 0));
    let other_direction = towards(2, derating(M1).at(1));
    assert_eq!(
        last_answer([other_direction, must_run(M1, 100_001)]),
        (0, 2, 0)
    );
}

/// 72: a derating that uncovers a level carries no warning.
#[test]
fn deratings_carry_no_level_warning() {
    let low = must_run(W1, 79_999);
    assert_eq!(last_answer([low.clone(), derating(W1)]), (0, 0, 0));
    let moved = update(derating(W1)).over(D + 180, D + 240).at(1);
    assert_eq!(last_answer([low, derating(W1), moved]), (0, 0, 0));
}

fn stop(unit: u16, reason: u8, start: u32, mrid: u8) -> ReportFields {
    begun_outage(unit, reason, start).named(mrid)
}

#[test]
fn outages_that_make_others_leave() {
    let (first, second) = (stop(W1, 1, D + 5, 1), stop(W1, 2, D + 8, 2));
    assert_eq!(last_answer([first, second.clone()]), (0, 8, 0));
    let reports = [off_grid(D + 5), second.clone()];
    assert_eq!(last_answer(reports), (0, 8, 0));
    let reports = [derating(W1), off_grid(D + 5), second];
    assert_eq!(last_answer(reports), (0, 9, 0));
    for unit in [M1, Z1, A] {
        let reports = [stop(unit, 1, D + 5, 1), stop(unit, 1, D + 8, 2)];
        assert_eq!(last_answer(reports), (0, 8, 0));
    }
    // 76: a planned stop that begins.
    let begins = update(outage(W1)).begun().over(D + 8, D + 120);
    assert_eq!(
        last_answer([outage(W1), off_grid(D + 5), begins]),
        (0, 8, 0)
    );
}

#[test]
fn outages_that_make_none_leave() {
    // 49: of other kinds only meeting stops leave.
    let other = towards(2, stop(M1, 1, D + 5, 1));
    assert_eq!(last_answer([other, stop(M1, 1, D + 8, 2)]), (0, 0, 0));
    // 75: events carry none, and a dead stop does not leave.
    let reports = [stop(W1, 1, D + 5, 1), event(1, D + 8)];
    assert_eq!(last_answer(reports), (0, 0, 0));
    let short = stop(M1, 1, D + 5, 1).over(D + 5, D + 15);
    let after = stop(M1, 1, D + 8, 2).stamped(D + 15);
    assert_eq!(last_answer([short, after]), (0, 0, 0));
    // 58: nor does a change of the begun stop itself.
    let second = stop(W1, 2, D + 8, 2);
    let longer = update(second.clone()).over(D + 8, D + 240);
    assert_eq!(last_answer([off_grid(D + 5), second, longer]), (0, 0, 0));
}
