//! Questions 2 to 19 on hand-made reports; numbers in comments are those of READINGS.

use crate::{
    again, begun_outage, derating, event, fresh, must_run, negative, of_type, off_grid, outage,
    towards, update, with, withdrawal, TestRegister, A, M1, OWNER, W1, Z1,
};
use reference::answer;
use reference::codes::RecordType;
use reference::compose::{PartFields, ReportFields, SlotFields};
use reference::worked_examples::D;

const LATE: u32 = 26_298_720;

/// Question 2 and the answer to bytes.
fn number_of(bytes: &[u8]) -> u8 {
    answer(&mut TestRegister::new().bytes, bytes).number
}

fn changed(change: impl Fn(&mut ReportFields)) -> u8 {
    fresh(&with(derating(W1), change))
}

#[test]
fn question_2() {
    let good = with(derating(W1), |fields| fields.text = vec![0xFF; 200]).bytes();
    assert_eq!(number_of(&good), 0);
    for at in [0, 1, 46, 47, 48, 49, 50, 51, 64, 65] {
        let mut bytes = good.clone();
        bytes[at] ^= 1;
        assert_eq!(number_of(&bytes), 2, "byte {at}");
    }
    assert_eq!(number_of(&[]), 2);
    assert_eq!(number_of(&good[..good.len() - 1]), 2);
    assert_eq!(number_of(&[&good[..], &[0]].concat()), 2);
    let long_text = with(derating(W1), |fields| fields.text = vec![0; 201]);
    assert_eq!(number_of(&long_text.bytes()), 2);
    let parts = |count| {
        let steps: Vec<(u32, i32)> = (1..=count).map(|part| (D + 60 + 15 * part, 1)).collect();
        derating(W1)
            .over(D + 60, D + 60 + 15 * count)
            .stepping(&steps)
    };
    assert_eq!(fresh(&parts(100)), 0);
    assert_eq!(fresh(&parts(101)), 2);
}

#[test]
fn question_3() {
    for (unit, owner) in [
        (0, OWNER),
        (5, OWNER),
        (65_535, OWNER),
        (1, 0),
        (1, 8),
        (1, 1_007),
    ] {
        assert_eq!(
            changed(|fields| (fields.unit, fields.owner) = (unit, owner)),
            3
        );
    }
    // 3 before 4.
    let both = |fields: &mut ReportFields| (fields.unit, fields.record_type) = (5, 0);
    assert_eq!(changed(both), 3);
}

#[test]
fn question_4_codes() {
    for code in [0, 7, 255] {
        assert_eq!(changed(|fields| fields.record_type = code), 4);
    }
    for code in [0, 4, 255] {
        assert_eq!(changed(|fields| fields.operation = code), 4);
        assert_eq!(changed(|fields| fields.direction = code), 4);
    }
    for code in [0, 3, 255] {
        assert_eq!(changed(|fields| fields.start_mark = code), 4);
    }
    for code in [0, 3, 17, 255] {
        assert_eq!(changed(|fields| fields.end_mark = code), 4);
    }
    for revision in [0, 10_000, u16::MAX] {
        assert_eq!(changed(|fields| fields.revision = revision), 4);
    }
    assert_eq!(changed(|fields| fields.revision = 9_999), 0);
}

#[test]
fn question_4_qualifications() {
    for (code, number) in [(0, 4), (1, 0), (7, 0), (8, 4), (9, 4)] {
        assert_eq!(fresh(&outage(W1).qualified(code)), number);
    }
    for (code, number) in [(0, 4), (1, 0), (5, 0), (6, 4)] {
        assert_eq!(fresh(&off_grid(D + 5).qualified(code)), number);
    }
    for report in [derating(W1), negative(W1, 0), must_run(W1, 90_000)] {
        assert_eq!(fresh(&report), 0);
        assert_eq!(fresh(&report.qualified(1)), 4);
    }
    for (code, number) in [(0, 4), (1, 18), (5, 0), (6, 18), (7, 4)] {
        assert_eq!(fresh(&event(code, D + 10)), number);
    }
}

#[test]
fn question_4_times() {
    for late in [LATE, u32::MAX] {
        assert_eq!(changed(|fields| fields.stamp = late), 4);
        assert_eq!(changed(|fields| fields.start = late), 4);
        assert_eq!(changed(|fields| fields.end = late), 4);
        assert_eq!(changed(|fields| fields.parts[0].start = late), 4);
        assert_eq!(changed(|fields| fields.parts[0].end = late), 4);
        // 23, 25: of withdrawals, stops and events too, and before 8.
        let late_part = PartFields {
            start: D + 60,
            end: late,
            power: 0,
        };
        for report in [outage(W1), event(5, D + 10), withdrawal(derating(W1))] {
            let report = with(report, |fields| fields.parts = vec![late_part]);
            assert_eq!(fresh(&report), 4);
        }
        assert_eq!(
            fresh(&with(withdrawal(derating(W1)), |fields| fields.end = late)),
            4
        );
    }
}

#[test]
fn question_4_events() {
    assert_eq!(fresh(&event(5, D + 10)), 0);
    assert_eq!(fresh(&event(5, D + 10).named(1)), 4);
    assert_eq!(
        fresh(&with(event(5, D + 10), |fields| fields.mrid[15] = 1)),
        4
    );
    for operation in [2, 3] {
        assert_eq!(
            fresh(&with(event(5, D + 10), |fields| fields.operation = operation)),
            4
        );
    }
    // 24: a planned mark is in range.
    assert_eq!(
        fresh(&with(event(5, D + 10), |fields| fields.start_mark = 1)),
        6
    );
    assert_eq!(
        fresh(&with(event(5, D + 10), |fields| fields.start_mark = 3)),
        4
    );
    assert_eq!(
        fresh(&with(event(5, D + 10), |fields| fields.end_mark = 2)),
        4
    );
    // 26: other types may have a zero identifier.
    assert_eq!(fresh(&derating(W1).named(0)), 0);
}

#[test]
fn question_5() {
    let small = |report: ReportFields| report.at(1);
    let off_grid_on = |unit| with(off_grid(D + 5), |fields| fields.unit = unit);
    let event_on = |unit| with(event(5, D + 10), |fields| fields.unit = unit);
    for (unit, two_way) in [(W1, false), (M1, true), (Z1, false), (A, true)] {
        for direction in 1..=3 {
            let one_way = direction == 1;
            let derated = one_way || (two_way && direction == 2);
            let expect = |yes: bool| if yes { 0 } else { 5 };
            let stops = one_way || two_way;
            assert_eq!(fresh(&towards(direction, outage(unit))), expect(stops));
            for report in [small(derating(unit)), small(negative(unit, 1))] {
                assert_eq!(fresh(&towards(direction, report)), expect(derated));
            }
            let forced = derated && unit != A;
            let report = towards(direction, must_run(unit, 30_000));
            assert_eq!(fresh(&report), expect(forced), "{unit} {direction}");
            let w1 = unit == W1 && one_way;
            assert_eq!(fresh(&towards(direction, off_grid_on(unit))), expect(w1));
            assert_eq!(fresh(&towards(direction, event_on(unit))), expect(w1));
        }
    }
    // 28: withdrawals too.
    assert_eq!(fresh(&towards(2, withdrawal(derating(W1)))), 5);
}

#[test]
fn question_6() {
    let at = |start, end| derating(W1).over(start, end).at(1);
    assert_eq!(fresh(&at(D + 10, D + 120)), 6);
    assert_eq!(fresh(&at(D + 9, D + 120)), 6);
    assert_eq!(fresh(&at(D + 15, D + 120)), 0);
    assert_eq!(fresh(&at(D + 120, D + 120)), 6);
    assert_eq!(fresh(&at(D + 135, D + 120)), 6);
    assert_eq!(fresh(&at(D + 11, D + 120).begun()), 6);
    assert_eq!(fresh(&at(D + 10, D + 120).begun()), 0);
    assert_eq!(fresh(&at(0, D + 120).begun()), 0);
    assert_eq!(fresh(&at(D + 5, D + 10).begun()), 6);
    assert_eq!(fresh(&at(D, D + 15).begun().stamped(D + 15)), 6);
    assert_eq!(fresh(&at(D, D + 15).begun().stamped(D + 14)), 0);
    // 27: planned off-grid work.
    let planned = with(off_grid(D + 60), |fields| fields.start_mark = 1);
    assert_eq!(fresh(&planned), 6);
    assert_eq!(fresh(&event(5, D + 11)), 6);
    assert_eq!(fresh(&event(5, D + 10).over(D + 9, D + 10)), 6);
    assert_eq!(fresh(&event(5, D + 10).over(D + 9, D + 8)), 6);
}

#[test]
fn question_7() {
    let at = |start, end| derating(W1).over(start, end).at(1);
    assert_eq!(fresh(&at(D + 61, D + 120)), 7);
    assert_eq!(fresh(&at(D + 60, D + 121)), 7);
    assert_eq!(fresh(&at(D + 7, D + 120).begun()), 0);
    assert_eq!(fresh(&at(D + 7, D + 119).begun()), 7);
    let steps = |inner: u32| at(D, D + 120).begun().stepping(&[(inner, 1), (D + 120, 1)]);
    // 31: the part end equal to the stamp is free.
    for (inner, number) in [
        (D + 3, 0),
        (D + 10, 0),
        (D + 11, 7),
        (D + 14, 7),
        (D + 15, 0),
    ] {
        assert_eq!(fresh(&steps(inner)), number);
    }
    assert_eq!(fresh(&begun_outage(W1, 1, D + 7)), 0);
    assert_eq!(fresh(&outage(W1).over(D + 60, D + 119)), 7);
    assert_eq!(fresh(&outage(W1).over(D + 59, D + 120)), 7);
    assert_eq!(fresh(&off_grid(D + 5).over(D + 5, D + 179)), 7);
    // 32: parts of stops are asked too, before 8 forbids them; starts are not asked.
    let part = |start, end| {
        with(outage(W1), |fields| {
            fields.parts = vec![PartFields {
                start,
                end,
                power: 0,
            }]
        })
    };
    assert_eq!(fresh(&part(D + 60, D + 119)), 7);
    assert_eq!(fresh(&part(D + 61, D + 120)), 8);
    assert_eq!(fresh(&part(D + 1, D + 9)), 8);
}

fn parts(list: &[(u32, u32)]) -> u8 {
    changed(|fields| {
        fields.parts = list
            .iter()
            .map(|&(start, end)| PartFields {
                start: D + start,
                end: D + end,
                power: 1,
            })
            .collect()
    })
}

#[test]
fn question_8() {
    assert_eq!(parts(&[(60, 120)]), 0);
    assert_eq!(parts(&[(60, 75), (75, 90), (90, 120)]), 0);
    for list in [
        &[][..],
        &[(60, 105)],
        &[(60, 135)],
        &[(61, 120)],
        &[(45, 120)],
        &[(60, 90), (91, 120)],
        &[(60, 90), (89, 120)],
        &[(90, 120), (60, 90)],
        &[(60, 60), (60, 120)],
        &[(60, 120), (120, 120)],
        &[(60, 120), (60, 120)],
        &[(60, 120), (120, 135)],
        &[(60, 90), (90, 75), (75, 120)],
        &[(120, 60)],
    ] {
        assert_eq!(parts(list), 8, "{list:?}");
    }
    for report in [negative(W1, 0), must_run(W1, 90_000)] {
        assert_eq!(fresh(&with(report, |fields| fields.parts.clear())), 8);
    }
    // 34: parts where none may be.
    for report in [outage(W1), begun_outage(W1, 1, D + 5), off_grid(D + 5)] {
        assert_eq!(fresh(&report.at(0)), 8);
    }
    assert_eq!(fresh(&event(5, D + 10).at(0)), 8);
    assert_eq!(fresh(&again(3, derating(W1))), 8);
}

#[test]
fn question_9() {
    for (power, number) in [
        (0, 0),
        (-1, 9),
        (i32::MIN, 9),
        (200_000, 0),
        (99_999_999, 16),
        (100_000_000, 9),
        (i32::MAX, 9),
    ] {
        assert_eq!(fresh(&derating(W1).at(power)), number);
    }
    let second = derating(W1).stepping(&[(D + 90, 1), (D + 120, -1)]);
    assert_eq!(fresh(&second), 9);
    assert_eq!(
        TestRegister::new().answer(&must_run(W1, 99_999_999)),
        (0, 2, 0)
    );
}

#[test]
fn question_10() {
    let mut register = TestRegister::new();
    register.expect([
        (derating(W1).stamped(D - 1), 10),
        (derating(W1).stamped(D), 0),
        (outage(W1).stamped(D + 20).over(D + 600, D + 660), 0),
        (event(5, D + 10).stamped(D + 19), 10),
        (withdrawal(derating(W1)).stamped(D + 19), 10),
        (update(derating(W1)).stamped(D + 19), 10),
        // 36: the last stamp is the unit's own, equal stamps pass.
        (derating(M1).stamped(D + 1), 0),
        (withdrawal(derating(W1)).stamped(D + 20), 0),
    ]);
    assert_eq!(register.row(W1), (5, 0, 0, 20));
    assert_eq!(register.row(M1), (0, 0, 0, 1));
}

#[test]
fn questions_11_and_12() {
    let mut register = TestRegister::new();
    let later = |stamp| derating(W1).over(D + 180, D + 240).at(1).stamped(stamp);
    register.expect([
        (update(derating(W1)), 12),
        (withdrawal(derating(W1)), 12),
        (derating(W1), 0),
        (derating(W1), 11),
        (outage(W1).named(1), 11),
        // 39: of this unit only.
        (derating(M1), 0),
        (update(derating(Z1)), 12),
        // 38: live up to the minute before the end.
        (later(D + 119), 11),
        (update(later(D + 120)), 12),
        (withdrawal(later(D + 120)), 12),
        (later(D + 120), 0),
    ]);
    // 26: zero identifiers clash with each other, not with free slots.
    let mut register = TestRegister::new();
    register.expect([
        (update(derating(W1).named(0)), 12),
        (derating(W1).named(0), 0),
        (outage(W1).over(D + 300, D + 360).named(0), 11),
        // 65.
        (event(5, D + 10), 0),
    ]);
}

#[test]
fn question_13() {
    let mut register = TestRegister::new();
    let record = with(towards(1, derating(M1)), |fields| fields.revision = 5);
    let with_revision =
        |revision| with(update(record.clone()), |fields| fields.revision = revision);
    register.expect([
        (record.clone(), 0),
        (with_revision(4), 13),
        (with_revision(5), 13),
        (with(with_revision(6), |fields| fields.record_type = 3), 13),
        (towards(2, with_revision(6)), 13),
        (with_revision(6), 0),
        (with_revision(6), 13),
        (
            with(with_revision(9_999), |fields| fields.stamp = D + 20),
            0,
        ),
        (
            with(withdrawal(record.clone()).stamped(D + 20), |fields| {
                fields.revision = 9_999
            }),
            13,
        ),
    ]);
    let mut register = TestRegister::new();
    register.expect([
        (outage(M1), 0),
        (update(outage(M1)).qualified(2), 13),
        (withdrawal(outage(M1)).qualified(2), 13),
        (towards(3, withdrawal(outage(M1))), 13),
        (withdrawal(outage(M1)), 0),
        (withdrawal(outage(M1)), 12),
    ]);
}

#[test]
fn question_14() {
    let begun = derating(W1).over(D + 5, D + 120).at(1).begun();
    let moved = |start| update(begun.clone()).over(start, D + 120).at(1);
    let mut register = TestRegister::new();
    register.expect([
        (begun.clone(), 0),
        (moved(D + 4), 14),
        (moved(D + 6), 14),
        (update(derating(W1)), 14),
        (withdrawal(begun.clone()), 14),
        (
            with(withdrawal(begun.clone()), |fields| fields.start_mark = 1),
            14,
        ),
        (moved(D + 5).over(D + 5, D + 240).at(7), 0),
    ]);
    // 41: a planned record whose start has passed; the withdrawal's own mark is free.
    let withdrawn = with(withdrawal(derating(W1)).stamped(D + 70), |fields| {
        fields.start_mark = 2
    });
    TestRegister::new().expect([(derating(W1), 0), (withdrawn, 0)]);
    let begins = update(derating(W1)).begun().stamped(D + 70);
    TestRegister::new().expect([(derating(W1), 0), (begins, 0)]);
    let planned_anew = update(derating(W1))
        .over(D + 75, D + 120)
        .at(1)
        .stamped(D + 70);
    TestRegister::new().expect([(derating(W1), 0), (planned_anew, 0)]);
}

#[test]
fn question_15() {
    let second = |start, end| derating(W1).over(start, end).at(1).named(9);
    let mut register = TestRegister::new();
    register.expect([
        (derating(W1), 0),
        (second(D + 45, D + 75), 15),
        (second(D + 105, D + 180), 15),
        (second(D + 75, D + 90), 15),
        (second(D + 15, D + 240), 15),
        (second(D + 60, D + 120), 15),
        (second(D + 120, D + 180), 0),
        (second(D + 45, D + 60).named(10), 0),
        // 43: a record does not stand in its own way, others do.
        (update(derating(W1).over(D + 75, D + 105).at(1)), 0),
        (
            again(
                2,
                with(derating(W1).over(D + 75, D + 135).at(1), |fields| {
                    fields.revision = 2
                }),
            ),
            15,
        ),
        (negative(W1, 1), 0),
    ]);
}

#[test]
fn question_15_closes_older_begun_outages() {
    let stop = |qualification, start, mrid| begun_outage(M1, qualification, start).named(mrid);
    let mut register = TestRegister::new();
    register.expect([
        (stop(1, D + 5, 1), 0),
        // 44: an equal or an earlier start is 15; 47.
        (stop(2, D + 5, 2), 15),
        (stop(2, D + 4, 2), 15),
    ]);
    // A planned one is in the way of a begun one and the other way round.
    register.expect([
        (towards(2, outage(M1).over(D + 60, D + 120).named(3)), 0),
        (towards(3, stop(2, D + 8, 2)), 15),
        (outage(M1).named(4), 15),
    ]);
    assert_eq!(register.answer(&stop(2, D + 6, 2)), (0, 8, 0));
    assert!(
        register.slot(M1, 0)[8..24] == [2; 16],
        "48: the older one's slot is free"
    );
    // A planned one does not close, even when its start has passed.
    let over_planned = begun_outage(M1, 2, D + 70).stamped(D + 75).named(9);
    TestRegister::new().expect([(outage(M1), 0), (over_planned, 15)]);
    // 45: a planned stop that begins.
    let planned = outage(Z1).over(D + 60, D + 120);
    let mut register = TestRegister::new();
    register.expect([
        (planned.clone(), 0),
        (begun_outage(Z1, 1, D + 5).over(D + 5, D + 60).named(1), 0),
    ]);
    let begins = update(planned)
        .begun()
        .over(D + 20, D + 120)
        .stamped(D + 30);
    assert_eq!(register.answer(&begins), (0, 8, 0));
    assert!(register.slot(Z1, 1).iter().all(|&byte| byte == 0));
}

#[test]
fn question_15_directions() {
    let stop = |direction, start, mrid| towards(direction, begun_outage(A, 1, start).named(mrid));
    let mut register = TestRegister::new();
    register.expect([(stop(1, D + 1, 1), 0), (stop(2, D + 2, 2), 0)]);
    // One of both directions closes both, one of a single direction closes it whole.
    assert_eq!(register.answer(&stop(3, D + 3, 3)), (0, 8, 0));
    assert!(
        register.slot(A, 0)[8..24] == [3; 16] && register.slot(A, 1).iter().all(|&byte| byte == 0)
    );
    assert_eq!(register.answer(&stop(2, D + 4, 4)), (0, 8, 0));
    assert!(register.slot(A, 0)[8..24] == [4; 16]);
    assert_eq!(register.answer(&stop(1, D + 3, 5)), (0, 0, 0));
    assert!(register.slot(A, 1)[8..24] == [5; 16]);
}

#[test]
fn question_16() {
    let number = |report: ReportFields| fresh(&report);
    for (unit, direction, positive, negative_limit) in [
        (W1, 1, 200_000, 120_000),
        (M1, 1, 100_000, 80_000),
        (M1, 2, 60_000, 50_000),
        (Z1, 1, 50_000, 40_000),
        (A, 1, 40_000, 30_000),
        (A, 2, 30_000, 30_000),
    ] {
        let up = |power| towards(direction, derating(unit).at(power));
        assert_eq!(number(up(positive)), 0);
        assert_eq!(number(up(positive + 1)), 16);
        let down = |power| towards(direction, negative(unit, power));
        assert_eq!(number(down(negative_limit)), 0);
        assert_eq!(number(down(negative_limit + 1)), 16);
    }
    let second = derating(W1).stepping(&[(D + 90, 1), (D + 120, 200_001)]);
    assert_eq!(number(second), 16);
}

/// A derating or two, then a level.
fn level_after<const N: usize>(deratings: [ReportFields; N], unit: u16, level: i32) -> u8 {
    let mut register = TestRegister::new();
    for report in &deratings {
        assert_eq!(register.answer(report).0, 0);
    }
    register.answer(&must_run(unit, level)).0
}

#[test]
fn question_17_w1_and_m1() {
    // 53: a positive one sets no lower bound, a negative one no upper bound.
    for (level, number) in [(0, 0), (180_000, 0), (180_001, 17)] {
        assert_eq!(level_after([derating(W1)], W1, level), number);
    }
    for (level, number) in [(89_999, 17), (90_000, 0), (99_999_999, 0)] {
        assert_eq!(level_after([negative(W1, 10_000)], W1, level), number);
    }
    let both = || [derating(W1), negative(W1, 10_000)];
    for (level, number) in [(89_999, 17), (90_000, 0), (180_000, 0), (180_001, 17)] {
        assert_eq!(level_after(both(), W1, level), number);
    }
    let all = || [derating(W1).at(200_000)];
    assert_eq!(level_after(all(), W1, 0), 0);
    assert_eq!(level_after(all(), W1, 1), 17);
    // By direction.
    let other = || [towards(2, derating(M1).at(60_000))];
    assert_eq!(level_after(other(), M1, 100_000), 0);
    let mut register = TestRegister::new();
    assert_eq!(
        register.answer(&towards(2, derating(M1).at(20_000))),
        (0, 0, 0)
    );
    assert_eq!(
        register.answer(&towards(2, must_run(M1, 40_001))),
        (17, 0, 0)
    );
    assert_eq!(
        register.answer(&towards(2, must_run(M1, 40_000))),
        (0, 0, 0)
    );
}

#[test]
fn question_17_z1() {
    for (level, number) in [(20_000, 0), (20_001, 17)] {
        assert_eq!(level_after([derating(Z1)], Z1, level), number);
    }
    for (level, number) in [(30_000, 0), (30_001, 17)] {
        assert_eq!(level_after([negative(Z1, 10_000)], Z1, level), number);
    }
    let both = || [derating(Z1), negative(Z1, 10_000)];
    for (level, number) in [(10_000, 0), (10_001, 17)] {
        assert_eq!(level_after(both(), Z1, level), number);
    }
    // 51: a bound below 0 fits no level.
    let below_zero = || [derating(Z1).at(50_000)];
    assert_eq!(level_after(below_zero(), Z1, 0), 17);
    let at_zero = || [derating(Z1).at(30_000), negative(Z1, 10_000)];
    assert_eq!(level_after(at_zero(), Z1, 0), 0);
    assert_eq!(level_after(at_zero(), Z1, 1), 17);
    assert_eq!(level_after([], Z1, 50_000), 0);
}

#[test]
fn question_17_minutes() {
    // The derating steps up for one quarter hour inside the forced part.
    let step = || derating(W1).stepping(&[(D + 75, 20_000), (D + 90, 50_000), (D + 120, 0)]);
    assert_eq!(level_after([step()], W1, 150_000), 0);
    assert_eq!(level_after([step()], W1, 150_001), 17);
    // Only minutes in common count.
    let level = |start, end| must_run(W1, 200_000).over(start, end).at(200_000);
    let mut register = TestRegister::new();
    register.expect([
        (step(), 0),
        (level(D + 75, D + 105), 17),
        (level(D + 45, D + 75), 17),
        (level(D + 90, D + 135), 0),
        (level(D + 45, D + 60).named(9), 0),
        // The derating is judged when it comes second, changes too.
        (update(derating(W1)), 17),
        (update(step()), 0),
    ]);
    // 54: past minutes count as well.
    let mut register = TestRegister::new();
    let begun = |report: ReportFields, power| {
        report
            .begun()
            .over(D, D + 120)
            .stepping(&[(D + 5, power), (D + 120, 0)])
    };
    register.expect([
        (begun(derating(W1), 20_000), 0),
        (begun(must_run(W1, 0), 180_001), 17),
    ]);
}

/// 18: every event in every state.
#[test]
fn question_18_events() {
    for state in 1..=6_u8 {
        for code in 1..=6_u8 {
            let target = match (code, state) {
                (1, 1) => Some((2, 0)),
                (2, 2) => Some((3, 0)),
                (3, 3) => Some((4, 0)),
                (3, 6) | (4, 4) => Some((5, 0)),
                (5, 5 | 6) | (6, 2..=4) => Some((1, 8)),
                _ => None,
            };
            let qualification = u8::from(state == 1 || state == 6);
            let mut register = TestRegister::in_state(state, qualification);
            let given = register.answer(&event(code, D + 7));
            let (number, row) = match target {
                Some((state, qualification)) => (0, (state, qualification, 7, 10)),
                None => (18, (state, qualification, 0, 0)),
            };
            assert_eq!(given, (number, 0, 0), "event {code} in {state}");
            assert_eq!(register.row(W1), row);
        }
    }
}

#[test]
fn question_18_outages_and_off_grid_work() {
    for state in 1..=6_u8 {
        let qualification = u8::from(state == 1 || state == 6);
        for reason in 1..=7_u8 {
            let mut register = TestRegister::in_state(state, qualification);
            let number = if (state, reason) == (1, 1) { 18 } else { 0 };
            assert_eq!(
                register.answer(&begun_outage(W1, reason, D + 5)),
                (number, 0, 0)
            );
            if number == 0 {
                assert_eq!(register.row(W1), (1, reason, 5, 10));
            }
        }
        let mut register = TestRegister::in_state(state, qualification);
        let number = if state == 5 { 0 } else { 18 };
        assert_eq!(register.answer(&off_grid(D + 5)), (number, 0, 0));
        if number == 0 {
            assert_eq!(register.row(W1), (6, 2, 5, 10));
        }
    }
    // 61: after RE every reason fits.
    for reason in 1..=7 {
        assert_eq!(
            TestRegister::in_state(1, 8).answer(&begun_outage(W1, reason, D + 5)),
            (0, 0, 0)
        );
    }
}

#[test]
fn question_18_since() {
    // 60: strictly after since.
    for (start, number) in [(D - 1, 18), (D, 18), (D + 1, 0)] {
        assert_eq!(fresh(&event(5, start)), number);
        assert_eq!(fresh(&begun_outage(W1, 1, start)), number);
        assert_eq!(fresh(&off_grid(start)), number);
        // 59: other kinds have no such question, nor have deratings.
        assert_eq!(fresh(&begun_outage(M1, 1, start)), 0);
        assert_eq!(fresh(&derating(W1).begun().over(start, D + 120).at(1)), 0);
    }
    // A planned stop moves no state; beginning it does (58).
    let mut register = TestRegister::new();
    register.expect([(outage(W1), 0)]);
    assert_eq!(register.row(W1), (5, 0, 0, 10));
    let begins = update(outage(W1))
        .begun()
        .over(D + 62, D + 120)
        .stamped(D + 70);
    register.expect([(begins.clone(), 0)]);
    assert_eq!(register.row(W1), (1, 1, 62, 70));
    // A change of the begun stop is not asked and moves nothing.
    register.expect([(update(begins).over(D + 62, D + 240).stamped(D + 71), 0)]);
    assert_eq!(register.row(W1), (1, 1, 62, 71));
}

#[test]
fn question_19() {
    let records = |count: u8, end: u32| {
        (0..count).map(move |place| {
            let start = D + 60 + 15 * u32::from(place);
            derating(W1)
                .over(start, start + end)
                .at(1)
                .named(place + 10)
        })
    };
    let mut register = TestRegister::new();
    for report in records(7, 15) {
        assert_eq!(register.answer(&report), (0, 0, 0));
    }
    register.expect([
        (off_grid(D + 5), 0),
        (outage(W1), 19),
        (must_run(W1, 90_000), 19),
        // A change needs no slot.
        (update(off_grid(D + 5)).over(D + 5, D + 240), 0),
    ]);
    // 63: the off-grid work leaves at the state change and makes room.
    let mut full = TestRegister {
        bytes: register.bytes.clone(),
    };
    assert_eq!(full.answer(&begun_outage(W1, 1, D + 8)), (0, 9, 0));
    assert!(
        full.slot(W1, 7)[2] == 1,
        "68: the lowest free slot is the one that left"
    );
    register.expect([
        (event(3, D + 9), 0),
        (outage(W1).over(D + 600, D + 660), 0),
        (must_run(W1, 90_000).over(D + 600, D + 660).at(90_000), 19),
        // An event needs no slot, nor does a withdrawal.
        (event(5, D + 10), 0),
        (withdrawal(outage(W1)), 0),
    ]);
}

/// The slot of a derating in two parts, and the report of it.
fn two_parts() -> (SlotFields, ReportFields) {
    let slot = SlotFields {
        record_type: 2,
        direction: 1,
        qualification: 0,
        start_mark: 1,
        revision: 1,
        mrid: [1; 16],
        stamp: D + 10,
        start: D + 60,
        end: D + 120,
        pairs: vec![(D + 90, 20_000), (D + 120, 30_000)],
    };
    let report = derating(W1).stepping(&[(D + 90, 20_000), (D + 120, 30_000)]);
    (slot, report)
}

#[test]
fn a_creation_writes_its_slot_and_the_last_stamp() {
    let (slot, report) = two_parts();
    let mut register = TestRegister::new();
    let mut expected = register.bytes.clone();
    register.expect([(report, 0)]);
    expected[16..20].copy_from_slice(&(D + 10).to_le_bytes());
    expected[64..64 + 888].copy_from_slice(&slot.bytes());
    assert!(register.bytes == expected);
}

/// 67: a change rewrites its slot, all of it, in its place.
#[test]
fn a_change_rewrites_its_slot_and_a_withdrawal_empties_it() {
    let (slot, report) = two_parts();
    let shorter = update(derating(W1)).over(D + 60, D + 90).at(7);
    let mut register = TestRegister::new();
    register.expect([
        (report, 0),
        (negative(W1, 1), 0),
        (shorter.clone().stamped(D + 20), 0),
    ]);
    let rewritten = SlotFields {
        revision: 2,
        stamp: D + 20,
        end: D + 90,
        pairs: vec![(D + 90, 7)],
        ..slot
    };
    assert!(register.slot(W1, 0) == rewritten.bytes());
    let withdrawn = withdrawal(shorter).stamped(D + 20);
    register.expect([(withdrawn, 0)]);
    assert!(register.slot(W1, 0).iter().all(|&byte| byte == 0));
    assert_eq!(register.slot(W1, 1)[2], 3);
}

/// 64: a withdrawal's own times are in range, no more is asked of them.
#[test]
fn withdrawals_skip_times_and_overlap() {
    let second = derating(W1).over(D + 120, D + 180).at(1).named(2);
    let withdrawn = |start, end| withdrawal(second.clone()).over(start, end);
    for (start, end) in [
        (D + 60, D + 120),
        (D + 61, D + 119),
        (D + 120, D + 60),
        (0, 0),
        (D + 5, D + 7),
    ] {
        let mut register = TestRegister::new();
        register.expect([
            (derating(W1), 0),
            (second.clone(), 0),
            (withdrawn(start, end), 0),
        ]);
        assert_eq!([register.slot(W1, 0)[2], register.slot(W1, 1)[2]], [2, 0]);
    }
}

/// 66: dead slots become zeros at every acceptance, of the report's unit alone.
#[test]
fn dead_slots_are_emptied() {
    let mut register = TestRegister::new();
    register.expect([
        (derating(W1).over(D + 60, D + 75).at(1), 0),
        (negative(W1, 1).over(D + 60, D + 90).at(1), 0),
        (derating(M1).over(D + 60, D + 75).at(1), 0),
        (must_run(W1, 90_000).over(D + 60, D + 240).at(90_000), 0),
    ]);
    let empty = |register: &TestRegister, unit, index| {
        register.slot(unit, index).iter().all(|&byte| byte == 0)
    };
    register.expect([(event(5, D + 74).stamped(D + 74), 0)]);
    assert!(!empty(&register, W1, 0));
    register.expect([(event(1, D + 75).stamped(D + 75), 0)]);
    assert!(empty(&register, W1, 0) && !empty(&register, W1, 1) && !empty(&register, M1, 0));
    register.expect([(withdrawal(must_run(W1, 0)).stamped(D + 90), 0)]);
    assert!(empty(&register, W1, 1) && empty(&register, W1, 2) && !empty(&register, M1, 0));
}

/// 69: an event makes every begun stop and off-grid record leave; planned ones stay.
#[test]
fn state_changes_end_begun_records() {
    let planned = outage(W1).over(D + 600, D + 660).named(9);
    let mut register = TestRegister::new();
    register.expect([
        (planned, 0),
        (off_grid(D + 5), 0),
        (derating(W1).begun().over(D + 5, D + 120).at(1), 0),
    ]);
    register.expect([(event(3, D + 8), 0)]);
    assert_eq!(register.row(W1), (5, 0, 8, 10));
    let types = |register: &TestRegister| [0, 1, 2].map(|index| register.slot(W1, index)[2]);
    assert_eq!(types(&register), [1, 0, 2]);
    assert_eq!(register.answer(&begun_outage(W1, 1, D + 9)), (0, 1, 0));
    assert_eq!(types(&register), [1, 1, 2]);
    register.expect([(event(1, D + 10), 0)]);
    assert_eq!(types(&register), [1, 0, 2]);
}

#[test]
fn the_first_no_is_the_answer() {
    // Everything wrong at once, put right one question after the other.
    let mut report = of_type(W1, RecordType::PositiveDerating)
        .over(D + 61, D + 55)
        .at(-1);
    (report.unit, report.end_mark, report.direction) = (9, 3, 2);
    (report.stamp, report.operation) = (D - 1, 2);
    let mut register = TestRegister::new();
    let mut next = |report: &ReportFields, number| {
        let part = u8::from(number == 8);
        assert_eq!(register.answer(report), (number, 0, part));
    };
    next(&report, 3);
    report.unit = W1;
    next(&report, 4);
    report.end_mark = 1;
    next(&report, 5);
    report.direction = 1;
    next(&report, 6);
    report.end = D + 121;
    next(&report, 7);
    (report.start, report.end) = (D + 60, D + 120);
    report.parts[0].end = D + 45;
    next(&report, 8);
    (report.parts[0].start, report.parts[0].end) = (D + 60, D + 120);
    next(&report, 9);
    report.parts[0].power = 200_001;
    next(&report, 10);
    report.stamp = D;
    next(&report, 12);
    report.operation = 1;
    next(&report, 16);
    report.parts[0].power = 0;
    next(&report, 0);
}
