//! A derating that ended early, on hand-made reports; numbers in comments are those of READINGS-02.

use crate::{
    again, begun_outage, derating, event, must_run, negative, off_grid, outage, towards, update,
    with, withdrawal, TestRegister, A, M1, W1, Z1,
};
use reference::compose::ReportFields;
use reference::fields::{put_u32, u32_at};
use reference::register::{
    head, question_1_register_whole, slot, slot_bytes, Block, BLOCK_SIZE, SLOT_COUNT, SLOT_MARK,
};
use reference::source::Source;
use reference::worked_examples::D;
use reference::{answer, StandAloneBlocks};

const STAMP: u32 = D + 70;
/// Off the quarter hour.
const END: u32 = D + 67;

/// A record as one that began at D+5 and is to end at D+120.
fn begun(record: ReportFields) -> ReportFields {
    let power = record.parts.first().map_or(0, |part| part.power);
    record.begun().over(D + 5, D + 120).at(power)
}

fn begun_derating() -> ReportFields {
    begun(derating(W1))
}

/// The next report on a record, which ends it at D+67, stamp D+70.
fn early_end(record: &ReportFields) -> ReportFields {
    update(record.clone().ended_early(END)).stamped(STAMP)
}

/// The early end of the derating, changed.
fn changed(change: impl Fn(&mut ReportFields)) -> ReportFields {
    with(early_end(&begun_derating()), change)
}

/// The early end of the derating at another minute.
fn ending_at(end: u32) -> ReportFields {
    early_end(&begun_derating()).over(D + 5, end).at(20_000)
}

/// The answer to a report after records that are accepted.
fn after<const N: usize>(records: [ReportFields; N], report: &ReportFields) -> (u8, u8, u8) {
    let mut register = TestRegister::new();
    for record in records {
        assert_eq!(register.answer(&record).0, 0, "{record:?}");
    }
    register.answer(report)
}

/// The number on the begun derating; a refusal carries neither warnings nor part.
fn on_derating(report: &ReportFields) -> u8 {
    let (number, warnings, part) = after([begun_derating()], report);
    assert_eq!((warnings, part), (0, 0));
    number
}

#[test]
fn a_derating_planned_to_later_ended_early() {
    let mut register = TestRegister::new();
    register.expect([(begun_derating(), 0), (early_end(&begun_derating()), 0)]);
    assert!(register.slot(W1, 0).iter().all(|&byte| byte == 0));
    assert_eq!(register.row(W1), (5, 0, 0, 70));
}

/// 7: "0, 3 and above stay 4".
#[test]
fn end_marks_out_of_range() {
    for mark in [0, 3, 4, 16, 17, 18, 128, 255] {
        assert_eq!(on_derating(&changed(|fields| fields.end_mark = mark)), 4);
        let ordinary = with(update(begun_derating()), |fields| fields.end_mark = mark);
        assert_eq!(on_derating(&ordinary), 4);
    }
    assert_eq!(on_derating(&changed(|fields| fields.end_mark = 2)), 0);
    assert_eq!(on_derating(&update(begun_derating())), 0);
    // 3 goes before 4.
    let of_another = changed(|fields| (fields.owner, fields.end_mark) = (9, 3));
    assert_eq!(on_derating(&of_another), 3);
}

/// 7: "End mark 2 on an event or a withdrawal is 4: asked in question 4, before 5."
#[test]
fn events_and_withdrawals_are_4() {
    let marked = |report| with(report, |fields: &mut ReportFields| fields.end_mark = 2);
    assert_eq!(on_derating(&event(5, D + 10)), 0);
    assert_eq!(on_derating(&marked(event(5, D + 10))), 4);
    assert_eq!(on_derating(&marked(event(9, D + 10))), 4);
    for record in [
        derating(W1),
        negative(W1, 1),
        must_run(W1, 90_000),
        outage(W1),
    ] {
        let withdrawn = withdrawal(record.clone());
        assert_eq!(after([record.clone()], &withdrawn), (0, 0, 0));
        assert_eq!(after([record], &marked(withdrawn)), (4, 0, 0));
    }
    let withdrawn = changed(|fields| {
        fields.operation = 3;
        fields.parts.clear();
    });
    assert_eq!(on_derating(&withdrawn), 4);
    // A kind that carries neither event nor direction.
    let event_of_m1 = with(marked(event(5, D + 10)), |fields| fields.unit = M1);
    assert_eq!(on_derating(&event_of_m1), 4);
    let other_direction = with(withdrawn, |fields| fields.direction = 2);
    assert_eq!(on_derating(&other_direction), 4);
}

/// 8: "after 4 and 5".
#[test]
fn kinds_that_do_not_carry_it_are_5() {
    assert_eq!(on_derating(&changed(|fields| fields.direction = 2)), 5);
    let early = with(early_end(&begun(must_run(A, 20_000))), |fields| {
        fields.operation = 1
    });
    assert_eq!(on_derating(&early), 5);
    let consumption = towards(2, early_end(&begun(derating(Z1))));
    assert_eq!(on_derating(&consumption), 5);
    // 4 goes before 5, and 5 before 6.
    let both = |mark| changed(|fields| (fields.direction, fields.end_mark) = (2, mark));
    assert_eq!(on_derating(&both(3)), 4);
    let created = changed(|fields| (fields.direction, fields.operation) = (2, 1));
    assert_eq!(on_derating(&created), 5);
}

/// 8: "on a creation".
#[test]
fn creations_are_6() {
    let creation = changed(|fields| fields.operation = 1);
    assert_eq!(on_derating(&creation), 6);
    assert_eq!(on_derating(&creation.named(9)), 6);
    let ordinary = with(begun_derating().stamped(STAMP), |fields| {
        fields.end_mark = 2
    });
    assert_eq!(on_derating(&ordinary.named(9)), 6);
    assert_eq!(on_derating(&changed(|fields| fields.operation = 2)), 0);
}

/// 8: "on types 1 and 5".
#[test]
fn stops_and_off_grid_work_are_6() {
    for stored in [begun_outage(W1, 1, D + 5), off_grid(D + 5)] {
        let early = early_end(&stored);
        assert_eq!(after([stored.clone()], &early), (6, 0, 0));
        let to_come = with(early, |fields| fields.end = D + 120);
        assert_eq!(after([stored.clone()], &to_come), (6, 0, 0));
        // Parts, which none may be, are asked for later.
        let with_part = early_end(&stored).at(0);
        assert_eq!(after([stored.clone()], &with_part), (6, 0, 0));
        let ordinary = update(stored.clone()).stamped(STAMP);
        assert_eq!(after([stored], &ordinary), (0, 0, 0));
    }
    for unit in [M1, Z1, A] {
        let stored = begun_outage(unit, 1, D + 5);
        assert_eq!(after([stored.clone()], &early_end(&stored)), (6, 0, 0));
    }
}

/// 8: "beside start mark 1".
#[test]
fn a_planned_start_is_6() {
    assert_eq!(on_derating(&changed(|fields| fields.start_mark = 1)), 6);
    assert_eq!(on_derating(&changed(|fields| fields.start_mark = 2)), 0);
    let planned = derating(W1).over(D + 60, D + 120).at(20_000);
    assert_eq!(after([planned.clone()], &early_end(&planned)), (6, 0, 0));
}

/// 8: "where start < end ≤ stamp does not hold".
#[test]
fn ends_at_the_edges() {
    for (end, number) in [
        (D, 6),
        (D + 4, 6),
        (D + 5, 6),
        (D + 6, 0),
        (STAMP - 1, 0),
        (STAMP, 0),
        (STAMP + 1, 6),
        (D + 75, 6),
        // The stored end, and a quarter hour after it.
        (D + 120, 6),
        (D + 135, 6),
    ] {
        assert_eq!(on_derating(&ending_at(end)), number, "{}", end - D);
    }
    // The same times without the mark.
    for (end, number) in [(STAMP, 6), (STAMP + 1, 7), (D + 75, 0), (D + 120, 0)] {
        let ordinary = with(ending_at(end), |fields| fields.end_mark = 1);
        assert_eq!(on_derating(&ordinary), number, "{}", end - D);
    }
    // In the stamp's minute there is no end after the start.
    let at_start = begun_derating().over(D + 10, D + 120).at(20_000);
    for (end, stamp, number) in [
        (D + 10, D + 10, 6),
        (D + 11, D + 10, 6),
        (D + 11, D + 11, 0),
    ] {
        let early = update(at_start.clone().over(D + 10, end).at(20_000));
        let early = with(early.stamped(stamp), |fields| fields.end_mark = 2);
        assert_eq!(after([at_start.clone()], &early).0, number);
    }
}

/// 9: "Question 7 is passed over whole."
#[test]
fn no_end_is_held_to_quarter_hours() {
    for end in D + 6..=STAMP {
        assert_eq!(on_derating(&ending_at(end)), 0, "{}", end - D);
    }
    let steps = [(D + 6, 1), (D + 22, 2), (D + 59, 3), (END, 4)];
    let stepping = early_end(&begun_derating()).stepping(&steps);
    assert_eq!(on_derating(&stepping), 0);
    // A part end after the stamp is off cover before anything else: 8, not 7.
    for end in [D + 75, D + 76, D + 120, D + 121] {
        let late = changed(|fields| fields.parts[0].end = end);
        assert_eq!(after([begun_derating()], &late), (8, 0, 1));
    }
}

/// 10: "Cover is judged by the report's own start and end."
#[test]
fn cover_of_the_shortened_period() {
    let uncovered = |report: &ReportFields| {
        let (number, warnings, part) = after([begun_derating()], report);
        assert_eq!((number, warnings), (8, 0));
        part
    };
    let steps = [(D + 20, 1), (D + 40, 2), (END, 3)];
    let three = |change: &dyn Fn(&mut ReportFields)| {
        with(early_end(&begun_derating()).stepping(&steps), change)
    };
    assert_eq!(on_derating(&three(&|_| ())), 0);
    // A part past the shortened end, parts left over, a list that stops short.
    assert_eq!(uncovered(&three(&|fields| fields.parts[2].end += 1)), 3);
    assert_eq!(uncovered(&three(&|fields| fields.end = D + 39)), 2);
    assert_eq!(uncovered(&three(&|fields| fields.end = D + 40)), 3);
    assert_eq!(uncovered(&three(&|fields| fields.end += 1)), 3);
    assert_eq!(uncovered(&three(&|fields| fields.parts[2].end -= 1)), 3);
    assert_eq!(uncovered(&three(&|fields| fields.parts.truncate(2))), 2);
    // A gap, an overlap, a late first part, no list.
    assert_eq!(uncovered(&three(&|fields| fields.parts[1].start += 1)), 2);
    assert_eq!(uncovered(&three(&|fields| fields.parts[1].start -= 1)), 2);
    assert_eq!(uncovered(&three(&|fields| fields.parts[0].start += 1)), 1);
    assert_eq!(uncovered(&three(&|fields| fields.parts.clear())), 0);
    // The stored parts, which cover the stored period.
    let stored_parts = changed(|fields| fields.parts = begun_derating().parts);
    assert_eq!(uncovered(&stored_parts), 1);
}

/// Minutes one after another, the last part ending with the period.
#[test]
fn a_hundred_parts() {
    let start = D - 90;
    let stored = begun_derating().over(start, D + 120).at(1);
    let steps: Vec<(u32, i32)> = (1..=100).map(|part| (start + part, 1)).collect();
    let early = update(stored.clone().ended_early(D + 10)).stepping(&steps);
    let early = early.stamped(D + 10);
    assert_eq!(after([stored.clone()], &early), (0, 0, 0));
    for place in [1, 2, 57, 99, 100] {
        let broken = with(early.clone(), |fields| {
            fields.parts[usize::from(place) - 1].start += 1
        });
        assert_eq!(after([stored.clone()], &broken), (8, 0, place));
    }
    let short = with(early.clone(), |fields| fields.parts.truncate(99));
    assert_eq!(after([stored.clone()], &short), (8, 0, 99));
    let shorter = with(early, |fields| fields.end -= 1);
    assert_eq!(after([stored], &shorter), (8, 0, 100));
}

/// 10: "Question 9 is still asked".
#[test]
fn powers_out_of_range_are_9() {
    let of = |power| on_derating(&early_end(&begun_derating()).at(power));
    for (power, number) in [
        (-1, 9),
        (i32::MIN, 9),
        (0, 0),
        (99_999_999, 0),
        (100_000_000, 9),
        (i32::MAX, 9),
    ] {
        assert_eq!(of(power), number, "{power}");
    }
    // 8 goes before 9, 9 before 10.
    let uncovered = changed(|fields| (fields.parts[0].start, fields.parts[0].power) = (D, -1));
    assert_eq!(after([begun_derating()], &uncovered), (8, 0, 1));
    let earlier = changed(|fields| (fields.stamp, fields.end) = (D + 9, D + 7));
    let earlier = earlier.over(D + 5, D + 7).at(-1);
    assert_eq!(on_derating(&earlier), 9);
}

/// 11: "10 to 13 as for any change."
#[test]
fn the_stamp_is_not_before_the_last_one() {
    let at = |stamp| ending_at(D + 7).stamped(stamp);
    for (stamp, number) in [(D + 9, 10), (D + 10, 0), (D + 11, 0)] {
        assert_eq!(on_derating(&at(stamp)), number);
    }
}

/// 11: "a record whose stored end is not after the stamp is gone, 12".
#[test]
fn records_that_are_gone_or_unknown_are_12() {
    for (stamp, number) in [(D + 119, 0), (D + 120, 12), (D + 121, 12)] {
        assert_eq!(on_derating(&changed(|fields| fields.stamp = stamp)), number);
    }
    assert_eq!(on_derating(&changed(|fields| fields.mrid[15] ^= 1)), 12);
    assert_eq!(after([], &early_end(&begun_derating())), (12, 0, 0));
    // Of another unit.
    let stored = begun(derating(M1));
    assert_eq!(after([stored], &early_end(&begun_derating())), (12, 0, 0));
    // Ended, withdrawn and closed records are no longer there.
    let ended = early_end(&begun_derating());
    assert_eq!(
        after([begun_derating(), ended.clone()], &again(2, ended)),
        (12, 0, 0)
    );
}

/// 11: 13.
#[test]
fn other_records_and_ordinals_are_13() {
    for (revision, number) in [(1, 13), (2, 0), (3, 0), (9_999, 0)] {
        assert_eq!(
            on_derating(&changed(|fields| fields.revision = revision)),
            number
        );
    }
    for record_type in [3, 4] {
        assert_eq!(
            on_derating(&changed(|fields| fields.record_type = record_type)),
            13
        );
    }
    for unit in [M1, A] {
        let stored = begun(derating(unit));
        let early = early_end(&stored);
        assert_eq!(after([stored.clone()], &early), (0, 0, 0));
        assert_eq!(after([stored], &towards(2, early)), (13, 0, 0));
    }
    // 12 goes before 13, 13 before 14.
    let both = changed(|fields| (fields.revision, fields.mrid[0]) = (1, 9));
    assert_eq!(on_derating(&both), 12);
    let both = changed(|fields| {
        (fields.revision, fields.start, fields.parts[0].start) = (1, D + 6, D + 6)
    });
    assert_eq!(on_derating(&both), 13);
}

/// 12: "the slot's mark must be 2 (a planned record under way must be changed to begun first)".
#[test]
fn a_planned_record_in_the_slot_is_14() {
    for planned in [derating(W1), negative(W1, 1), must_run(W1, 90_000)] {
        let under_way = planned.clone().begun();
        let early = with(early_end(&under_way), |fields| fields.revision = 9);
        assert_eq!(after([planned.clone()], &early), (14, 0, 0));
        let begins = update(under_way).stamped(D + 60);
        assert_eq!(after([planned, begins], &early), (0, 0, 0));
    }
    // A planned record whose start has not come.
    let planned = derating(W1).over(D + 90, D + 120).at(20_000);
    assert_eq!(after([planned], &early_end(&begun_derating())), (14, 0, 0));
}

/// 12: "and the start the slot's".
#[test]
fn another_start_is_14() {
    for (start, number) in [(D + 4, 14), (D + 5, 0), (D + 6, 14)] {
        let early = early_end(&begun_derating()).over(start, END).at(20_000);
        assert_eq!(on_derating(&early), number);
    }
}

/// 14: "All kinds that carry the type".
#[test]
fn every_kind_and_type() {
    let mut pairs = 0;
    for unit in [W1, M1, Z1, A] {
        for record in [
            derating(unit),
            negative(unit, 5_000),
            must_run(unit, 30_000),
        ] {
            let stored = begun(record);
            if unit == A && stored.record_type == 4 {
                assert_eq!(after([], &early_end(&stored)), (5, 0, 0));
                continue;
            }
            assert_eq!(after([stored.clone()], &early_end(&stored)), (0, 0, 0));
            pairs += 1;
            if unit == M1 || unit == A {
                let stored = towards(2, stored);
                assert_eq!(after([stored.clone()], &early_end(&stored)), (0, 0, 0));
            }
        }
    }
    assert_eq!(pairs, 11);
}

/// "the overlap and power questions 15 to 17 are passed over": 16.
#[test]
fn powers_above_the_limits_pass() {
    for (stored, limit) in [
        (derating(W1), 200_000),
        (negative(W1, 1), 120_000),
        (derating(Z1), 50_000),
        (negative(A, 1), 30_000),
        (towards(2, derating(M1)), 60_000),
        (towards(2, negative(M1, 1)), 50_000),
    ] {
        let stored = begun(stored);
        for (power, number) in [(limit, 0), (limit + 1, 16)] {
            let ordinary = update(stored.clone()).at(power).stamped(STAMP);
            assert_eq!(after([stored.clone()], &ordinary), (number, 0, 0));
            let early = early_end(&stored).at(power);
            assert_eq!(after([stored.clone()], &early), (0, 0, 0));
        }
    }
}

/// "the overlap and power questions 15 to 17 are passed over": 17, from either side.
#[test]
fn levels_against_deratings_pass() {
    let level = begun(must_run(W1, 180_000));
    let (low_level, rise) = (begun(must_run(W1, 90_000)), begun(negative(W1, 10_000)));
    for (ended, other, limit, beyond) in [
        (begun_derating(), level.clone(), 20_000, 20_001),
        (level, begun_derating(), 180_000, 180_001),
        (rise.clone(), low_level.clone(), 10_000, 10_001),
        (low_level, rise, 90_000, 89_999),
        (
            begun(derating(Z1)),
            begun(must_run(Z1, 20_000)),
            20_000,
            20_001,
        ),
    ] {
        let records = || [ended.clone(), other.clone()];
        for (power, number) in [(limit, 0), (beyond, 17)] {
            let ordinary = update(ended.clone()).at(power).stamped(STAMP);
            assert_eq!(after(records(), &ordinary), (number, 0, 0));
            let early = early_end(&ended).at(power);
            assert_eq!(after(records(), &early), (0, 0, 0));
        }
    }
}

/// "the answer carries warnings 0"; 13: "also under a stop".
#[test]
fn no_warnings() {
    // The stop is planned when the derating comes, so that only the derating is warned of.
    let stop = outage(M1).over(D + 15, D + 180);
    let stored = begun(derating(M1));
    let mut register = TestRegister::new();
    register.expect([(stop, 0)]);
    assert_eq!(register.answer(&stored), (0, 1, 0));
    let ordinary = update(stored.clone()).stamped(STAMP);
    assert_eq!(register.answer(&ordinary), (0, 1, 0));
    register.expect([(again(2, early_end(&stored)), 0)]);
    for (level, warnings) in [(200_000, 0), (200_001, 2), (80_000, 0), (79_999, 4)] {
        let stored = begun(must_run(W1, level));
        let mut register = TestRegister::new();
        assert_eq!(register.answer(&stored), (0, warnings, 0));
        assert_eq!(register.answer(&early_end(&stored)), (0, 0, 0));
    }
}

/// The register with slots of a unit emptied and its last stamp moved.
fn emptied(register: &TestRegister, unit: u16, slots: &[usize], stamp: u32) -> Vec<u8> {
    let mut bytes = register.bytes.clone();
    let block = &mut bytes[usize::from(unit - 1) * BLOCK_SIZE..][..BLOCK_SIZE];
    put_u32(block, head::LAST_STAMP, stamp);
    for &slot in slots {
        slot_bytes(block, slot).fill(0);
    }
    bytes
}

/// 13: "The slot becomes zeros in its place", "dead slots go; the row and all other live slots
/// stay".
#[test]
fn the_rest_of_the_register_stays() {
    let mut register = TestRegister::new();
    let dies = |name, end| derating(W1).over(D + 15, end).at(1).named(name);
    let negative = begun(negative(W1, 5_000));
    register.expect([
        (dies(11, D + 30), 0),
        (begun(must_run(W1, 150_000)), 0),
        (negative.clone(), 0),
        (derating(W1).over(D + 90, D + 105).at(2).named(12), 0),
        (outage(W1).over(D + 120, D + 180), 0),
        (derating(W1).over(D + 45, D + 75).at(3).named(13), 0),
        (begun(derating(M1)), 0),
        (begun(derating(A)), 0),
        (off_grid(D + 8), 0),
    ]);
    let early = early_end(&negative);
    // Slot 0 ended at D+30, slot 5 has until D+75.
    let expected = emptied(&register, W1, &[0, 2], STAMP);
    assert_eq!(register.answer(&early), (0, 0, 0));
    assert!(register.bytes == expected);
    assert_eq!(register.row(W1), (6, 2, 8, 70));
    let used = (0..SLOT_COUNT).map(|slot| register.slot(W1, slot).starts_with(&SLOT_MARK));
    let used: Vec<bool> = used.collect();
    assert_eq!(used, [false, true, false, true, true, true, true, false]);
}

/// Eight live slots, the third of them ended early: a ninth record takes its place.
#[test]
fn a_full_block_has_a_free_slot_afterwards() {
    let mut register = TestRegister::new();
    let planned = |place: u8| {
        let start = D + 75 + 15 * u32::from(place);
        derating(W1).over(start, start + 15).at(1).named(20 + place)
    };
    let ended = begun(must_run(W1, 150_000));
    register.expect([(planned(0), 0), (planned(1), 0), (ended.clone(), 0)]);
    register.expect([2, 3, 4, 5, 6].map(|place| (planned(place), 0)));
    register.expect([(planned(7), 19)]);
    let expected = emptied(&register, W1, &[2], STAMP);
    register.expect([(early_end(&ended), 0)]);
    assert!(register.bytes == expected);
    register.expect([(planned(7).stamped(STAMP), 0)]);
    assert_eq!(register.slot(W1, 2)[slot::MRID], 27);
}

/// 13: "the identifier may be created again with any ordinal".
#[test]
fn the_identifier_is_free_again() {
    for revision in [1, 2, 9_999] {
        let early = changed(|fields| fields.revision = 7);
        let created = with(begun_derating().stamped(STAMP), |fields| {
            fields.revision = revision
        });
        let mut register = TestRegister::new();
        register.expect([
            (begun_derating(), 0),
            (created.clone(), 11),
            (early.clone(), 0),
            (early, 12),
            (withdrawal(begun_derating()).stamped(STAMP), 12),
            (created.clone(), 0),
            (created, 11),
        ]);
    }
    // Of another type, over the same time.
    let level = begun(must_run(W1, 190_000)).named(1).stamped(STAMP);
    let mut register = TestRegister::new();
    register.expect([
        (begun_derating(), 0),
        (level.clone(), 11),
        (level.clone().named(9), 17),
        (early_end(&begun_derating()), 0),
        (level, 0),
    ]);
}

/// Everything wrong at once, put right one question after the other.
#[test]
fn the_first_no_is_the_answer() {
    let mut register = TestRegister::new();
    register.expect([(begun_derating(), 0)]);
    let mut report = early_end(&begun_derating()).over(D + 6, D + 6).at(-1);
    (report.owner, report.end_mark, report.direction) = (9, 3, 2);
    (report.operation, report.stamp, report.revision) = (1, D + 9, 1);
    let mut next = |report: &ReportFields, number| {
        let part = u8::from(number == 8);
        assert_eq!(register.answer(report), (number, 0, part));
    };
    next(&report, 3);
    report.owner = 7;
    next(&report, 4);
    report.end_mark = 2;
    next(&report, 5);
    report.direction = 1;
    next(&report, 6);
    (report.end, report.operation) = (D + 8, 2);
    next(&report, 8);
    report.parts[0].end = D + 8;
    next(&report, 9);
    report.parts[0].power = 200_001;
    next(&report, 10);
    (report.stamp, report.mrid) = (D + 10, [9; 16]);
    next(&report, 12);
    report.mrid = [1; 16];
    next(&report, 13);
    report.revision = 2;
    next(&report, 14);
    (report.start, report.parts[0].start) = (D + 5, D + 5);
    next(&report, 0);
    next(&report, 12);
}

/// The parts up to the end, the one that it lies in cut.
#[test]
fn composing_an_early_end() {
    let steps = [(D + 15, 1), (D + 30, 2), (D + 120, 3)];
    let stored = begun_derating().stepping(&steps);
    for (end, parts) in [
        (D + 31, 3),
        (D + 30, 2),
        (D + 16, 2),
        (D + 15, 1),
        (D + 6, 1),
    ] {
        let early = update(stored.clone().ended_early(end)).stamped(STAMP);
        assert!(early.ends_early() && !stored.ends_early());
        assert_eq!((early.end, early.parts.len()), (end, parts));
        assert_eq!(after([stored.clone()], &early), (0, 0, 0));
    }
}

/// What an early end may do to a block, byte by byte, on random streams; the unit alone agrees.
#[test]
fn accepted_early_ends_of_random_streams() {
    let mut accepted = 0;
    for seed in 0..150 {
        let mut source = Source::new(seed, 4);
        let mut register = source.register().to_vec();
        let mut alone = StandAloneBlocks::set_up(source.roster()).unwrap();
        for _ in 0..150 {
            let report = source.report();
            let before = TestRegister {
                bytes: register.clone(),
            };
            let given = answer(&mut register, &report);
            assert_eq!(alone.answer(&report), given);
            if given.number == 0 && report[10] == 2 {
                check_only_empties(&before, &register, &report);
                assert_eq!(given.warnings, 0);
                accepted += 1;
            }
        }
        assert!(question_1_register_whole(&register) && alone.bytes() == register);
    }
    assert!(accepted > 300, "{accepted}");
}

fn check_only_empties(before: &TestRegister, register: &[u8], report: &[u8]) {
    let unit = u16::from_le_bytes([report[2], report[3]]);
    let stamp = u32_at(report, 32);
    let block = &before.bytes[usize::from(unit - 1) * BLOCK_SIZE..][..BLOCK_SIZE];
    let block = Block::read(block).unwrap();
    let slots = block.slots.iter().enumerate();
    let leave = slots.filter_map(|(index, slot)| {
        let record = slot.as_ref()?;
        let ended = record.mrid == report[16..32];
        assert!(!ended || (record.begun() && record.period.end.0 > stamp));
        (ended || record.period.end.0 <= stamp).then_some(index)
    });
    let leave: Vec<usize> = leave.collect();
    assert!(register == emptied(before, unit, &leave, stamp));
}
