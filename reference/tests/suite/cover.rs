//! Which part breaks cover, on hand-made reports; numbers in comments are those of READINGS-02.

use crate::{
    again, begun_outage, derating, event, must_run, negative, off_grid, outage, update, with,
    withdrawal, TestRegister, M1, W1,
};
use reference::compose::{PartFields, ReportFields};
use reference::quantities::{Minute, Period};
use reference::random::Random;
use reference::record::cover;
use reference::worked_examples::D;

const START: u32 = D + 60;

/// Number and part; a refusal carries no warnings.
fn given(report: &ReportFields) -> (u8, u8) {
    let (number, warnings, part) = TestRegister::new().answer(report);
    assert!(number == 0 || warnings == 0);
    assert!(number == 8 || part == 0);
    (number, part)
}

/// A derating of so many quarter hours.
fn quarters(count: u32) -> ReportFields {
    let steps: Vec<(u32, i32)> = (1..=count).map(|part| (START + 15 * part, 1)).collect();
    derating(W1)
        .over(START, START + 15 * count)
        .stepping(&steps)
}

/// So many quarter hours, one part of them changed.
fn changed(count: u32, part: u8, change: impl Fn(&mut PartFields)) -> ReportFields {
    with(quarters(count), |fields| {
        change(&mut fields.parts[usize::from(part) - 1])
    })
}

#[test]
fn ninety_parts_with_the_57th_off_by_a_minute() {
    assert_eq!(given(&quarters(90)), (0, 0));
    let late = changed(90, 57, |part| part.start += 1);
    let early = changed(90, 57, |part| part.start -= 1);
    let mut register = TestRegister::new();
    assert_eq!(register.answer(&late), (8, 0, 57));
    assert_eq!(register.answer(&early), (8, 0, 57));
    assert_eq!(register.answer(&quarters(90)), (0, 0, 0));
    assert_eq!(register.answer(&update(late)), (8, 0, 57));
    assert_eq!(register.answer(&update(early)), (8, 0, 57));
    // An end off the quarter hour after the stamp is 7.
    for step in [-1, 1] {
        let ends = changed(90, 57, |part| {
            part.end = part.end.saturating_add_signed(step)
        });
        assert_eq!(given(&ends), (7, 0));
    }
}

/// 1: the first part that breaks it.
#[test]
fn each_way_at_each_place() {
    for count in [1, 2, 57, 99, 100] {
        for place in [1, 2, 3, 50, 57, 98, 99, 100] {
            if u32::from(place) > count {
                continue;
            }
            let past_end = START + 15 * (count + 1);
            for change in [
                |part: &mut PartFields, _| part.start += 1,
                |part: &mut PartFields, _| part.start += 14,
                |part: &mut PartFields, _| part.start += 15,
                |part: &mut PartFields, _| part.start -= 1,
                |part: &mut PartFields, _| part.start -= 15,
                |part: &mut PartFields, _| part.start = 0,
                |part: &mut PartFields, _| part.end = part.start,
                |part: &mut PartFields, _| part.end -= 30,
                |part: &mut PartFields, _| part.end = 0,
                |part: &mut PartFields, past_end| part.end = past_end,
                |part: &mut PartFields, _| part.end = 26_298_705,
            ] {
                let report = changed(count, place, |part| change(part, past_end));
                assert_eq!(given(&report), (8, place), "{:?}", report.parts);
            }
        }
    }
}

/// 1: a gap or overlap names the part after it, where a part's end moved.
#[test]
fn an_end_that_moved_names_the_next_part() {
    for (count, place) in [(2, 1), (90, 56), (100, 1), (100, 50), (100, 99)] {
        let hours = |step: u32| {
            let steps: Vec<(u32, i32)> = (1..=count).map(|part| (START + step * part, 1)).collect();
            derating(W1)
                .over(START, START + step * count)
                .stepping(&steps)
        };
        for step in [-15, 15] {
            let report = with(hours(30), |fields| {
                let part = &mut fields.parts[place - 1];
                part.end = part.end.saturating_add_signed(step);
            });
            assert_eq!(given(&report), (8, place as u8 + 1));
        }
    }
}

/// 1: the first of several.
#[test]
fn the_first_of_several_is_named() {
    for (first, second) in [(1, 2), (1, 100), (57, 58), (57, 90), (99, 100)] {
        let mut report = changed(100, second, |part| part.start -= 1);
        report.parts[usize::from(first) - 1].start += 1;
        assert_eq!(given(&report), (8, first));
        report.parts[usize::from(first) - 1].start -= 1;
        assert_eq!(given(&report), (8, second));
        report.parts[usize::from(second) - 1].start += 1;
        assert_eq!(given(&report), (0, 0));
        report
            .parts
            .swap(usize::from(first) - 1, usize::from(second) - 1);
        assert_eq!(given(&report), (8, first));
    }
    let backwards = with(quarters(100), |fields| fields.parts.reverse());
    assert_eq!(given(&backwards), (8, 1));
}

/// 1: parts left after the end is reached name the first of them.
#[test]
fn parts_left_over() {
    for (count, reached) in [(2, 1), (90, 56), (90, 89), (100, 1), (100, 57), (100, 99)] {
        let report = with(quarters(count), |fields| fields.end = START + 15 * reached);
        assert_eq!(given(&report), (8, reached as u8 + 1));
        // Whatever the one left over holds.
        for (start, end) in [(0, 0), (15 * reached, 15 * reached), (0, 15 * reached)] {
            let report = with(report.clone(), |fields| {
                let part = &mut fields.parts[reached as usize];
                (part.start, part.end) = (START + start, START + end);
            });
            assert_eq!(given(&report), (8, reached as u8 + 1));
        }
    }
}

/// 2: every part fits and the last ends early.
#[test]
fn lists_that_stop_short() {
    for count in [1, 2, 57, 90, 99, 100] {
        for late in [15, 30, 15_000] {
            let report = with(quarters(count), |fields| fields.end += late);
            assert_eq!(given(&report), (8, count as u8));
        }
    }
    let without_last = with(quarters(90), |fields| fields.parts.truncate(89));
    assert_eq!(given(&without_last), (8, 89));
    // A break before the last part goes before the short end.
    let both = with(changed(90, 57, |part| part.start += 1), |fields| {
        fields.end += 15
    });
    assert_eq!(given(&both), (8, 57));
}

/// Past part ends are free of the quarter hour: a minute is a part.
#[test]
fn begun_records() {
    let begun = |count: u32| {
        let start = D + 10 - count;
        let ends = (1..count).map(|part| (start + part, 1));
        let steps: Vec<(u32, i32)> = ends.chain([(D + 120, 1)]).collect();
        derating(W1).begun().over(start, D + 120).stepping(&steps)
    };
    for count in [1, 2, 90, 100] {
        assert_eq!(given(&begun(count)), (0, 0));
        for place in [1, 2, 57, 89, 90, 99] {
            if place >= count {
                continue;
            }
            let next = place as u8 + 1;
            let report = with(begun(count), |fields| {
                fields.parts[place as usize].start += 1
            });
            assert_eq!(given(&report), (8, next));
            let report = with(begun(count), |fields| {
                fields.parts[place as usize - 1].end -= 1
            });
            // The part before is a minute long: it ends where it starts.
            assert_eq!(given(&report), (8, place as u8));
        }
    }
}

/// 3: a missing list.
#[test]
fn a_missing_list_names_0() {
    for report in [derating(W1), negative(W1, 1), must_run(W1, 90_000)] {
        let report = with(report, |fields| fields.parts.clear());
        assert_eq!(given(&report), (8, 0));
        assert_eq!(given(&update(report)), (8, 0));
    }
}

/// Lists of so many parts one after another, and broken ones.
fn lists(count: u32) -> [ReportFields; 4] {
    let last = count as u8;
    [
        quarters(count),
        changed(count, 1, |part| part.start -= 1),
        changed(count, last.div_ceil(2), |part| part.end = part.start),
        changed(count, last, |part| part.end += 15),
    ]
}

/// 3: a list where none may be, whatever it holds.
#[test]
fn a_list_where_none_may_be_names_0() {
    let none_may_be = [
        outage(W1),
        begun_outage(W1, 1, D + 5),
        again(2, outage(W1)),
        off_grid(D + 5),
        event(5, D + 10),
        withdrawal(derating(W1)),
        withdrawal(negative(W1, 1)),
        withdrawal(must_run(W1, 90_000)),
        withdrawal(outage(M1)),
    ];
    for report in none_may_be {
        // One part over the whole period.
        assert_eq!(given(&report.clone().at(0)), (8, 0));
        for count in [1, 2, 57, 99, 100] {
            for list in lists(count) {
                let report = with(report.clone(), |fields| fields.parts = list.parts.clone());
                assert_eq!(given(&report), (8, 0));
            }
        }
    }
}

/// 4: 0 beside every other answer.
#[test]
fn other_refusals_name_0() {
    let broken = || changed(90, 57, |part| part.start += 1);
    let of = |change: &dyn Fn(&mut ReportFields)| given(&with(broken(), change));
    assert_eq!(of(&|_| ()), (8, 57));
    assert_eq!(of(&|fields| fields.owner = 9), (3, 0));
    assert_eq!(of(&|fields| fields.end_mark = 3), (4, 0));
    assert_eq!(of(&|fields| fields.end_mark = 2), (6, 0));
    assert_eq!(of(&|fields| fields.parts[88].end = 26_298_720), (4, 0));
    assert_eq!(of(&|fields| fields.direction = 2), (5, 0));
    assert_eq!(of(&|fields| fields.stamp = START), (6, 0));
    assert_eq!(of(&|fields| fields.parts[88].end += 1), (7, 0));
    // 8 goes before 9, 10, 12 and 16.
    assert_eq!(of(&|fields| fields.parts[3].power = -1), (8, 57));
    assert_eq!(of(&|fields| fields.stamp = D - 1), (8, 57));
    assert_eq!(of(&|fields| fields.operation = 2), (8, 57));
    assert_eq!(of(&|fields| fields.parts[3].power = 200_001), (8, 57));
    let power = changed(90, 57, |part| part.power = -1);
    assert_eq!(given(&power), (9, 0));
    let power = changed(90, 57, |part| part.power = 200_001);
    assert_eq!(given(&power), (16, 0));
}

/// 1 and 2 read literally: each part by its place, no state between them.
fn named_part((start, end): (u32, u32), parts: &[(u32, u32)]) -> Option<u32> {
    let due = |index: usize| match index {
        0 => start,
        _ => parts[index - 1].1,
    };
    let fits = |index: usize| {
        let (part_start, part_end) = parts[index];
        part_start == due(index) && part_start < part_end && part_end <= end
    };
    let stops_short = parts.last().is_none_or(|last| last.1 < end);
    match (0..parts.len()).find(|&index| !fits(index)) {
        Some(index) => Some(index as u32 + 1),
        None if stops_short => Some(parts.len() as u32),
        None => None,
    }
}

fn one_pass((start, end): (u32, u32), parts: &[(u32, u32)]) -> Option<u32> {
    let period = |(start, end)| Period {
        start: Minute(start),
        end: Minute(end),
    };
    cover(period((start, end)), parts.iter().copied().map(period)).err()
}

#[test]
fn the_named_part_on_random_lists() {
    let mut random = Random::new(9);
    let mut named = [0_u32; 102];
    for _ in 0..60_000 {
        let count = random.pick(&[0, 1, 2, 3, 5, 57, 90, 99, 100]);
        let start = random.below(50);
        let (mut parts, mut from) = (Vec::new(), start);
        for _ in 0..count {
            let end = from + random.between(1..=3);
            parts.push((from, end));
            from = end;
        }
        let mut end = from;
        for _ in 0..random.below(3) {
            let place = random.below(count.max(1)) as usize;
            let step = random.pick(&[-3, -2, -1, 1, 2, 3, 50]);
            match (random.below(4), parts.get_mut(place)) {
                (0, Some(part)) => part.0 = part.0.saturating_add_signed(step),
                (1, Some(part)) => part.1 = part.1.saturating_add_signed(step),
                (2, Some(_)) => parts.swap(0, place),
                _ => end = end.saturating_add_signed(step),
            }
        }
        let literal = named_part((start, end), &parts);
        let given = one_pass((start, end), &parts);
        // No list at all is judged by question 8 before it comes to this.
        if count > 0 {
            assert_eq!(given, literal, "{start} {end} {parts:?}");
        }
        named[literal.map_or(101, |part| part as usize)] += 1;
    }
    assert!(named[1] > 1_000 && named[57] > 100 && named[100] > 100 && named[101] > 1_000);
}

/// Every list of up to three parts with times 0 to 3, over every period with such times.
#[test]
fn the_named_part_on_all_short_lists() {
    let pairs: Vec<(u32, u32)> = (0..16).map(|pair| (pair / 4, pair % 4)).collect();
    for &period in pairs.iter().filter(|(start, end)| start < end) {
        for &one in &pairs {
            assert_eq!(one_pass(period, &[one]), named_part(period, &[one]));
            for &two in &pairs {
                let list = [one, two];
                assert_eq!(one_pass(period, &list), named_part(period, &list));
                for &three in &pairs {
                    let list = [one, two, three];
                    assert_eq!(one_pass(period, &list), named_part(period, &list));
                }
            }
        }
    }
}
