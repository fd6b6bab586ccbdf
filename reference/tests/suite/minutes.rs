//! "For each minute" read literally, against the change points.

use reference::after::Outcome;
use reference::minutes::{at_every_change_point, in_every_minute};
use reference::quantities::{Minute, Period};
use reference::questions::{
    ask, question_15_overlap, question_16_derating_limit, question_17_each_minute,
    question_17_level_limits, question_4_fields_in_range, question_8_cover, question_9_powers,
    Case,
};
use reference::random::Random;
use reference::record::{cover, Record};
use reference::register::{write_slot, Block, BLOCK_SIZE, SLOT_SIZE};
use reference::report::question_2_report_whole;
use reference::source::Source;
use reference::warnings::{level_warnings, level_warnings_each_minute};

/// Longer records are left to the change points.
const LONGEST: u32 = 3_000;

#[derive(Default)]
struct Counts {
    met: u32,
    broken: u32,
    levels: u32,
}

/// Question 17 both ways wherever it is asked, and where its own questions would let it be.
fn compare_limits(case: &Case, counts: &mut Counts) {
    let askable = question_8_cover(case)
        && question_9_powers(case)
        && question_15_overlap(case)
        && question_16_derating_limit(case);
    if !askable {
        return;
    }
    let literal = question_17_each_minute(case);
    assert_eq!(question_17_level_limits(case), literal);
    if literal {
        counts.met += 1;
    } else {
        counts.broken += 1;
    }
}

/// Warnings 2 and 4 both ways on the block afterwards.
fn compare_warnings(block: &[u8], report: &[u8], counts: &mut Counts) {
    let mut after = block.to_vec();
    let (before, report) = (
        Block::read(block).unwrap(),
        question_2_report_whole(report).unwrap(),
    );
    let Ok(case) = ask(&before, report) else {
        return;
    };
    let outcome = Outcome::of(&case);
    outcome.write(&mut after);
    let after = Block::read(&after).unwrap();
    assert_same_block(&outcome.block_after(&before), &after);
    let record = &outcome.report.record;
    let literal = level_warnings_each_minute(record, &after);
    assert_eq!(level_warnings(record, &after), literal);
    counts.levels += u32::from(literal != (false, false));
}

/// The block afterwards is the same whether put together or read from what was written.
fn assert_same_block(one: &Block, other: &Block) {
    let data = |block: &Block| (block.number, block.unit, block.last_stamp);
    assert_eq!(data(one), data(other));
    for (one, other) in one.slots.iter().zip(&other.slots) {
        assert_eq!(one.as_ref().map(slot), other.as_ref().map(slot));
    }
}

fn slot(record: &Record) -> [u8; SLOT_SIZE] {
    let mut bytes = [0; SLOT_SIZE];
    write_slot(&mut bytes, record);
    bytes
}

fn compare_stream(mut source: Source, reports: u32, counts: &mut Counts) {
    for _ in 0..reports {
        let before = source.register().to_vec();
        let report = source.report();
        let Some(whole) = question_2_report_whole(&report) else {
            continue;
        };
        let unit = usize::from(whole.unit());
        let Some(block) = before.chunks(BLOCK_SIZE).nth(unit.wrapping_sub(1)) else {
            continue;
        };
        let Some(typed) = question_4_fields_in_range(whole) else {
            continue;
        };
        let Period { start, end } = typed.record.period;
        if end.0.saturating_sub(start.0) <= LONGEST {
            let read = Block::read(block).unwrap();
            compare_limits(&Case::new(&read, typed), counts);
            compare_warnings(block, &report, counts);
        }
    }
}

#[test]
fn limits_and_warnings_minute_by_minute() {
    let mut counts = Counts::default();
    for seed in 10_000..10_120 {
        compare_stream(Source::new(seed, 4), 80, &mut counts);
        compare_stream(Source::on_given_register(seed, 2), 40, &mut counts);
    }
    println!(
        "17 met {}, broken {}; levels warned {}",
        counts.met, counts.broken, counts.levels
    );
    assert!(counts.met > 1_000 && counts.broken > 100 && counts.levels > 100);
}

/// The change points see exactly the values that the minutes see.
#[test]
fn change_points_miss_no_value() {
    for seed in 20_000..20_060 {
        let source = Source::on_given_register(seed, 1);
        let block = Block::read(&source.register()[..BLOCK_SIZE]).unwrap();
        let records: Vec<_> = block.slots.iter().flatten().copied().collect();
        let first = records.iter().map(|record| record.period.start.0).min();
        let start = first.unwrap_or(5).saturating_sub(5);
        let period = Period {
            start: Minute(start),
            end: Minute(start + 1_500),
        };
        let (literal, walked) = (std::cell::RefCell::default(), std::cell::RefCell::default());
        let note = |seen: &std::cell::RefCell<Vec<String>>, held: String| {
            let mut seen = seen.borrow_mut();
            if seen.last() != Some(&held) {
                seen.push(held);
            }
            true
        };
        // Two records of one type may overlap here in different directions: take one direction.
        let one_way: Vec<_> = records
            .into_iter()
            .filter(|record| record.direction == reference::codes::Direction::Generation)
            .collect();
        in_every_minute(&one_way, period, |held| note(&literal, format!("{held:?}")));
        at_every_change_point(&one_way, period, |held| note(&walked, format!("{held:?}")));
        assert_eq!(literal, walked);
    }
}

/// Cover minute by minute: each minute of the period in exactly one part, none outside, in order.
fn covers_each_minute(whole: Period, parts: &[Period]) -> bool {
    let holds = |part: &Period, minute| part.start.0 <= minute && minute < part.end.0;
    let in_order = parts.windows(2).all(|pair| pair[0].start < pair[1].start);
    let each_filled = parts.iter().all(|part| part.start < part.end);
    in_order
        && each_filled
        && (0..100).all(|minute| {
            let count = parts.iter().filter(|part| holds(part, minute)).count();
            count == usize::from(holds(&whole, minute))
        })
}

#[test]
fn cover_minute_by_minute() {
    let mut random = Random::new(5);
    let mut covered = 0;
    for _ in 0..40_000 {
        let start = random.below(20);
        let mut minute = start;
        let mut parts = Vec::new();
        for _ in 0..random.between(1..=4) {
            let end = minute + random.between(1..=4);
            parts.push(Period {
                start: Minute(minute),
                end: Minute(end),
            });
            minute = end;
        }
        let whole = Period {
            start: Minute(start),
            end: Minute(minute),
        };
        let index = random.below(parts.len() as u32) as usize;
        let other = random.below(parts.len() as u32) as usize;
        match random.below(6) {
            0 => parts[index].start.0 += 1,
            1 => parts[index].end.0 -= 1,
            2 => parts.swap(index, other),
            3 => drop(parts.remove(index)),
            _ => {}
        }
        let literal = covers_each_minute(whole, &parts);
        assert_eq!(
            cover(whole, parts.iter().copied()).is_ok(),
            literal,
            "{whole:?} {parts:?}"
        );
        covered += u32::from(literal);
    }
    assert!(covered > 10_000);
}
