//! Part lists that break cover in one way, at the first, at a middle or at the last part.

use super::drafts::quarter_after;
use crate::codes::{Operation, RecordType};
use crate::compose::{PartFields, ReportFields};
use crate::quantities::{LAST_MINUTE, QUARTER};
use crate::random::Random;
use crate::record::MAX_PARTS;

/// The last quarter hour that is a time.
const LAST_QUARTER: u32 = LAST_MINUTE.0 / QUARTER * QUARTER;

/// A list that breaks cover, a missing one, or a list where none may be.
pub(super) fn spoil_cover(random: &mut Random, fields: &mut ReportFields) {
    let count = part_count(random);
    let has_parts = RecordType::from_code(fields.record_type)
        .is_some_and(|record_type| record_type.has_parts());
    if !has_parts || fields.operation == Operation::Withdraw as u8 {
        fields.parts = quarter_hours(fields.start, count);
        if random.percent(50) {
            break_part(random, fields);
        }
    } else if random.percent(6) {
        fields.parts.clear();
    } else {
        if random.percent(75) {
            fields.parts = if fields.ends_early() {
                past_minutes(fields, count)
            } else {
                spread(random, fields, count)
            };
            fields.end = fields.parts.last().map_or(fields.end, |last| last.end);
        }
        break_cover(random, fields);
    }
}

fn part_count(random: &mut Random) -> usize {
    match random.below(8) {
        0 | 1 => 1,
        2..=4 => random.between(2..=MAX_PARTS as u32 - 1) as usize,
        _ => MAX_PARTS,
    }
}

/// Parts one after another that end on quarter hours; beyond the end of time they are empty.
fn quarter_hours(start: u32, count: usize) -> Vec<PartFields> {
    let ends = (quarter_after(start)..).step_by(QUARTER as usize);
    one_after_another(start, ends.take(count).map(|end| end.min(LAST_QUARTER)))
}

/// Parts of a minute each from the report's start on, up to the stamp: those of an early end.
fn past_minutes(fields: &ReportFields, count: usize) -> Vec<PartFields> {
    let ends = fields.start + 1..=fields.stamp;
    one_after_another(fields.start, ends.take(count))
}

/// Parts that cover a period from the report's start on; those up to the stamp end at any minute.
fn spread(random: &mut Random, fields: &ReportFields, count: usize) -> Vec<PartFields> {
    let past = fields.stamp.saturating_sub(fields.start) as usize;
    if past == 0 || random.percent(50) {
        return quarter_hours(fields.start, count);
    }
    let most = past.min(count - 1) as u32;
    let minutes = random.between(0..=most);
    let ends = (fields.start + 1..).take(minutes as usize);
    // The quarter hours after the stamp; the last part ends there.
    let planned = (quarter_after(fields.stamp)..).step_by(QUARTER as usize);
    let planned = planned.take(count - minutes as usize);
    one_after_another(
        fields.start,
        ends.chain(planned).map(|end| end.min(LAST_QUARTER)),
    )
}

fn one_after_another(start: u32, ends: impl Iterator<Item = u32>) -> Vec<PartFields> {
    let mut from = start;
    let part = |end| PartFields {
        start: std::mem::replace(&mut from, end),
        end,
        power: 0,
    };
    ends.map(part).collect()
}

/// The list as a whole, or one part of it.
fn break_cover(random: &mut Random, fields: &mut ReportFields) {
    match random.below(6) {
        0 if fields.ends_early() => fields.end = fields.stamp.max(fields.end),
        0 => fields.end = (fields.end + QUARTER * random.between(1..=3)).min(LAST_QUARTER),
        1 => leave_parts_over(random, fields),
        _ => break_part(random, fields),
    }
}

/// The period ends with some part, those after it are left over.
fn leave_parts_over(random: &mut Random, fields: &mut ReportFields) {
    if let [first @ .., _] = fields.parts.as_slice() {
        let may_end = |part: &&PartFields| fields.ends_early() || part.end > fields.stamp;
        let ends: Vec<u32> = first.iter().filter(may_end).map(|part| part.end).collect();
        if let Some(last) = ends.last() {
            fields.end = if random.percent(50) {
                *last
            } else {
                random.pick(&ends)
            };
        }
    }
}

/// One part starts late or early, ends too early or past the period's end.
fn break_part(random: &mut Random, fields: &mut ReportFields) {
    let count = fields.parts.len();
    let index = match random.below(3) {
        0 => 0,
        1 => random.below(count.max(1) as u32) as usize,
        _ => count.saturating_sub(1),
    };
    let (period_end, step) = (fields.end, random.pick(&[1, 1, 7, QUARTER, 2 * QUARTER]));
    let Some(part) = fields.parts.get_mut(index) else {
        return;
    };
    match random.below(4) {
        0 => part.start += step.min((part.end.saturating_sub(part.start)).saturating_sub(1)),
        1 => part.start = part.start.saturating_sub(step),
        2 if random.percent(50) => part.end = part.start,
        2 => part.end = (part.start / QUARTER * QUARTER).saturating_sub(QUARTER),
        _ => part.end = (period_end + QUARTER * random.between(1..=3)).min(LAST_QUARTER),
    }
}
