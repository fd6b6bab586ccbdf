//! Small changes meant to spoil a report, or to bring it to an edge.

use super::uncovered::spoil_cover;
use crate::codes::{Mark, Operation};
use crate::compose::{PartFields, ReportFields};
use crate::quantities::{LAST_MINUTE, MAX_POWER};
use crate::random::Random;
use crate::record::MAX_PARTS;
use crate::register::Block;
use crate::report::{head, HEAD_SIZE, MAX_TEXT, PART_SIZE};

/// Changes one thing of a report.
pub(super) fn spoil(random: &mut Random, block: &Block, units: u32, fields: &mut ReportFields) {
    if fields.ends_early() && random.percent(40) {
        return spoil_early_end(random, block, fields);
    }
    match random.below(11) {
        0 => spoil_unit(random, units, fields),
        1 => spoil_code(random, fields),
        2 | 3 => spoil_time(random, block, fields),
        4 => spoil_parts(random, fields),
        5 => spoil_cover(random, fields),
        6 => spoil_power(random, fields),
        7 | 8 => spoil_kind(random, fields),
        9 => spoil_early_end(random, block, fields),
        _ => spoil_mrid(random, block, fields),
    }
}

/// Another direction or type, the rest still in range.
fn spoil_kind(random: &mut Random, fields: &mut ReportFields) {
    match random.below(5) {
        0 | 1 => fields.direction = random.pick(&[2, 3]),
        2 => (fields.record_type, fields.qualification) = (4, 0),
        3 => {
            (fields.record_type, fields.qualification) = (5, 1);
            fields.start_mark = 2;
        }
        _ => {
            (fields.record_type, fields.operation, fields.start_mark) = (6, 1, 2);
            (fields.qualification, fields.mrid) = (random.between(1..=6) as u8, [0; 16]);
        }
    }
}

/// End mark 2 where it is not expected; an early end as what can't end early, or at another time.
fn spoil_early_end(random: &mut Random, block: &Block, fields: &mut ReportFields) {
    if !fields.ends_early() {
        fields.end_mark = Mark::Actual as u8;
        return;
    }
    match random.below(10) {
        0 => fields.operation = Operation::Create as u8,
        1 => {
            fields.operation = Operation::Withdraw as u8;
            fields.parts.clear();
        }
        2 => fields.start_mark = Mark::Planned as u8,
        3 => fields.end_mark = random.pick(&[0, 1, 3, 18, 255]),
        4 => fields.revision = random.between(1..=2) as u16,
        5 => {
            (fields.record_type, fields.qualification) = random.pick(&[(1, 1), (5, 1)]);
            fields.parts.clear();
        }
        6 => fields.record_type = random.pick(&[2, 3, 4]),
        7 => fields.direction = if fields.direction == 1 { 2 } else { 1 },
        8 => {
            let stamp = block.last_stamp.0.saturating_sub(random.between(1..=5));
            let end = fields.end.min(stamp);
            *fields = fields.clone().ended_early(end).stamped(stamp);
        }
        _ => {
            let ends = [fields.stamp + 1, fields.start, fields.start + 1];
            *fields = fields.clone().ended_early(random.pick(&ends));
        }
    }
}

fn spoil_unit(random: &mut Random, units: u32, fields: &mut ReportFields) {
    let beyond = (units + 1) as u16;
    match random.below(4) {
        0 => fields.unit = random.pick(&[0, beyond, u16::MAX]),
        1 => fields.unit = random.between(1..=units) as u16,
        2 => fields.owner = random.pick(&[0, 1, 7, 9, 999, 1_000, u16::MAX]),
        _ => fields.owner ^= 1 << random.below(16),
    }
}

fn spoil_code(random: &mut Random, fields: &mut ReportFields) {
    match random.below(7) {
        0 => fields.record_type = random.pick(&[0, 1, 2, 3, 4, 5, 6, 7, 255]),
        1 => fields.operation = random.pick(&[0, 1, 2, 3, 4, 255]),
        2 => fields.direction = random.pick(&[0, 1, 2, 3, 4, 255]),
        3 => fields.start_mark = random.pick(&[0, 1, 2, 3, 255]),
        4 => fields.end_mark = random.pick(&[0, 2, 3, 17, 255]),
        5 => fields.qualification = random.pick(&[0, 1, 5, 6, 7, 8, 9, 255]),
        _ => fields.revision = random.pick(&[0, 1, 9_999, 10_000, u16::MAX]),
    }
}

fn spoil_time(random: &mut Random, block: &Block, fields: &mut ReportFields) {
    let last = block.last_stamp.0;
    let since = block.unit.row.since.0;
    let times = [
        0,
        last.saturating_sub(1),
        last,
        since,
        since + 1,
        fields.stamp,
        fields.stamp + 1,
        fields.start,
        fields.end,
        fields.start + 15,
        fields.end.saturating_sub(15),
        LAST_MINUTE.0,
        LAST_MINUTE.0 + 1,
        u32::MAX,
    ];
    let near = [fields.start, fields.end]
        .map(|minute| minute.saturating_add_signed(random.pick(&[-1, 1])));
    match random.below(6) {
        0 => fields.stamp = random.pick(&times),
        1 => fields.stamp = last.saturating_sub(random.between(1..=20)),
        2 => fields.start = random.pick(&times),
        3 => fields.end = random.pick(&times),
        4 => fields.start = near[0],
        _ => fields.end = near[1],
    }
    // Half the time the parts follow, so that cover still holds.
    if random.percent(50) {
        if let Some(first) = fields.parts.first_mut() {
            first.start = fields.start;
        }
        if let Some(last) = fields.parts.last_mut() {
            last.end = fields.end;
        }
    }
}

fn spoil_parts(random: &mut Random, fields: &mut ReportFields) {
    let count = fields.parts.len() as u32;
    let stray = PartFields {
        start: fields.start,
        end: fields.end,
        power: 0,
    };
    if count == 0 {
        fields.parts.push(PartFields {
            end: random.pick(&[fields.end, fields.end.saturating_add(1)]),
            ..stray
        });
        return;
    }
    let index = random.below(count) as usize;
    match random.below(7) {
        0 => fields.parts.clear(),
        1 => drop(fields.parts.remove(index)),
        2 if fields.parts.len() < MAX_PARTS => fields.parts.push(stray),
        3 => fields.parts.swap(0, index),
        4 => {
            let step = random.pick(&[-15, -1, 1, 15]);
            let part = &mut fields.parts[index];
            part.start = part.start.saturating_add_signed(step);
        }
        5 => {
            let step = random.pick(&[-15, -1, 1, 15]);
            let part = &mut fields.parts[index];
            part.end = part.end.saturating_add_signed(step);
            if let Some(next) = fields.parts.get_mut(index + 1) {
                next.start = next.start.saturating_add_signed(step);
            }
        }
        _ => {
            let part = &mut fields.parts[index];
            part.end = random.pick(&[part.start, LAST_MINUTE.0, LAST_MINUTE.0 + 1, u32::MAX]);
        }
    }
}

fn spoil_power(random: &mut Random, fields: &mut ReportFields) {
    let count = fields.parts.len() as u32;
    if count > 0 {
        let most = MAX_POWER.0 as i32;
        let index = random.below(count) as usize;
        fields.parts[index].power =
            random.pick(&[-1, 0, most, most + 1, i32::MIN, i32::MAX, 200_000, 200_001]);
    }
}

fn spoil_mrid(random: &mut Random, block: &Block, fields: &mut ReportFields) {
    let records: Vec<_> = block.slots.iter().flatten().collect();
    match random.below(4) {
        0 | 1 if !records.is_empty() => fields.mrid = random.pick(&records).mrid,
        2 => fields.mrid = [0; 16],
        _ => {
            let index = random.below(16) as usize;
            fields.mrid[index] ^= 1;
        }
    }
}

/// The report with one small change after which it is not whole.
pub fn broken_report(random: &mut Random, report: &[u8]) -> Vec<u8> {
    let mut bytes = report.to_vec();
    if bytes.len() < HEAD_SIZE + 2 {
        return Vec::new();
    }
    let parts_end = HEAD_SIZE + usize::from(bytes[head::PART_COUNT]) * PART_SIZE;
    let has_parts = parts_end > HEAD_SIZE;
    match random.below(9) {
        0 => drop(bytes.pop()),
        1 => bytes.push(0),
        2 => bytes[random.below(2) as usize] ^= 1,
        3 => bytes[head::ZERO + random.below(2) as usize] = 1,
        4 => bytes[parts_end + random.below(2) as usize] ^= 1,
        5 if has_parts => bytes[HEAD_SIZE + random.below(4) as usize] ^= 1,
        6 if has_parts => bytes[parts_end - PART_SIZE + random.below(4) as usize] ^= 1,
        7 => return too_long(&bytes, parts_end),
        _ => bytes.truncate(random.between(1..=bytes.len() as u32 - 1) as usize),
    }
    bytes
}

/// One byte of text more than may be, the length being right.
fn too_long(bytes: &[u8], parts_end: usize) -> Vec<u8> {
    let mut longer = bytes[..parts_end + 2].to_vec();
    longer.resize(parts_end + 2 + MAX_TEXT + 1, b'x');
    longer[head::TEXT_LENGTH..head::TEXT_LENGTH + 2]
        .copy_from_slice(&(MAX_TEXT as u16 + 1).to_le_bytes());
    longer
}
