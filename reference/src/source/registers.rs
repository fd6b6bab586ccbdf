//! Random registers: whole ones that reports need not lead to, and damaged ones.

use super::rosters::entry;
use crate::codes::{Direction, Mark, RecordType, UnitKind};
use crate::fields::{put_u16, put_u32, u16_at, u32_at};
use crate::quantities::{Kilowatt, Minute, Period, LAST_MINUTE, MAX_POWER};
use crate::random::Random;
use crate::record::{Part, Parts, Record, MAX_PARTS, MRID_SIZE};
use crate::register::{
    head, put_last_stamp, slot, slot_bytes, write_head, write_slot, BLOCK_SIZE, HEAD_LAYOUT,
    HEAD_SIZE, SLOT_COUNT, SLOT_SIZE,
};
use crate::roster::read_entry;
use crate::unit::Unit;
use crate::worked_examples::D;

/// A part as a slot has it.
type Pair = [u8; slot::PART_SIZE];

/// A whole register of at most so many units. Its records need not stand up to questions 6, 7, 16
/// and 17, nor go with the unit's state.
pub fn whole_register(random: &mut Random, most_units: usize) -> Vec<u8> {
    let units = random.between(1..=most_units.max(1) as u32) as usize;
    let base = random.pick(&[0, D, D, D, LAST_MINUTE.0 - 2_000]);
    let mut register = vec![0; units * BLOCK_SIZE];
    for (block, number) in register.chunks_mut(BLOCK_SIZE).zip(1..) {
        if let Some(unit) = read_entry(&entry(random, base).bytes()) {
            write_block(random, block, number, &unit);
        }
    }
    register
}

fn write_block(random: &mut Random, block: &mut [u8], number: u16, unit: &Unit) {
    write_head(block, number, unit);
    let late = unit.row.since.0 + random.pick(&[0, 1, 60, 700]);
    let last_stamp = Minute(late.min(LAST_MINUTE.0));
    put_last_stamp(block, last_stamp);
    let mut kept: Vec<(Record<'static>, Vec<Pair>)> = Vec::new();
    for index in 0..SLOT_COUNT {
        let (mut record, pairs) = free_record(random, unit, last_stamp);
        record.mrid = [index as u8; MRID_SIZE];
        let apart = kept.iter().all(|(other, _)| !record.clashes(other));
        if apart && random.percent(80) {
            let parts = Parts::InSlot(&pairs);
            write_slot(slot_bytes(block, index), &Record { parts, ..record });
            kept.push((record, pairs));
        }
    }
}

fn free_type(random: &mut Random, kind: UnitKind) -> RecordType {
    const TYPES: [RecordType; 5] = [
        RecordType::Outage,
        RecordType::PositiveDerating,
        RecordType::NegativeDerating,
        RecordType::MustRun,
        RecordType::OffGrid,
    ];
    random.pick(match kind {
        UnitKind::W1 => &TYPES,
        UnitKind::M1 | UnitKind::Z1 => &TYPES[..4],
        UnitKind::A => &TYPES[..3],
    })
}

fn free_direction(random: &mut Random, kind: UnitKind, record_type: RecordType) -> Direction {
    const DIRECTIONS: [Direction; 3] = [
        Direction::Generation,
        Direction::Consumption,
        Direction::Both,
    ];
    match (kind, record_type) {
        (UnitKind::W1 | UnitKind::Z1, _) => Direction::Generation,
        (_, RecordType::Outage) => random.pick(&DIRECTIONS),
        _ => random.pick(&DIRECTIONS[..2]),
    }
}

/// A record that question 1 lets a unit have, its parts as pairs beside it.
fn free_record(
    random: &mut Random,
    unit: &Unit,
    last_stamp: Minute,
) -> (Record<'static>, Vec<Pair>) {
    let record_type = free_type(random, unit.kind);
    let start_mark = match record_type {
        RecordType::OffGrid => Mark::Actual,
        _ => random.pick(&[Mark::Planned, Mark::Actual]),
    };
    let stamp = Minute(last_stamp.0.saturating_sub(random.below(60)));
    let record = Record {
        record_type,
        direction: free_direction(random, unit.kind, record_type),
        qualification: match record_type {
            RecordType::Outage => random.between(1..=7) as u8,
            RecordType::OffGrid => random.between(1..=5) as u8,
            _ => 0,
        },
        start_mark,
        revision: random.pick(&[1, 2, 500, 9_998, 9_999]),
        mrid: [0; MRID_SIZE],
        stamp,
        period: free_period(random, start_mark, stamp),
        parts: Parts::NONE,
    };
    let pairs = free_pairs(random, &record, unit);
    (record, pairs)
}

/// "begun start ≤ slot stamp", "start < end"; nothing more.
fn free_period(random: &mut Random, start_mark: Mark, stamp: Minute) -> Period {
    let start = match start_mark {
        Mark::Actual => stamp.0.saturating_sub(random.below(200)),
        Mark::Planned => (stamp.0 + random.below(600)).saturating_sub(100),
    };
    let start = start.min(LAST_MINUTE.0 - 1);
    let length = if random.percent(30) {
        random.between(1..=240)
    } else {
        15 * random.between(1..=16)
    };
    Period {
        start: Minute(start),
        end: Minute((start + length).min(LAST_MINUTE.0)),
    }
}

fn free_pairs(random: &mut Random, record: &Record, unit: &Unit) -> Vec<Pair> {
    if !record.record_type.has_parts() {
        return Vec::new();
    }
    let Period { start, end } = record.period;
    let most = (end.0 - start.0).min(MAX_PARTS as u32);
    let count = random.between(1..=most).min(random.pick(&[1, 2, 3, 100]));
    let range = unit.powers.of(record.direction);
    let part = |index| {
        let part_end = if index == count {
            end.0
        } else {
            start.0 + (end.0 - start.0) * index / count
        };
        let any = random.below(range.p_max.0 + 1);
        let power = random.pick(&[any, any, 0, range.p_min.0, range.p_max.0, MAX_POWER.0]);
        Part {
            end: Minute(part_end),
            power: Kilowatt(power),
        }
    };
    (1..=count).map(part).map(Part::pair).collect()
}

/// A register with one field changed a little; it may be whole even so.
pub fn damaged_register(random: &mut Random, whole: &[u8]) -> Vec<u8> {
    let mut register = whole.to_vec();
    match random.below(40) {
        0 => drop(register.pop()),
        1 => register.push(0),
        2 => register.clear(),
        3 => register.truncate(register.len() - BLOCK_SIZE),
        4..=9 => {
            let at = random.below(register.len() as u32) as usize;
            register[at] = register[at].wrapping_add(random.pick(&[1, 128, 255]));
        }
        _ => {
            let blocks = (register.len() / BLOCK_SIZE) as u32;
            let block = random.below(blocks) as usize * BLOCK_SIZE;
            let slot = random.below(SLOT_COUNT as u32 + 1) as usize;
            let bytes = &mut register[block..block + BLOCK_SIZE];
            match slot.checked_sub(1) {
                None => damage_head(random, &mut bytes[..HEAD_SIZE]),
                Some(index) => damage_slot(random, &mut bytes[HEAD_SIZE + index * SLOT_SIZE..]),
            }
        }
    }
    register
}

fn damage_head(random: &mut Random, bytes: &mut [u8]) {
    match random.below(5) {
        0 => {
            let at = random.pick(&[
                0,
                1,
                HEAD_LAYOUT.kind,
                HEAD_LAYOUT.state,
                HEAD_LAYOUT.qualification,
            ]);
            bytes[at] = bytes[at].wrapping_add(random.pick(&[1, 255]));
        }
        1 => {
            let at = random.pick(&[head::UNIT, HEAD_LAYOUT.owner]);
            put_u16(bytes, at, random.pick(&[0, 1, 2, 999, 1_000]));
        }
        2 => {
            let at = random.pick(&[HEAD_LAYOUT.since, head::LAST_STAMP]);
            nudge(random, bytes, at, LAST_MINUTE.0);
        }
        3 => {
            let at = HEAD_LAYOUT.powers + 4 * random.below(4) as usize;
            nudge(random, bytes, at, MAX_POWER.0);
        }
        _ => {
            let at = random.pick(&[9, 10, 11, 36, 50, 63]);
            bytes[at] = 1;
        }
    }
}

fn damage_slot(random: &mut Random, bytes: &mut [u8]) {
    let count = u32::from(u16_at(bytes, slot::PART_COUNT));
    match random.below(7) {
        0 => {
            let at = random.below(slot::REVISION as u32) as usize;
            bytes[at] = bytes[at].wrapping_add(random.pick(&[1, 255]));
        }
        1 => put_u16(bytes, slot::REVISION, random.pick(&[0, 1, 9_999, 10_000])),
        2 => {
            let mrid = [random.below(8) as u8; MRID_SIZE];
            bytes[slot::MRID..slot::STAMP].copy_from_slice(&mrid);
        }
        3 | 4 => {
            let at = random.pick(&[slot::STAMP, slot::START, slot::END]);
            nudge(random, bytes, at, LAST_MINUTE.0);
        }
        5 => {
            let step = random.pick(&[1, u16::MAX]);
            let changed = u16_at(bytes, slot::PART_COUNT).wrapping_add(step);
            put_u16(bytes, slot::PART_COUNT, changed);
        }
        _ => {
            let pair = random.below(count + 1).min(MAX_PARTS as u32 - 1) as usize;
            let at = slot::PARTS + pair * slot::PART_SIZE + random.pick(&[0, 4]);
            let top = random.pick(&[LAST_MINUTE.0, MAX_POWER.0]);
            nudge(random, bytes, at, top);
        }
    }
}

/// Moves a u32 by one or to an edge of its range.
fn nudge(random: &mut Random, bytes: &mut [u8], at: usize, top: u32) {
    let value = u32_at(bytes, at);
    let near = [
        value.wrapping_add(1),
        value.wrapping_sub(1),
        value.wrapping_add(15),
        value.wrapping_sub(15),
        0,
        top,
        top + 1,
    ];
    put_u32(bytes, at, random.pick(&near));
}
