//! The register: one block to a unit, a head and eight slots; question 1.

use crate::codes::{Direction, Mark, RecordType};
use crate::fields::{all_zero, put_u16, put_u32, u16_at, u32_at};
use crate::quantities::{Minute, Period, MAX_POWER};
use crate::questions::question_5_kind_carries;
use crate::record::{Part, Parts, Record, MAX_PARTS, MRID_SIZE};
use crate::report::REVISIONS;
use crate::unit::{Row, Unit, UnitLayout};

/// The most blocks of a register.
pub const MAX_UNITS: usize = 64;
/// Bytes of a block's head.
pub const HEAD_SIZE: usize = 64;
/// Bytes of a slot.
pub const SLOT_SIZE: usize = 888;
/// Slots of a block.
pub const SLOT_COUNT: usize = 8;
/// Bytes of a block.
pub const BLOCK_SIZE: usize = HEAD_SIZE + SLOT_COUNT * SLOT_SIZE;
/// The mark of a block.
pub const BLOCK_MARK: [u8; 2] = [0x55, 0x4E];
/// The mark of a used slot.
pub const SLOT_MARK: [u8; 2] = [0x5A, 0x47];

/// Offsets in a block's head.
pub mod head {
    use std::ops::Range;

    /// u16.
    pub const UNIT: usize = 2;
    /// The zeros between qualification and since.
    pub const ZERO: Range<usize> = 9..12;
    /// u32.
    pub const LAST_STAMP: usize = 16;
    /// The zeros after the powers.
    pub const TAIL_ZERO: Range<usize> = 36..super::HEAD_SIZE;
}

/// Where the unit's fields lie in a block's head.
pub const HEAD_LAYOUT: UnitLayout = UnitLayout {
    owner: 4,
    kind: 6,
    state: 7,
    qualification: 8,
    since: 12,
    powers: 20,
};

/// Offsets in a slot.
pub mod slot {
    use std::ops::Range;

    /// u8.
    pub const TYPE: usize = 2;
    /// u8.
    pub const DIRECTION: usize = 3;
    /// u8.
    pub const QUALIFICATION: usize = 4;
    /// u8.
    pub const START_MARK: usize = 5;
    /// Ordinal, u16.
    pub const REVISION: usize = 6;
    /// Identifier, 16 bytes.
    pub const MRID: usize = 8;
    /// u32.
    pub const STAMP: usize = 24;
    /// u32.
    pub const START: usize = 28;
    /// u32.
    pub const END: usize = 32;
    /// k, u16.
    pub const PART_COUNT: usize = 36;
    /// The zeros before the pairs.
    pub const ZERO: Range<usize> = 38..PARTS;
    /// The pairs (part end u32, kW u32).
    pub const PARTS: usize = 88;
    /// Bytes of a pair.
    pub const PART_SIZE: usize = 8;
    /// u32 in a pair.
    pub const PART_END: usize = 0;
    /// u32 in a pair.
    pub const PART_POWER: usize = 4;
}

const _: () = assert!(BLOCK_SIZE == 7_168);
const _: () = assert!(slot::PARTS + MAX_PARTS * slot::PART_SIZE == SLOT_SIZE);

/// A whole block, read.
#[derive(Clone, Copy, Debug)]
pub struct Block<'a> {
    /// The unit's number.
    pub number: u16,
    /// Owner, kind, row, powers.
    pub unit: Unit,
    /// The unit's last stamp.
    pub last_stamp: Minute,
    /// The slots; None is a free one.
    pub slots: [Option<Record<'a>>; SLOT_COUNT],
}

/// "Is the register whole: 1 to 64 blocks, layout, head fields in the roster's ranges, since ≤
/// last stamp, a time, slots of types 1–5 whose fields pass 4, 5, 8 and 9, type 5 begun, start <
/// end, identifiers distinct in a unit, slot stamp ≤ last stamp, begun start ≤ slot stamp, no two
/// used slots of one type with meeting directions overlapping?"
pub fn question_1_register_whole(register: &[u8]) -> bool {
    let (blocks, rest) = register.as_chunks::<BLOCK_SIZE>();
    let counted = rest.is_empty() && (1..=MAX_UNITS).contains(&blocks.len());
    counted
        && blocks
            .iter()
            .zip(1..)
            .all(|(block, number)| u16_at(block, head::UNIT) == number && block_whole(block))
}

impl<'a> Block<'a> {
    /// The block, if question 1 finds it whole; its number may be any.
    pub fn read(bytes: &'a [u8]) -> Option<Block<'a>> {
        if block_whole(bytes) {
            Block::decode(bytes)
        } else {
            None
        }
    }

    /// The fields of a block that is known to be whole: its zeros and pairs are not looked at.
    pub fn decode(bytes: &'a [u8]) -> Option<Block<'a>> {
        let (head, slot_bytes) = split(bytes)?;
        let (unit, last_stamp) = decode_head(head)?;
        let mut block = Block {
            number: u16_at(head, head::UNIT),
            unit,
            last_stamp,
            slots: [None; SLOT_COUNT],
        };
        for (slot, bytes) in block.slots.iter_mut().zip(slot_bytes) {
            if bytes.starts_with(&SLOT_MARK) {
                *slot = Some(decode_slot(bytes)?);
            }
        }
        Some(block)
    }
}

/// The head and the slots of a block, if it is as long as one.
fn split(block: &[u8]) -> Option<(&[u8; HEAD_SIZE], &[[u8; SLOT_SIZE]; SLOT_COUNT])> {
    let (head, slots) = block.split_first_chunk()?;
    let (slots, rest) = slots.as_chunks();
    let slots = slots.try_into().ok()?;
    rest.is_empty().then_some((head, slots))
}

/// What question 1 asks of a block, but for its number.
fn block_whole(block: &[u8]) -> bool {
    let Some((head, slot_bytes)) = split(block) else {
        return false;
    };
    let Some((unit, last_stamp)) = read_head(head) else {
        return false;
    };
    let mut slots = [None; SLOT_COUNT];
    for (slot, bytes) in slots.iter_mut().zip(slot_bytes) {
        if bytes.starts_with(&SLOT_MARK) {
            *slot = read_slot(bytes).filter(|record| fits_unit(record, &unit, last_stamp));
        }
        // "A free slot is 888 zeros"; a used one that is at fault has its mark, which is none.
        if slot.is_none() && !all_zero(bytes) {
            return false;
        }
    }
    slots_apart(&slots)
}

/// Layout, "head fields in the roster's ranges, since ≤ last stamp, a time".
fn read_head(head: &[u8; HEAD_SIZE]) -> Option<(Unit, Minute)> {
    let laid_out = head.starts_with(&BLOCK_MARK)
        && all_zero(&head[head::ZERO])
        && all_zero(&head[head::TAIL_ZERO]);
    decode_head(head).filter(|(unit, last_stamp)| laid_out && unit.row.since <= *last_stamp)
}

/// The unit and its last stamp: "head fields in the roster's ranges", "a time".
fn decode_head(head: &[u8; HEAD_SIZE]) -> Option<(Unit, Minute)> {
    let unit = Unit::read(head, &HEAD_LAYOUT)?;
    let last_stamp = Minute::from_count(u32_at(head, head::LAST_STAMP))?;
    Some((unit, last_stamp))
}

/// The record of a used slot, if its layout and its own fields stand up to questions 4, 8 and 9
/// and to "start < end".
fn read_slot(bytes: &[u8; SLOT_SIZE]) -> Option<Record<'_>> {
    let record = decode_slot(bytes)?;
    let fits = all_zero(&bytes[slot::ZERO])
        && all_zero(&bytes[parts_end(bytes)..])
        && record.period.start < record.period.end
        && slot_parts_fit(&record);
    fits.then_some(record)
}

/// Where the pairs of a used slot end by its k, which may be too large.
fn parts_end(bytes: &[u8; SLOT_SIZE]) -> usize {
    slot::PARTS + usize::from(u16_at(bytes, slot::PART_COUNT)) * slot::PART_SIZE
}

/// The record of a used slot, if each field is in its own range (question 4).
fn decode_slot(bytes: &[u8; SLOT_SIZE]) -> Option<Record<'_>> {
    let time = |at| Minute::from_count(u32_at(bytes, at));
    let mut mrid = [0; MRID_SIZE];
    mrid.copy_from_slice(&bytes[slot::MRID..slot::MRID + MRID_SIZE]);
    let (pairs, _) = bytes.get(slot::PARTS..parts_end(bytes))?.as_chunks();
    let record_type = RecordType::from_code(bytes[slot::TYPE])
        .filter(|&record_type| record_type != RecordType::Event)?;
    Some(Record {
        record_type,
        direction: Direction::from_code(bytes[slot::DIRECTION])?,
        qualification: Some(bytes[slot::QUALIFICATION])
            .filter(|&code| record_type.allows_qualification(code))?,
        start_mark: Mark::from_code(bytes[slot::START_MARK])?,
        revision: Some(u16_at(bytes, slot::REVISION))
            .filter(|revision| REVISIONS.contains(revision))?,
        mrid,
        stamp: time(slot::STAMP)?,
        period: Period {
            start: time(slot::START)?,
            end: time(slot::END)?,
        },
        parts: Parts::InSlot(pairs),
    })
}

/// Questions 8 and 9 of a slot: pairs for types 2 to 4 only, ends rising up to the record's end.
fn slot_parts_fit(record: &Record) -> bool {
    match record.parts {
        Parts::InSlot(pairs) if record.record_type.has_parts() => pairs_fit(pairs, record.period),
        parts => parts.is_empty(),
    }
}

/// Each pair's part starts where the one before ends. One pass, without an early exit, so that the
/// compiler can take several pairs at once.
fn pairs_fit(pairs: &[[u8; slot::PART_SIZE]], period: Period) -> bool {
    let (mut remains_from, mut fits) = (period.start, true);
    for pair in pairs {
        let Part { end, power } = Part::of_pair(pair);
        fits &= (remains_from < end) & (power <= MAX_POWER);
        remains_from = end;
    }
    fits && remains_from == period.end
}

/// Question 5, "type 5 begun", "slot stamp ≤ last stamp", "begun start ≤ slot stamp".
fn fits_unit(record: &Record, unit: &Unit, last_stamp: Minute) -> bool {
    question_5_kind_carries(unit.kind, record.record_type, record.direction)
        && (record.record_type != RecordType::OffGrid || record.begun())
        && record.stamp <= last_stamp
        && (!record.begun() || record.period.start <= record.stamp)
}

/// "identifiers distinct in a unit", "no two used slots of one type with meeting directions
/// overlapping".
fn slots_apart(slots: &[Option<Record>; SLOT_COUNT]) -> bool {
    slots.iter().enumerate().all(|(index, slot)| {
        let later = slots[index + 1..].iter().flatten();
        slot.as_ref().is_none_or(|record| {
            later
                .into_iter()
                .all(|other| record.mrid != other.mrid && !record.clashes(other))
        })
    })
}

/// Writes a head: "row and powers from the roster, last stamp = since".
pub fn write_head(block: &mut [u8], number: u16, unit: &Unit) {
    block[..HEAD_SIZE].fill(0);
    block[..BLOCK_MARK.len()].copy_from_slice(&BLOCK_MARK);
    put_u16(block, head::UNIT, number);
    unit.write(block, &HEAD_LAYOUT);
    put_last_stamp(block, unit.row.since);
}

/// Writes the last stamp.
pub fn put_last_stamp(block: &mut [u8], stamp: Minute) {
    put_u32(block, head::LAST_STAMP, stamp.0);
}

/// Writes the row.
pub fn put_row(block: &mut [u8], row: Row) {
    row.write(block, &HEAD_LAYOUT);
}

/// The bytes of a slot, from 0.
pub fn slot_bytes(block: &mut [u8], index: usize) -> &mut [u8] {
    let at = HEAD_SIZE + index * SLOT_SIZE;
    &mut block[at..at + SLOT_SIZE]
}

/// Writes a record into a slot, all 888 bytes.
pub fn write_slot(bytes: &mut [u8], record: &Record) {
    bytes.fill(0);
    bytes[..SLOT_MARK.len()].copy_from_slice(&SLOT_MARK);
    bytes[slot::TYPE] = record.record_type as u8;
    bytes[slot::DIRECTION] = record.direction as u8;
    bytes[slot::QUALIFICATION] = record.qualification;
    bytes[slot::START_MARK] = record.start_mark as u8;
    put_u16(bytes, slot::REVISION, record.revision);
    bytes[slot::MRID..slot::MRID + MRID_SIZE].copy_from_slice(&record.mrid);
    put_u32(bytes, slot::STAMP, record.stamp.0);
    put_u32(bytes, slot::START, record.period.start.0);
    put_u32(bytes, slot::END, record.period.end.0);
    let (pairs, _) = bytes[slot::PARTS..].as_chunks_mut();
    let mut part_count = 0;
    for (pair, part) in pairs.iter_mut().zip(record.parts.iter()) {
        *pair = part.pair();
        part_count += 1;
    }
    put_u16(bytes, slot::PART_COUNT, part_count);
}
