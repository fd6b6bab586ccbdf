//! Writes roster entries and reports from fields, in range or not.

use crate::codes::{Direction, Mark, Operation, RecordType, UnitKind};
use crate::fields::{put_i32, put_u16, put_u32};
use crate::record::MRID_SIZE;
use crate::register::{slot, SLOT_MARK, SLOT_SIZE};
use crate::report::{head, part, HEAD_SIZE, PART_MARK, PART_SIZE, REPORT_MARK, TEXT_MARK};
use crate::roster::{ENTRY_LAYOUT, ENTRY_MARK, ENTRY_SIZE};

/// The fields of a roster entry.
#[derive(Clone, Debug)]
pub struct EntryFields {
    /// The owner's number.
    pub owner: u16,
    /// Kind code.
    pub kind: u8,
    /// State code.
    pub state: u8,
    /// Qualification.
    pub qualification: u8,
    /// Since.
    pub since: u32,
    /// Pmax and Pmin for generation, then for consumption.
    pub powers: [u32; 4],
}

/// The fields of a report.
#[derive(Clone, Debug, PartialEq, Eq)]
pub struct ReportFields {
    /// Unit number.
    pub unit: u16,
    /// The owner's number.
    pub owner: u16,
    /// Type code.
    pub record_type: u8,
    /// Operation code.
    pub operation: u8,
    /// Direction code.
    pub direction: u8,
    /// Start mark.
    pub start_mark: u8,
    /// End mark.
    pub end_mark: u8,
    /// Qualification or event code.
    pub qualification: u8,
    /// Ordinal.
    pub revision: u16,
    /// Identifier.
    pub mrid: [u8; MRID_SIZE],
    /// Stamp.
    pub stamp: u32,
    /// Start.
    pub start: u32,
    /// End.
    pub end: u32,
    /// The parts.
    pub parts: Vec<PartFields>,
    /// The text.
    pub text: Vec<u8>,
}

/// The fields of a slot.
#[derive(Clone, Debug)]
pub struct SlotFields {
    /// Type code.
    pub record_type: u8,
    /// Direction code.
    pub direction: u8,
    /// Qualification.
    pub qualification: u8,
    /// Start mark.
    pub start_mark: u8,
    /// Ordinal.
    pub revision: u16,
    /// Identifier.
    pub mrid: [u8; MRID_SIZE],
    /// Stamp.
    pub stamp: u32,
    /// Start.
    pub start: u32,
    /// End.
    pub end: u32,
    /// At most 100 pairs (part end, kW).
    pub pairs: Vec<(u32, u32)>,
}

/// The fields of a part.
#[derive(Clone, Copy, Debug, PartialEq, Eq)]
pub struct PartFields {
    /// Start.
    pub start: u32,
    /// End.
    pub end: u32,
    /// Signed kW.
    pub power: i32,
}

impl EntryFields {
    /// An entry of a unit that only generates.
    pub fn generating(
        owner: u16,
        kind: UnitKind,
        state: u8,
        since: u32,
        p_max: u32,
        p_min: u32,
    ) -> Self {
        EntryFields {
            owner,
            kind: kind as u8,
            state,
            qualification: 0,
            since,
            powers: [p_max, p_min, 0, 0],
        }
    }

    /// The entry's 28 bytes.
    pub fn bytes(&self) -> [u8; ENTRY_SIZE] {
        let mut bytes = [0; ENTRY_SIZE];
        bytes[..ENTRY_MARK.len()].copy_from_slice(&ENTRY_MARK);
        put_u16(&mut bytes, ENTRY_LAYOUT.owner, self.owner);
        bytes[ENTRY_LAYOUT.kind] = self.kind;
        bytes[ENTRY_LAYOUT.state] = self.state;
        bytes[ENTRY_LAYOUT.qualification] = self.qualification;
        put_u32(&mut bytes, ENTRY_LAYOUT.since, self.since);
        for (index, power) in self.powers.into_iter().enumerate() {
            put_u32(&mut bytes, ENTRY_LAYOUT.powers + 4 * index, power);
        }
        bytes
    }
}

impl ReportFields {
    /// A planned creation of a generation record with ordinal 1, without parts and text.
    pub fn creation(unit: u16, owner: u16, record_type: RecordType) -> Self {
        ReportFields {
            unit,
            owner,
            record_type: record_type as u8,
            operation: Operation::Create as u8,
            direction: Direction::Generation as u8,
            start_mark: Mark::Planned as u8,
            end_mark: Mark::Planned as u8,
            qualification: 0,
            revision: 1,
            mrid: [0; MRID_SIZE],
            stamp: 0,
            start: 0,
            end: 0,
            parts: Vec::new(),
            text: Vec::new(),
        }
    }

    /// The same with a period.
    pub fn over(mut self, start: u32, end: u32) -> Self {
        (self.start, self.end) = (start, end);
        self
    }

    /// The same with one part over the whole period.
    pub fn at(mut self, power: i32) -> Self {
        self.parts = vec![PartFields {
            start: self.start,
            end: self.end,
            power,
        }];
        self
    }

    /// The same with parts that end at the given minutes, each starting where the one before ends.
    pub fn stepping(mut self, steps: &[(u32, i32)]) -> Self {
        let mut start = self.start;
        self.parts = steps
            .iter()
            .map(|&(end, power)| PartFields {
                start: std::mem::replace(&mut start, end),
                end,
                power,
            })
            .collect();
        self
    }

    /// The same with a stamp.
    pub fn stamped(mut self, stamp: u32) -> Self {
        self.stamp = stamp;
        self
    }

    /// The same, begun.
    pub fn begun(mut self) -> Self {
        self.start_mark = Mark::Actual as u8;
        self
    }

    /// The same, ended early: end mark 2, and the parts up to the end.
    pub fn ended_early(mut self, end: u32) -> Self {
        self.end_mark = Mark::Actual as u8;
        self.end = end;
        self.parts.retain(|part| part.start < end);
        if let Some(last) = self.parts.last_mut() {
            last.end = end;
        }
        self
    }

    /// Whether it carries end mark 2.
    pub fn ends_early(&self) -> bool {
        self.end_mark == Mark::Actual as u8
    }

    /// The same with a qualification.
    pub fn qualified(mut self, qualification: u8) -> Self {
        self.qualification = qualification;
        self
    }

    /// The same with every identifier byte equal.
    pub fn named(mut self, byte: u8) -> Self {
        self.mrid = [byte; MRID_SIZE];
        self
    }

    /// The report's bytes.
    pub fn bytes(&self) -> Vec<u8> {
        let mut bytes = vec![0; HEAD_SIZE];
        bytes[..REPORT_MARK.len()].copy_from_slice(&REPORT_MARK);
        put_u16(&mut bytes, head::UNIT, self.unit);
        put_u16(&mut bytes, head::OWNER, self.owner);
        bytes[head::TYPE] = self.record_type;
        bytes[head::OPERATION] = self.operation;
        bytes[head::DIRECTION] = self.direction;
        bytes[head::START_MARK] = self.start_mark;
        bytes[head::END_MARK] = self.end_mark;
        bytes[head::QUALIFICATION] = self.qualification;
        put_u16(&mut bytes, head::REVISION, self.revision);
        put_u16(&mut bytes, head::PART_COUNT, self.parts.len() as u16);
        bytes[head::MRID..head::MRID + MRID_SIZE].copy_from_slice(&self.mrid);
        put_u32(&mut bytes, head::STAMP, self.stamp);
        put_u32(&mut bytes, head::START, self.start);
        put_u32(&mut bytes, head::END, self.end);
        put_u16(&mut bytes, head::TEXT_LENGTH, self.text.len() as u16);
        for part in &self.parts {
            bytes.extend_from_slice(&part.bytes());
        }
        bytes.extend_from_slice(&TEXT_MARK);
        bytes.extend_from_slice(&self.text);
        bytes
    }
}

impl SlotFields {
    /// The slot's 888 bytes.
    pub fn bytes(&self) -> [u8; SLOT_SIZE] {
        let mut bytes = [0; SLOT_SIZE];
        bytes[..SLOT_MARK.len()].copy_from_slice(&SLOT_MARK);
        bytes[slot::TYPE] = self.record_type;
        bytes[slot::DIRECTION] = self.direction;
        bytes[slot::QUALIFICATION] = self.qualification;
        bytes[slot::START_MARK] = self.start_mark;
        put_u16(&mut bytes, slot::REVISION, self.revision);
        bytes[slot::MRID..slot::MRID + MRID_SIZE].copy_from_slice(&self.mrid);
        put_u32(&mut bytes, slot::STAMP, self.stamp);
        put_u32(&mut bytes, slot::START, self.start);
        put_u32(&mut bytes, slot::END, self.end);
        put_u16(&mut bytes, slot::PART_COUNT, self.pairs.len() as u16);
        let places = bytes[slot::PARTS..].chunks_exact_mut(slot::PART_SIZE);
        for (place, (end, power)) in places.zip(&self.pairs) {
            put_u32(place, 0, *end);
            put_u32(place, 4, *power);
        }
        bytes
    }
}

impl PartFields {
    /// The part's 16 bytes.
    pub fn bytes(&self) -> [u8; PART_SIZE] {
        let mut bytes = [0; PART_SIZE];
        bytes[..PART_MARK.len()].copy_from_slice(&PART_MARK);
        put_u32(&mut bytes, part::START, self.start);
        put_u32(&mut bytes, part::END, self.end);
        put_i32(&mut bytes, part::POWER, self.power);
        bytes
    }
}
