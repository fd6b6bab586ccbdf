//! The report: head, parts, text; question 2.

use crate::codes::{Direction, Mark, Operation, RecordType};
use crate::fields::{all_zero, i32_at, u16_at, u32_at};
use crate::quantities::{Minute, Period};
use crate::record::{Cover, Parts, Record, MAX_PARTS, MRID_SIZE};
use std::ops::RangeInclusive;

/// Bytes of the head.
pub const HEAD_SIZE: usize = 48;
/// Bytes of a part.
pub const PART_SIZE: usize = 16;
/// The most bytes of text.
pub const MAX_TEXT: usize = 200;
/// The mark of a report.
pub const REPORT_MARK: [u8; 2] = [0x52, 0x50];
/// The mark of a part.
pub const PART_MARK: [u8; 2] = [0x50, 0x4B];
/// The mark before the text.
pub const TEXT_MARK: [u8; 2] = [0x54, 0x58];

/// The ordinals a report may have.
pub const REVISIONS: RangeInclusive<u16> = 1..=9_999;

/// Offsets in the head.
pub mod head {
    /// u16.
    pub const UNIT: usize = 2;
    /// u16.
    pub const OWNER: usize = 4;
    /// u8.
    pub const TYPE: usize = 6;
    /// u8.
    pub const OPERATION: usize = 7;
    /// u8.
    pub const DIRECTION: usize = 8;
    /// u8.
    pub const START_MARK: usize = 9;
    /// u8.
    pub const END_MARK: usize = 10;
    /// u8.
    pub const QUALIFICATION: usize = 11;
    /// Ordinal, u16.
    pub const REVISION: usize = 12;
    /// Number of parts k, u16.
    pub const PART_COUNT: usize = 14;
    /// Identifier, 16 bytes.
    pub const MRID: usize = 16;
    /// u32.
    pub const STAMP: usize = 32;
    /// u32.
    pub const START: usize = 36;
    /// u32.
    pub const END: usize = 40;
    /// Text length t, u16.
    pub const TEXT_LENGTH: usize = 44;
    /// u16.
    pub const ZERO: usize = 46;
}

/// Offsets in a part.
pub mod part {
    /// Bytes of a part.
    pub const SIZE: usize = super::PART_SIZE;
    /// u16.
    pub const ZERO: usize = 2;
    /// u32.
    pub const START: usize = 4;
    /// u32.
    pub const END: usize = 8;
    /// Signed kW, i32.
    pub const POWER: usize = 12;
}

/// A report that is whole; its fields may be out of range.
#[derive(Clone, Copy, Debug)]
pub struct WholeReport<'a> {
    bytes: &'a [u8],
    head: &'a [u8; HEAD_SIZE],
    parts: &'a [[u8; PART_SIZE]],
    text: &'a [u8],
}

/// A part as the report states it.
#[derive(Clone, Copy, Debug)]
pub struct StatedPart {
    /// Start, a count.
    pub start: u32,
    /// End, a count.
    pub end: u32,
    /// Signed kW.
    pub power: i32,
}

/// A report whose fields are in range (question 4).
#[derive(Clone, Copy, Debug)]
pub struct Report<'a> {
    /// Create, change, withdraw.
    pub operation: Operation,
    /// End mark 2: "a derating that ended early".
    pub ends_early: bool,
    /// The rest; an event's record has no parts and stands in no slot.
    pub record: Record<'a>,
    /// What the questions ask of the parts.
    pub parts: PartFindings,
}

impl Report<'_> {
    /// Whether the record leaves its slot: withdrawn, or ended early.
    pub fn empties_slot(&self) -> bool {
        self.operation == Operation::Withdraw || self.ends_early
    }

    /// Types 2 to 4, but for withdrawals: question 8 asks for parts.
    pub fn has_parts(&self) -> bool {
        self.record.record_type.has_parts() && self.operation != Operation::Withdraw
    }
}

/// What questions 4, 7, 8, 9 and 16 ask of a report's parts, found in one pass.
#[derive(Clone, Copy, Debug)]
pub struct PartFindings {
    /// The latest start or end, a count.
    pub latest: u32,
    /// "every part end after the stamp" is a multiple of 15.
    pub on_quarter_hours: bool,
    /// The parts cover the period; Err has the number of the part that breaks it.
    pub cover: Result<(), u32>,
    /// The highest power, a count; a negative one counts from 2^31 up, above every power.
    pub highest_power: u32,
}

/// "Length 50 + 16k + t", once the head is there to give k and t.
pub fn stated_length(bytes: &[u8]) -> Option<usize> {
    let head = bytes.get(..HEAD_SIZE)?;
    let parts = usize::from(u16_at(head, head::PART_COUNT));
    let text = usize::from(u16_at(head, head::TEXT_LENGTH));
    Some(HEAD_SIZE + parts * PART_SIZE + TEXT_MARK.len() + text)
}

/// "Is the report whole: length, two-byte marks, zeros, k ≤ 100, t ≤ 200?"
pub fn question_2_report_whole(bytes: &[u8]) -> Option<WholeReport<'_>> {
    let (head, rest) = bytes.split_first_chunk::<HEAD_SIZE>()?;
    let part_count = usize::from(u16_at(head, head::PART_COUNT));
    let text_length = usize::from(u16_at(head, head::TEXT_LENGTH));
    let (parts, rest) = rest.split_at_checked(part_count * PART_SIZE)?;
    let (parts, _) = parts.as_chunks::<PART_SIZE>();
    let text = rest.strip_prefix(&TEXT_MARK)?;
    let counts_fit =
        part_count <= MAX_PARTS && text_length <= MAX_TEXT && text.len() == text_length;
    let marks_and_zeros = head.starts_with(&REPORT_MARK) && all_zero(&head[head::ZERO..]);
    (counts_fit && marks_and_zeros && parts_marked(parts)).then_some(WholeReport {
        bytes,
        head,
        parts,
        text,
    })
}

/// Whether each part begins with its mark and zeros; no early exit, so that the compiler can take
/// several at once.
fn parts_marked(parts: &[[u8; PART_SIZE]]) -> bool {
    const BEGINNING: [u8; part::START] = [PART_MARK[0], PART_MARK[1], 0, 0];
    parts
        .iter()
        .fold(true, |marked, part| marked & part.starts_with(&BEGINNING))
}

impl<'a> WholeReport<'a> {
    /// A head without parts and text, so that questions can be asked of it alone.
    pub fn of_head(head: &'a [u8; HEAD_SIZE]) -> WholeReport<'a> {
        WholeReport {
            bytes: head,
            head,
            parts: &[],
            text: &[],
        }
    }

    /// A field of one byte as it stands.
    pub fn byte(&self, at: usize) -> u8 {
        self.head[at]
    }

    /// All of it.
    pub fn bytes(&self) -> &'a [u8] {
        self.bytes
    }

    /// The unit's number as it stands.
    pub fn unit(&self) -> u16 {
        u16_at(self.head, head::UNIT)
    }

    /// The owner's number as it stands.
    pub fn owner(&self) -> u16 {
        u16_at(self.head, head::OWNER)
    }

    /// The stamp as it stands.
    pub fn stamp(&self) -> u32 {
        u32_at(self.head, head::STAMP)
    }

    /// The text.
    pub fn text(&self) -> &'a [u8] {
        self.text
    }

    /// The parts as they stand.
    pub fn parts(&self) -> impl Iterator<Item = StatedPart> + 'a {
        self.parts.iter().map(|bytes| StatedPart {
            start: u32_at(bytes, part::START),
            end: u32_at(bytes, part::END),
            power: i32_at(bytes, part::POWER),
        })
    }

    fn time(&self, at: usize) -> Option<Minute> {
        Minute::from_count(u32_at(self.head, at))
    }

    fn mrid(&self) -> [u8; MRID_SIZE] {
        let mut mrid = [0; MRID_SIZE];
        mrid.copy_from_slice(&self.head[head::MRID..head::MRID + MRID_SIZE]);
        mrid
    }

    /// What the questions ask of the parts of a record with this stamp and period.
    pub fn part_findings(&self, stamp: Minute, period: Period) -> PartFindings {
        let (mut latest, mut highest_power) = (0, 0);
        let (mut on_quarter_hours, mut cover) = (true, Cover::of(period));
        for part in self.parts() {
            let (start, end) = (Minute(part.start), Minute(part.end));
            latest = part.start.max(part.end).max(latest);
            on_quarter_hours &= (end <= stamp) | end.on_quarter_hour();
            cover.add(Period { start, end });
            highest_power = part.power.cast_unsigned().max(highest_power);
        }
        PartFindings {
            latest,
            on_quarter_hours,
            cover: cover.verdict(),
            highest_power,
        }
    }

    /// The record that the fields give, if each is in its own range.
    pub fn record(&self) -> Option<Record<'a>> {
        let record_type = RecordType::from_code(self.byte(head::TYPE))?;
        Some(Record {
            record_type,
            direction: Direction::from_code(self.byte(head::DIRECTION))?,
            qualification: Some(self.byte(head::QUALIFICATION))
                .filter(|&code| record_type.allows_qualification(code))?,
            start_mark: Mark::from_code(self.byte(head::START_MARK))?,
            revision: Some(u16_at(self.head, head::REVISION))
                .filter(|revision| REVISIONS.contains(revision))?,
            mrid: self.mrid(),
            stamp: self.time(head::STAMP)?,
            period: Period {
                start: self.time(head::START)?,
                end: self.time(head::END)?,
            },
            parts: Parts::InReport(self.parts),
        })
    }
}
