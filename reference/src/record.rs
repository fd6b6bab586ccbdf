//! A record: what a slot holds and what a report of types 1 to 5 carries.

use crate::codes::{Direction, Mark, RecordType};
use crate::fields::{put_u32, u32_at};
use crate::quantities::{Kilowatt, Minute, Period};
use crate::register::slot;
use crate::report::part;

/// Bytes of an identifier.
pub const MRID_SIZE: usize = 16;

/// The most parts that a record has.
pub const MAX_PARTS: usize = 100;

/// A part; it starts where the one before ends, the first at the record's start.
#[derive(Clone, Copy, Debug, PartialEq, Eq)]
pub struct Part {
    /// The part's end, a change point.
    pub end: Minute,
    /// Derating or level.
    pub power: Kilowatt,
}

/// The parts of a record where they lie.
#[derive(Clone, Copy, Debug)]
pub enum Parts<'a> {
    /// In a slot.
    InSlot(&'a [[u8; slot::PART_SIZE]]),
    /// In a report, where a power is an i32 that is not negative.
    InReport(&'a [[u8; part::SIZE]]),
}

/// A record of an unavailability; parts are those of questions 8 and 9.
#[derive(Clone, Copy, Debug)]
pub struct Record<'a> {
    /// Types 1 to 5 in a slot.
    pub record_type: RecordType,
    /// The direction.
    pub direction: Direction,
    /// The reason, or an event's code.
    pub qualification: u8,
    /// Planned, or executed (begun).
    pub start_mark: Mark,
    /// The ordinal.
    pub revision: u16,
    /// The identifier.
    pub mrid: [u8; MRID_SIZE],
    /// The stamp of the report that wrote it.
    pub stamp: Minute,
    /// Start and end.
    pub period: Period,
    /// None but for types 2 to 4.
    pub parts: Parts<'a>,
}

impl Part {
    /// The part of a slot's pair.
    pub fn of_pair(pair: &[u8; slot::PART_SIZE]) -> Part {
        Part {
            end: Minute(u32_at(pair, slot::PART_END)),
            power: Kilowatt(u32_at(pair, slot::PART_POWER)),
        }
    }

    /// The slot's pair of a part.
    pub fn pair(self) -> [u8; slot::PART_SIZE] {
        let mut pair = [0; slot::PART_SIZE];
        put_u32(&mut pair, slot::PART_END, self.end.0);
        put_u32(&mut pair, slot::PART_POWER, self.power.0);
        pair
    }

    fn in_report(bytes: &[u8; part::SIZE]) -> Part {
        Part {
            end: Minute(u32_at(bytes, part::END)),
            power: Kilowatt(u32_at(bytes, part::POWER)),
        }
    }
}

impl<'a> Parts<'a> {
    /// No parts.
    pub const NONE: Parts<'static> = Parts::InSlot(&[]);

    /// How many there are.
    pub fn len(&self) -> usize {
        match self {
            Parts::InSlot(pairs) => pairs.len(),
            Parts::InReport(parts) => parts.len(),
        }
    }

    /// Whether there are none.
    pub fn is_empty(&self) -> bool {
        self.len() == 0
    }

    /// The part at an index, from 0.
    pub fn get(&self, index: usize) -> Option<Part> {
        match self {
            Parts::InSlot(pairs) => pairs.get(index).map(Part::of_pair),
            Parts::InReport(parts) => parts.get(index).map(Part::in_report),
        }
    }

    /// The parts in order.
    pub fn iter(self) -> impl Iterator<Item = Part> + 'a {
        (0..self.len()).map_while(move |index| self.get(index))
    }
}

impl Record<'_> {
    /// "begun (mark 2)".
    pub fn begun(&self) -> bool {
        self.start_mark == Mark::Actual
    }

    /// Same type, meeting directions, a minute in common: what question 1 forbids of two slots
    /// and question 15 of a report and a slot.
    pub fn clashes(&self, other: &Record) -> bool {
        self.record_type == other.record_type
            && self.direction.meets(other.direction)
            && self.period.overlaps(other.period)
    }

    /// The power in one minute, looked up part by part.
    pub fn power_at(&self, minute: Minute) -> Option<Kilowatt> {
        if !self.period.contains(minute) {
            return None;
        }
        self.parts
            .iter()
            .find(|part| minute < part.end)
            .map(|part| part.power)
    }
}

/// "Cover is judged head first: the first part fits, and the remaining parts cover what remains."
/// "The judgement of cover now also says the number, from 1, of the first part that breaks it".
#[derive(Clone, Copy, Debug)]
pub struct Cover {
    whole: Period,
    remains_from: Minute,
    parts: u32,
    first_broken: u32,
}

/// More than the number of any part.
const NO_PART: u32 = u32::MAX;

impl Cover {
    /// Nothing is covered yet.
    pub fn of(whole: Period) -> Cover {
        Cover {
            whole,
            remains_from: whole.start,
            parts: 0,
            first_broken: NO_PART,
        }
    }

    /// The next part. There is no early exit, so that the compiler can take several at once.
    pub fn add(&mut self, part: Period) {
        self.parts += 1;
        let fits = (part.start == self.remains_from)
            & (part.start < part.end)
            & (part.end <= self.whole.end);
        self.first_broken = self
            .first_broken
            .min(if fits { NO_PART } else { self.parts });
        self.remains_from = part.end;
    }

    /// The verdict: Err has the number of the first part that breaks cover; "a list that stops
    /// short names the last part", 0 where there is none.
    pub fn verdict(self) -> Result<(), u32> {
        if self.first_broken != NO_PART {
            Err(self.first_broken)
        } else if self.remains_from == self.whole.end {
            Ok(())
        } else {
            Err(self.parts)
        }
    }
}

/// Whether parts cover a whole, and which one breaks it.
pub fn cover(whole: Period, parts: impl Iterator<Item = Period>) -> Result<(), u32> {
    let mut cover = Cover::of(whole);
    parts.for_each(|part| cover.add(part));
    cover.verdict()
}
