//! "For each minute": literally, and by change points.

use crate::codes::RecordType;
use crate::quantities::{Kilowatt, Minute, Period};
use crate::record::{Parts, Record};
use crate::register::SLOT_COUNT;

/// What a minute holds; at most one record of each type, since none of a type overlap.
#[derive(Clone, Copy, Debug, Default, PartialEq, Eq)]
pub struct InMinute {
    /// The level of forced work.
    pub level: Option<Kilowatt>,
    /// The positive derating.
    pub positive: Option<Kilowatt>,
    /// The negative derating.
    pub negative: Option<Kilowatt>,
}

impl InMinute {
    fn put(&mut self, record_type: RecordType, power: Kilowatt) {
        match record_type {
            RecordType::MustRun => self.level = Some(power),
            RecordType::PositiveDerating => self.positive = Some(power),
            RecordType::NegativeDerating => self.negative = Some(power),
            RecordType::Outage | RecordType::OffGrid | RecordType::Event => {}
        }
    }
}

/// Whether a rule holds in each minute of a period, minute by minute: for tests.
pub fn in_every_minute<'r>(
    records: impl IntoIterator<Item = &'r Record<'r>>,
    period: Period,
    mut rule: impl FnMut(&InMinute) -> bool,
) -> bool {
    let records: Vec<&Record> = records.into_iter().collect();
    (period.start.0..period.end.0).all(|minute| {
        let mut held = InMinute::default();
        for record in &records {
            if let Some(power) = record.power_at(Minute(minute)) {
                held.put(record.record_type, power);
            }
        }
        rule(&held)
    })
}

/// The same, asked once from each change point to the next. Of a type no two records overlap, and
/// there are at most nine: a block's and the reported one.
pub fn at_every_change_point<'r>(
    records: impl IntoIterator<Item = &'r Record<'r>>,
    period: Period,
    mut rule: impl FnMut(&InMinute) -> bool,
) -> bool {
    let records = in_time_order(records, period);
    let mut level = Track::of(RecordType::MustRun, &records);
    let mut positive = Track::of(RecordType::PositiveDerating, &records);
    let mut negative = Track::of(RecordType::NegativeDerating, &records);
    let mut minute = period.start;
    while minute < period.end {
        let held = InMinute {
            level: level.power_at(minute),
            positive: positive.power_at(minute),
            negative: negative.power_at(minute),
        };
        if !rule(&held) {
            return false;
        }
        minute = level.until.min(positive.until).min(negative.until);
    }
    true
}

type InTimeOrder<'r> = [Option<&'r Record<'r>>; SLOT_COUNT + 1];

/// The records that share a minute with the period, by their starts.
fn in_time_order<'r>(
    records: impl IntoIterator<Item = &'r Record<'r>>,
    period: Period,
) -> InTimeOrder<'r> {
    let mut in_order = [None; SLOT_COUNT + 1];
    let sharing = records
        .into_iter()
        .filter(|record| record.period.overlaps(period));
    let mut count = 0;
    for record in sharing {
        in_order[count] = Some(record);
        count += 1;
    }
    in_order[..count].sort_unstable_by_key(|record| record.map(|record| record.period.start));
    in_order
}

/// The records of one type, which follow each other, walked through part by part.
struct Track<'o, 'r> {
    record_type: RecordType,
    /// Records to come.
    records: std::slice::Iter<'o, Option<&'r Record<'r>>>,
    /// Parts of the record reached.
    parts: Parts<'r>,
    /// Parts to come are those from this index on.
    index: usize,
    /// What is held up to `until`.
    power: Option<Kilowatt>,
    until: Minute,
}

impl<'o, 'r> Track<'o, 'r> {
    fn of(record_type: RecordType, records: &'o InTimeOrder<'r>) -> Track<'o, 'r> {
        Track {
            record_type,
            records: records.iter(),
            parts: Parts::NONE,
            index: 0,
            power: None,
            until: Minute(0),
        }
    }

    /// The power at a minute not before the last one asked for.
    fn power_at(&mut self, minute: Minute) -> Option<Kilowatt> {
        while self.until <= minute {
            (self.power, self.until) = self.next_stretch();
        }
        self.power
    }

    /// The next part, or the time up to the next record, or what comes after the last one.
    fn next_stretch(&mut self) -> (Option<Kilowatt>, Minute) {
        if let Some(part) = self.parts.get(self.index) {
            self.index += 1;
            return (Some(part.power), part.end);
        }
        let mut ahead = self.records.by_ref().flatten();
        match ahead.find(|record| record.record_type == self.record_type) {
            Some(record) => {
                (self.parts, self.index) = (record.parts, 0);
                (None, record.period.start)
            }
            None => (None, Minute(u32::MAX)),
        }
    }
}
