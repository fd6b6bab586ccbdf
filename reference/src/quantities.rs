//! Minutes and kilowatts: "nowhere may one be handed in where the other is meant".

/// A time: the minutes since 2000-01-01 00:00 UTC.
#[derive(Clone, Copy, Debug, PartialEq, Eq, PartialOrd, Ord)]
pub struct Minute(pub u32);

/// A power in whole kW.
#[derive(Clone, Copy, Debug, PartialEq, Eq, PartialOrd, Ord)]
pub struct Kilowatt(pub u32);

/// A period "from start up to, not including, end".
#[derive(Clone, Copy, Debug, PartialEq, Eq)]
pub struct Period {
    /// The first minute.
    pub start: Minute,
    /// The minute after the last one.
    pub end: Minute,
}

/// The end of 2049.
pub const LAST_MINUTE: Minute = Minute(26_298_719);

/// The greatest power (000 rule 17).
pub const MAX_POWER: Kilowatt = Kilowatt(99_999_999);

/// A settlement period (quarter hour) in minutes.
pub const QUARTER: u32 = 15;

impl Minute {
    /// The time that a count stands for, if it is one.
    pub fn from_count(count: u32) -> Option<Minute> {
        Some(Minute(count)).filter(|&minute| minute <= LAST_MINUTE)
    }

    /// "multiples of 15 (rule 18)".
    pub fn on_quarter_hour(self) -> bool {
        self.0.is_multiple_of(QUARTER)
    }
}

impl Kilowatt {
    /// The power that a count stands for, if it is one.
    pub fn from_count(count: u32) -> Option<Kilowatt> {
        Some(Kilowatt(count)).filter(|&power| power <= MAX_POWER)
    }

    /// Wide enough for sums of several powers.
    pub fn wide(self) -> u64 {
        u64::from(self.0)
    }
}

impl Period {
    /// Whether the two share a minute; neither is empty.
    pub fn overlaps(self, other: Period) -> bool {
        self.start < other.end && other.start < self.end
    }

    /// Whether a minute lies in the period.
    pub fn contains(self, minute: Minute) -> bool {
        self.start <= minute && minute < self.end
    }
}
