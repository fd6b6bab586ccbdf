//! The roster: 1 to 64 entries of 28 bytes, entry i for unit i.

use crate::register::MAX_UNITS;
use crate::unit::{Unit, UnitLayout};

/// Bytes of an entry.
pub const ENTRY_SIZE: usize = 28;

/// The mark of an entry.
pub const ENTRY_MARK: [u8; 2] = [0x4A, 0x47];

/// Offset of the zero byte.
pub const ENTRY_ZERO: usize = 7;

/// Where the unit's fields lie in an entry.
pub const ENTRY_LAYOUT: UnitLayout = UnitLayout {
    owner: 2,
    kind: 4,
    state: 5,
    qualification: 6,
    since: 8,
    powers: 12,
};

/// The unit of a good entry.
pub fn read_entry(entry: &[u8]) -> Option<Unit> {
    let laid_out =
        entry.len() == ENTRY_SIZE && entry.starts_with(&ENTRY_MARK) && entry[ENTRY_ZERO] == 0;
    if laid_out {
        Unit::read(entry, &ENTRY_LAYOUT)
    } else {
        None
    }
}

/// "Is the roster 1 to 64 good entries?" The units, if it is.
pub fn question_20_roster_good(roster: &[u8]) -> Option<Vec<Unit>> {
    let counted = roster.len().is_multiple_of(ENTRY_SIZE)
        && (1..=MAX_UNITS).contains(&(roster.len() / ENTRY_SIZE));
    if counted {
        roster.chunks(ENTRY_SIZE).map(read_entry).collect()
    } else {
        None
    }
}
