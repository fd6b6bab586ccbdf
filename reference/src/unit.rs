//! The data of a unit, the same in a roster entry and in a block's head.

use crate::codes::{
    Direction, UnitKind, UnitState, OFF_GRID_QUALIFICATIONS, OUTAGE_QUALIFICATIONS,
    RESERVE_SHUTDOWN,
};
use crate::fields::{put_u16, put_u32, u16_at, u32_at};
use crate::quantities::{Kilowatt, Minute};
use std::ops::RangeInclusive;

/// The numbers an owner may have.
pub const OWNERS: RangeInclusive<u16> = 1..=999;

/// Pmax and Pmin of one direction.
#[derive(Clone, Copy, Debug, PartialEq, Eq)]
pub struct PowerRange {
    /// Pmax.
    pub p_max: Kilowatt,
    /// Pmin.
    pub p_min: Kilowatt,
}

/// The four powers of a unit.
#[derive(Clone, Copy, Debug, PartialEq, Eq)]
pub struct Powers {
    /// For generation.
    pub generation: PowerRange,
    /// For consumption.
    pub consumption: PowerRange,
}

/// The unit's row.
#[derive(Clone, Copy, Debug, PartialEq, Eq)]
pub struct Row {
    /// Of a W1 unit; other kinds have none and hold 0.
    pub state: Option<UnitState>,
    /// The reason for the state.
    pub qualification: u8,
    /// When the state began.
    pub since: Minute,
}

/// A unit as the roster gives it.
#[derive(Clone, Copy, Debug, PartialEq, Eq)]
pub struct Unit {
    /// The owner's number.
    pub owner: u16,
    /// The kind.
    pub kind: UnitKind,
    /// State, qualification, since.
    pub row: Row,
    /// Pmax and Pmin.
    pub powers: Powers,
}

/// Where the unit's fields lie; the four powers follow each other.
pub struct UnitLayout {
    /// u16.
    pub owner: usize,
    /// u8.
    pub kind: usize,
    /// u8.
    pub state: usize,
    /// u8.
    pub qualification: usize,
    /// u32.
    pub since: usize,
    /// Four times u32: Pmax and Pmin for generation, then for consumption.
    pub powers: usize,
}

impl PowerRange {
    /// Two powers with "Pmin ≤ Pmax".
    fn read(bytes: &[u8], at: usize) -> Option<PowerRange> {
        let p_max = Kilowatt::from_count(u32_at(bytes, at))?;
        let p_min = Kilowatt::from_count(u32_at(bytes, at + 4))?;
        (p_min <= p_max).then_some(PowerRange { p_max, p_min })
    }

    fn is_zero(self) -> bool {
        self.p_max == Kilowatt(0) && self.p_min == Kilowatt(0)
    }

    /// Pmax − Pmin.
    pub fn span(self) -> Kilowatt {
        Kilowatt(self.p_max.0.saturating_sub(self.p_min.0))
    }
}

impl Powers {
    /// The pair of a direction; only stops have both, and no power is asked of them.
    pub fn of(self, direction: Direction) -> PowerRange {
        match direction {
            Direction::Generation | Direction::Both => self.generation,
            Direction::Consumption => self.consumption,
        }
    }
}

impl Row {
    /// "A unit in R has qualification 1–8, one in RP 1–5, all others 0."
    fn qualification_fits(state: Option<UnitState>, qualification: u8) -> bool {
        match state {
            Some(UnitState::ShutDown) => {
                OUTAGE_QUALIFICATIONS.contains(&qualification) || qualification == RESERVE_SHUTDOWN
            }
            Some(UnitState::OffGrid) => OFF_GRID_QUALIFICATIONS.contains(&qualification),
            _ => qualification == 0,
        }
    }

    /// Writes state, qualification and since.
    pub fn write(self, bytes: &mut [u8], layout: &UnitLayout) {
        bytes[layout.state] = self.state.map_or(0, |state| state as u8);
        bytes[layout.qualification] = self.qualification;
        put_u32(bytes, layout.since, self.since.0);
    }
}

impl Unit {
    /// The unit whose fields lie there, if they are in the roster's ranges. Inlined, the offsets
    /// are constants.
    #[inline]
    pub fn read(bytes: &[u8], layout: &UnitLayout) -> Option<Unit> {
        let owner = Some(u16_at(bytes, layout.owner)).filter(|owner| OWNERS.contains(owner))?;
        let kind = UnitKind::from_code(bytes[layout.kind])?;
        let state = match (kind, bytes[layout.state]) {
            (UnitKind::W1, code) => Some(UnitState::from_code(code)?),
            (_, 0) => None,
            _ => return None,
        };
        let qualification = Some(bytes[layout.qualification])
            .filter(|&qualification| Row::qualification_fits(state, qualification))?;
        let since = Minute::from_count(u32_at(bytes, layout.since))?;
        let generation = PowerRange::read(bytes, layout.powers)?;
        let consumption = PowerRange::read(bytes, layout.powers + 8)?;
        let two_way = matches!(kind, UnitKind::M1 | UnitKind::A);
        (two_way || consumption.is_zero()).then_some(Unit {
            owner,
            kind,
            row: Row {
                state,
                qualification,
                since,
            },
            powers: Powers {
                generation,
                consumption,
            },
        })
    }

    /// Writes the unit's fields.
    pub fn write(&self, bytes: &mut [u8], layout: &UnitLayout) {
        put_u16(bytes, layout.owner, self.owner);
        bytes[layout.kind] = self.kind as u8;
        self.row.write(bytes, layout);
        let Powers {
            generation,
            consumption,
        } = self.powers;
        put_u32(bytes, layout.powers, generation.p_max.0);
        put_u32(bytes, layout.powers + 4, generation.p_min.0);
        put_u32(bytes, layout.powers + 8, consumption.p_max.0);
        put_u32(bytes, layout.powers + 12, consumption.p_min.0);
    }
}
