//! The codes of one byte: kinds, states, types, operations, directions, marks, events.

use std::ops::RangeInclusive;

/// The kind of a unit.
#[derive(Clone, Copy, Debug, PartialEq, Eq)]
#[repr(u8)]
pub enum UnitKind {
    /// Generating unit.
    W1 = 1,
    /// Storage unit.
    M1 = 2,
    /// Wind or solar unit.
    Z1 = 3,
    /// Aggregated unit.
    A = 4,
}

/// The state of a W1 unit.
#[derive(Clone, Copy, Debug, PartialEq, Eq)]
#[repr(u8)]
pub enum UnitState {
    /// R, stop.
    ShutDown = 1,
    /// RO, boiler lit.
    Firing = 2,
    /// U1, start-up before synchronising.
    StartUp = 3,
    /// U2, start-up after synchronising.
    Synchronised = 4,
    /// P, work.
    InOperation = 5,
    /// RP, off-grid work.
    OffGrid = 6,
}

/// The type of a report and of the record in a slot.
#[derive(Clone, Copy, Debug, PartialEq, Eq)]
#[repr(u8)]
pub enum RecordType {
    /// Stop.
    Outage = 1,
    /// Lowers the maximum power.
    PositiveDerating = 2,
    /// Raises the minimum power.
    NegativeDerating = 3,
    /// Forced work.
    MustRun = 4,
    /// Off-grid work.
    OffGrid = 5,
    /// Event; in no slot.
    Event = 6,
}

/// What a report asks for.
#[derive(Clone, Copy, Debug, PartialEq, Eq)]
#[repr(u8)]
pub enum Operation {
    /// Create.
    Create = 1,
    /// Change.
    Update = 2,
    /// Withdraw.
    Withdraw = 3,
}

/// The direction of flow.
#[derive(Clone, Copy, Debug, PartialEq, Eq)]
#[repr(u8)]
pub enum Direction {
    /// Into the grid.
    Generation = 1,
    /// Out of the grid.
    Consumption = 2,
    /// Both.
    Both = 3,
}

/// The mark of a start or of an end: "1 planned, 2 executed".
#[derive(Clone, Copy, Debug, PartialEq, Eq)]
#[repr(u8)]
pub enum Mark {
    /// Planned.
    Planned = 1,
    /// Executed: a start that has begun, an end that came early.
    Actual = 2,
}

/// The code of an event, its qualification.
#[derive(Clone, Copy, Debug, PartialEq, Eq)]
#[repr(u8)]
pub enum EventCode {
    /// Boiler firing starts.
    Firing = 1,
    /// Start-up begins.
    StartUp = 2,
    /// Synchronisation.
    Synchronise = 3,
    /// Start-up ends.
    StartUpEnd = 4,
    /// Shutdown.
    ShutDown = 5,
    /// Start-up is aborted.
    Abort = 6,
}

/// RA to OS, the qualifications of a reported stop.
pub const OUTAGE_QUALIFICATIONS: RangeInclusive<u8> = 1..=7;

/// RE, "stands only in a unit's row".
pub const RESERVE_SHUTDOWN: u8 = 8;

/// PZM to BLT, the qualifications of off-grid work.
pub const OFF_GRID_QUALIFICATIONS: RangeInclusive<u8> = 1..=5;

impl UnitKind {
    /// The kind with this code.
    pub fn from_code(code: u8) -> Option<Self> {
        match code {
            1 => Some(Self::W1),
            2 => Some(Self::M1),
            3 => Some(Self::Z1),
            4 => Some(Self::A),
            _ => None,
        }
    }
}

impl UnitState {
    /// The state with this code.
    pub fn from_code(code: u8) -> Option<Self> {
        match code {
            1 => Some(Self::ShutDown),
            2 => Some(Self::Firing),
            3 => Some(Self::StartUp),
            4 => Some(Self::Synchronised),
            5 => Some(Self::InOperation),
            6 => Some(Self::OffGrid),
            _ => None,
        }
    }
}

impl RecordType {
    /// The type with this code.
    pub fn from_code(code: u8) -> Option<Self> {
        match code {
            1 => Some(Self::Outage),
            2 => Some(Self::PositiveDerating),
            3 => Some(Self::NegativeDerating),
            4 => Some(Self::MustRun),
            5 => Some(Self::OffGrid),
            6 => Some(Self::Event),
            _ => None,
        }
    }

    /// Types 2 to 4, the ones that have parts.
    pub fn has_parts(self) -> bool {
        matches!(
            self,
            Self::PositiveDerating | Self::NegativeDerating | Self::MustRun
        )
    }

    /// The qualification as question 4 asks for it: by type, 0 for types 2 to 4.
    pub fn allows_qualification(self, code: u8) -> bool {
        match self {
            Self::Outage => OUTAGE_QUALIFICATIONS.contains(&code),
            Self::OffGrid => OFF_GRID_QUALIFICATIONS.contains(&code),
            Self::Event => EventCode::from_code(code).is_some(),
            Self::PositiveDerating | Self::NegativeDerating | Self::MustRun => code == 0,
        }
    }
}

impl Operation {
    /// The operation with this code.
    pub fn from_code(code: u8) -> Option<Self> {
        match code {
            1 => Some(Self::Create),
            2 => Some(Self::Update),
            3 => Some(Self::Withdraw),
            _ => None,
        }
    }
}

impl Direction {
    /// The direction with this code.
    pub fn from_code(code: u8) -> Option<Self> {
        match code {
            1 => Some(Self::Generation),
            2 => Some(Self::Consumption),
            3 => Some(Self::Both),
            _ => None,
        }
    }

    /// "Two directions meet if equal or if one is 3."
    pub fn meets(self, other: Direction) -> bool {
        self == other || self == Self::Both || other == Self::Both
    }
}

impl Mark {
    /// The mark with this code.
    pub fn from_code(code: u8) -> Option<Self> {
        match code {
            1 => Some(Self::Planned),
            2 => Some(Self::Actual),
            _ => None,
        }
    }
}

impl EventCode {
    /// The event with this code.
    pub fn from_code(code: u8) -> Option<Self> {
        match code {
            1 => Some(Self::Firing),
            2 => Some(Self::StartUp),
            3 => Some(Self::Synchronise),
            4 => Some(Self::StartUpEnd),
            5 => Some(Self::ShutDown),
            6 => Some(Self::Abort),
            _ => None,
        }
    }
}
