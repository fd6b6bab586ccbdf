//! The warnings, "added up, judge only the reported record, 1 to 4 against the block afterwards".

use crate::after::Outcome;
use crate::codes::{RecordType, UnitKind};
use crate::minutes::{at_every_change_point, in_every_minute, InMinute};
use crate::record::Record;
use crate::register::Block;

/// "a derating or forced work overlaps a stop with meeting direction, whichever is reported".
pub const OUTAGE_OVERLAP: u8 = 1;
/// "forced level above Pmax (Z1: Pmax − Pmin) in a minute without positive derating".
pub const LEVEL_ABOVE: u8 = 2;
/// "W1 and M1, below Pmin without negative".
pub const LEVEL_BELOW: u8 = 4;
/// "a reported stop made another live begun stop or off-grid record leave".
pub const MADE_LEAVE: u8 = 8;

/// The warnings of an accepted report; "events and withdrawals carry 0", and of an early end "the
/// answer carries warnings 0".
pub fn warnings(outcome: &Outcome, after: &Block) -> u8 {
    let record = &outcome.report.record;
    let carries_none = outcome.report.empties_slot() || record.record_type == RecordType::Event;
    if carries_none {
        return 0;
    }
    let (above, below) = level_warnings(record, after);
    [
        (OUTAGE_OVERLAP, overlaps_outage(record, after)),
        (LEVEL_ABOVE, above),
        (LEVEL_BELOW, below),
        (MADE_LEAVE, made_leave(outcome)),
    ]
    .into_iter()
    .map(|(warning, carried)| if carried { warning } else { 0 })
    .sum()
}

/// Warning 1.
fn overlaps_outage(record: &Record, after: &Block) -> bool {
    after.slots.iter().flatten().any(|other| {
        let outage_and_powers = match record.record_type {
            RecordType::Outage => other.record_type.has_parts(),
            record_type => record_type.has_parts() && other.record_type == RecordType::Outage,
        };
        outage_and_powers
            && record.direction.meets(other.direction)
            && record.period.overlaps(other.period)
    })
}

/// Warning 8.
fn made_leave(outcome: &Outcome) -> bool {
    outcome.report.record.record_type == RecordType::Outage && outcome.leaving.contains(&true)
}

/// Warnings 2 and 4 of a reported record; only forced work has levels.
pub fn level_warnings(record: &Record, after: &Block) -> (bool, bool) {
    let (mut above, mut below) = (false, false);
    if record.record_type == RecordType::MustRun {
        let records = powers_of_direction(record, after);
        at_every_change_point(records, record.period, |minute| {
            above |= !not_above(after, record, minute);
            below |= !not_below(after, record, minute);
            true
        });
    }
    (above, below)
}

/// Warnings 2 and 4 minute by minute, for tests.
pub fn level_warnings_each_minute(record: &Record, after: &Block) -> (bool, bool) {
    if record.record_type != RecordType::MustRun {
        return (false, false);
    }
    let breaks = |rule: Rule| {
        let records = powers_of_direction(record, after);
        !in_every_minute(records, record.period, |minute| rule(after, record, minute))
    };
    (breaks(not_above), breaks(not_below))
}

type Rule = fn(&Block, &Record, &InMinute) -> bool;

fn powers_of_direction<'b>(
    record: &Record,
    after: &'b Block<'b>,
) -> impl Iterator<Item = &'b Record<'b>> {
    let direction = record.direction;
    let records = after.slots.iter().flatten();
    records.filter(move |other| other.record_type.has_parts() && other.direction == direction)
}

/// No level above the limit in this minute, or a positive derating.
fn not_above(after: &Block, record: &Record, minute: &InMinute) -> bool {
    let range = after.unit.powers.of(record.direction);
    let limit = match after.unit.kind {
        UnitKind::Z1 => range.span(),
        UnitKind::W1 | UnitKind::M1 | UnitKind::A => range.p_max,
    };
    minute.positive.is_some() || minute.level.is_none_or(|level| level <= limit)
}

/// No level below Pmin in this minute, or a negative derating.
fn not_below(after: &Block, record: &Record, minute: &InMinute) -> bool {
    let asked = matches!(after.unit.kind, UnitKind::W1 | UnitKind::M1);
    let p_min = after.unit.powers.of(record.direction).p_min;
    !asked || minute.negative.is_some() || minute.level.is_none_or(|level| level >= p_min)
}
