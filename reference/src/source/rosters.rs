//! Random rosters.

use crate::codes::{UnitKind, UnitState};
use crate::compose::EntryFields;
use crate::fields::{put_u16, put_u32};
use crate::quantities::{LAST_MINUTE, MAX_POWER};
use crate::random::Random;
use crate::roster::{ENTRY_LAYOUT, ENTRY_SIZE, ENTRY_ZERO};
use crate::worked_examples::D;

/// A good roster of at most so many units.
pub fn roster(random: &mut Random, most_units: usize) -> Vec<u8> {
    let most = most_units.max(1) as u32;
    let few = most.min(3);
    let units = if random.percent(60) {
        random.between(1..=few)
    } else {
        random.between(1..=most)
    };
    let base = match random.below(10) {
        0 => 0,
        1 => LAST_MINUTE.0 - random.below(3_000),
        2 => random.below(LAST_MINUTE.0 - 100_000),
        _ => D,
    };
    (0..units)
        .flat_map(|_| entry(random, base).bytes())
        .collect()
}

/// A roster with one field changed a little; it may be good even so.
pub fn damaged_roster(random: &mut Random, good: &[u8]) -> Vec<u8> {
    let mut roster = good.to_vec();
    let entries = (roster.len() / ENTRY_SIZE) as u32;
    let entry = random.below(entries.max(1)) as usize * ENTRY_SIZE;
    let at = |field: usize| entry + field;
    match random.below(8) {
        0 => drop(roster.pop()),
        1 => roster.push(0),
        2 => roster.truncate(entry),
        3 => {
            let field = random.pick(&[0, 1, ENTRY_ZERO]);
            roster[at(field)] ^= 1;
        }
        4 => put_u16(
            &mut roster,
            at(ENTRY_LAYOUT.owner),
            random.pick(&[0, 1, 999, 1_000]),
        ),
        5 => {
            let since = random.pick(&[0, LAST_MINUTE.0, LAST_MINUTE.0 + 1]);
            put_u32(&mut roster, at(ENTRY_LAYOUT.since), since);
        }
        6 => {
            let field = ENTRY_LAYOUT.powers + 4 * random.below(4) as usize;
            let power = random.pick(&[0, 1, 80_000, MAX_POWER.0, MAX_POWER.0 + 1]);
            put_u32(&mut roster, at(field), power);
        }
        _ => {
            let field = random.between(4..=6) as usize;
            roster[at(field)] = random.below(10) as u8;
        }
    }
    roster
}

/// A good entry with since near a base.
pub fn entry(random: &mut Random, base: u32) -> EntryFields {
    let kind = random.pick(&[
        UnitKind::W1,
        UnitKind::W1,
        UnitKind::W1,
        UnitKind::M1,
        UnitKind::M1,
        UnitKind::Z1,
        UnitKind::Z1,
        UnitKind::A,
    ]);
    let random_owner = random.between(1..=999) as u16;
    let [p_max, p_min] = power_pair(random);
    let [other_p_max, other_p_min] = match kind {
        UnitKind::M1 | UnitKind::A => power_pair(random),
        UnitKind::W1 | UnitKind::Z1 => [0, 0],
    };
    let (state, qualification) = match kind {
        UnitKind::W1 => state(random),
        UnitKind::M1 | UnitKind::Z1 | UnitKind::A => (0, 0),
    };
    EntryFields {
        owner: random.pick(&[1, 7, 9, 999, random_owner]),
        kind: kind as u8,
        state,
        qualification,
        since: (base + random.below(40)).min(LAST_MINUTE.0),
        powers: [p_max, p_min, other_p_max, other_p_min],
    }
}

fn power_pair(random: &mut Random) -> [u32; 2] {
    let p_max = random.between(1_000..=300_000);
    let p_min = random.below(p_max + 1);
    random.pick(&[
        [200_000, 80_000],
        [50_000, 0],
        [p_max, p_min],
        [p_max, p_min],
        [p_max, p_max],
        [0, 0],
        [MAX_POWER.0, p_min],
        [MAX_POWER.0, MAX_POWER.0],
    ])
}

/// A state and a qualification that goes with it.
fn state(random: &mut Random) -> (u8, u8) {
    let state = random.pick(&[
        UnitState::InOperation,
        UnitState::InOperation,
        UnitState::InOperation,
        UnitState::ShutDown,
        UnitState::Firing,
        UnitState::StartUp,
        UnitState::Synchronised,
        UnitState::OffGrid,
    ]);
    let qualification = match state {
        UnitState::ShutDown => random.between(1..=8),
        UnitState::OffGrid => random.between(1..=5),
        _ => 0,
    };
    (state as u8, qualification as u8)
}
