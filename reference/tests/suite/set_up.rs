//! Set-up: good and bad rosters, buffers, and the bytes written.

use reference::codes::UnitKind;
use reference::compose::EntryFields;
use reference::random::Random;
use reference::register::{question_1_register_whole, BLOCK_SIZE};
use reference::worked_examples::{roster_a, D};
use reference::{set_up, source};

fn entry() -> EntryFields {
    EntryFields::generating(7, UnitKind::W1, 5, D, 200_000, 80_000)
}

fn two_way(kind: UnitKind, powers: [u32; 4]) -> EntryFields {
    EntryFields {
        kind: kind as u8,
        state: 0,
        powers,
        ..entry()
    }
}

/// Set-up's number on a fitting buffer; a refusal writes nothing.
fn number(roster: &[u8]) -> u8 {
    let mut register = vec![0xAB; roster.len() / 28 * BLOCK_SIZE];
    let number = set_up(roster, &mut register);
    if number == 0 {
        assert!(question_1_register_whole(&register));
    } else {
        assert!(register.iter().all(|&byte| byte == 0xAB));
    }
    number
}

fn entry_with(change: impl Fn(&mut EntryFields)) -> u8 {
    let mut fields = entry();
    change(&mut fields);
    number(&fields.bytes())
}

#[test]
fn ranges() {
    assert_eq!(number(&entry().bytes()), 0);
    for (owner, expected) in [(0, 20), (1, 0), (999, 0), (1_000, 20), (u16::MAX, 20)] {
        assert_eq!(entry_with(|entry| entry.owner = owner), expected);
    }
    for (since, expected) in [(0, 0), (26_298_719, 0), (26_298_720, 20), (u32::MAX, 20)] {
        assert_eq!(entry_with(|entry| entry.since = since), expected);
    }
    for (kind, expected) in [(0, 20), (1, 0), (2, 20), (3, 20), (4, 20), (5, 20)] {
        assert_eq!(
            entry_with(|entry| entry.kind = kind),
            expected,
            "W1's state"
        );
    }
}

#[test]
fn states_and_qualifications() {
    for kind in 1..=4 {
        for state in 0..=7 {
            for qualification in 0..=9 {
                let fits = match (kind, state) {
                    (1, 1) => (1..=8).contains(&qualification),
                    (1, 6) => (1..=5).contains(&qualification),
                    (1, 2..=5) => qualification == 0,
                    (1, _) => false,
                    _ => state == 0 && qualification == 0,
                };
                let given = entry_with(|entry| {
                    (entry.kind, entry.state, entry.qualification) = (kind, state, qualification);
                });
                assert_eq!(given == 0, fits, "{kind} {state} {qualification}");
            }
        }
    }
}

#[test]
fn powers() {
    let most = 99_999_999;
    for (kind, powers, expected) in [
        (UnitKind::Z1, [most, most, 0, 0], 0),
        (UnitKind::Z1, [most + 1, 0, 0, 0], 20),
        (UnitKind::Z1, [5, 6, 0, 0], 20),
        (UnitKind::Z1, [5, 5, 1, 0], 20),
        (UnitKind::Z1, [5, 5, 1, 1], 20),
        (UnitKind::M1, [0, 0, most, most], 0),
        (UnitKind::M1, [0, 0, most + 1, 0], 20),
        (UnitKind::M1, [0, 0, 5, 6], 20),
        (UnitKind::A, [6, 5, 5, 5], 0),
        (UnitKind::A, [6, 5, u32::MAX, 5], 20),
        (UnitKind::A, [6, u32::MAX, 5, 5], 20),
    ] {
        let given = number(&two_way(kind, powers).bytes());
        assert_eq!(given, expected, "{kind:?} {powers:?}");
    }
    assert_eq!(entry_with(|entry| entry.powers[2] = 1), 20);
}

#[test]
fn layout_of_a_roster() {
    let good = entry().bytes();
    assert_eq!(number(&[]), 20);
    for at in [0, 1, 7] {
        let mut bytes = good;
        bytes[at] ^= 1;
        assert_eq!(number(&bytes), 20, "byte {at}");
    }
    assert_eq!(number(&good[..27]), 20);
    assert_eq!(number(&[&good[..], &[0]].concat()), 20);
    assert_eq!(number(&good.repeat(64)), 0);
    assert_eq!(number(&good.repeat(65)), 20);
    let mut last_bad = good.repeat(64);
    last_bad[63 * 28 + 2..][..2].fill(0);
    assert_eq!(number(&last_bad), 20);
}

#[test]
fn buffers() {
    let roster = roster_a();
    for length in [
        0,
        BLOCK_SIZE,
        2 * BLOCK_SIZE - 1,
        2 * BLOCK_SIZE + 1,
        3 * BLOCK_SIZE,
    ] {
        let mut register = vec![0xAB; length];
        assert_eq!(set_up(&roster, &mut register), 21);
        assert!(register.iter().all(|&byte| byte == 0xAB));
        assert_eq!(set_up(&roster[1..], &mut register), 20, "20 before 21");
    }
}

#[test]
fn bytes_written() {
    let mut register = vec![0xAB; 2 * BLOCK_SIZE];
    assert_eq!(set_up(&roster_a(), &mut register), 0);
    let mut expected = vec![0; 2 * BLOCK_SIZE];
    let since = D.to_le_bytes();
    for (at, bytes) in [
        (0, &[0x55, 0x4E, 1, 0, 7, 0, 1, 5, 0][..]),
        (12, &since),
        (16, &since),
        (20, &200_000_u32.to_le_bytes()),
        (24, &80_000_u32.to_le_bytes()),
        (BLOCK_SIZE, &[0x55, 0x4E, 2, 0, 9, 0, 3, 0, 0]),
        (BLOCK_SIZE + 12, &since),
        (BLOCK_SIZE + 16, &since),
        (BLOCK_SIZE + 20, &50_000_u32.to_le_bytes()),
    ] {
        expected[at..at + bytes.len()].copy_from_slice(bytes);
    }
    assert!(register == expected);
}

#[test]
fn random_rosters() {
    let mut random = Random::new(20);
    let (mut good, mut bad) = (0, 0);
    for _ in 0..2_000 {
        let roster = source::roster(&mut random, 8);
        assert_eq!(number(&roster), 0);
        match number(&source::damaged_roster(&mut random, &roster)) {
            0 => good += 1,
            20 => bad += 1,
            other => panic!("{other}"),
        }
    }
    assert!(good > 200 && bad > 200, "{good} {bad}");
}
