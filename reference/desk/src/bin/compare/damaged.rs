//! Registers, reports, rosters and buffers with damage.

use reference::random::Random;
use reference::register::BLOCK_SIZE;
use reference::report::head;
use reference::roster::ENTRY_SIZE;
use reference::source::{broken_report, damaged_register, damaged_roster};

/// A register changed in a few places, or of another length.
pub fn register(random: &mut Random, whole: &[u8]) -> Vec<u8> {
    let mut register = whole.to_vec();
    match random.below(12) {
        0 => resize(random, &mut register, BLOCK_SIZE),
        1 => add_blocks(random, &mut register),
        2 => flip(random, &mut register),
        _ => {
            for _ in 0..random.between(1..=3) {
                if register.len() >= BLOCK_SIZE {
                    register = damaged_register(random, &register);
                }
            }
        }
    }
    register
}

/// The blocks again and again, up to a little over 64.
fn add_blocks(random: &mut Random, register: &mut Vec<u8>) {
    let blocks = random.pick(&[2, 3, 64, 65, 66]);
    *register = register.repeat(blocks);
    register.truncate(blocks * BLOCK_SIZE);
}

/// A report changed in a few places, cut short, extended or emptied.
pub fn report(random: &mut Random, whole: &[u8]) -> Vec<u8> {
    let mut report = whole.to_vec();
    match random.below(8) {
        0 => report.clear(),
        1 => resize(random, &mut report, 300),
        2 => count(random, &mut report),
        3 | 4 => return broken_report(random, whole),
        5 => random.fill(&mut report),
        _ => flip(random, &mut report),
    }
    report
}

/// Another count of parts or of text.
fn count(random: &mut Random, report: &mut [u8]) {
    let at = random.pick(&[head::PART_COUNT, head::TEXT_LENGTH]);
    let count: u16 = random.pick(&[0, 1, 2, 100, 101, 200, 201, 256, u16::MAX]);
    if report.len() >= at + 2 {
        report[at..at + 2].copy_from_slice(&count.to_le_bytes());
    }
}

/// A roster changed in a few places, cut short, extended or emptied.
pub fn roster(random: &mut Random, good: &[u8]) -> Vec<u8> {
    let mut roster = good.to_vec();
    match random.below(8) {
        0 => resize(random, &mut roster, 60),
        1 => flip(random, &mut roster),
        2 => {}
        _ => {
            for _ in 0..random.between(1..=2) {
                if roster.len() >= ENTRY_SIZE {
                    roster = damaged_roster(random, &roster);
                }
            }
        }
    }
    roster
}

/// A buffer for so many units, now and then of another length.
pub fn buffer(random: &mut Random, units: usize) -> Vec<u8> {
    let right = units * BLOCK_SIZE;
    let other = random.pick(&[
        0,
        1,
        right.saturating_sub(1),
        right + 1,
        right.saturating_sub(BLOCK_SIZE),
        right + BLOCK_SIZE,
    ]);
    let length = if random.percent(70) { right } else { other };
    vec![random.bits() as u8; length]
}

/// One to four bits the other way.
fn flip(random: &mut Random, bytes: &mut [u8]) {
    for _ in 0..random.between(1..=4) {
        if !bytes.is_empty() {
            let at = random.below(bytes.len() as u32) as usize;
            bytes[at] ^= 1 << random.below(8);
        }
    }
}

/// Another length, up to so much longer; what is added is 0 or random.
fn resize(random: &mut Random, bytes: &mut Vec<u8>, longer: usize) {
    let before = bytes.len();
    let length = random.below((before + longer + 1) as u32) as usize;
    bytes.resize(length, 0);
    if length > before && random.percent(50) {
        random.fill(&mut bytes[before..]);
    }
}
