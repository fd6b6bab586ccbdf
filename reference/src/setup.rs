//! Set-up: questions 20 and 21.

use crate::register::{write_head, BLOCK_SIZE};
use crate::roster::question_20_roster_good;

/// The refusal of a roster.
pub const ROSTER_REFUSED: u8 = 20;
/// The refusal of a buffer.
pub const BUFFER_REFUSED: u8 = 21;

/// "Set-up writes row and powers from the roster, last stamp = since, slots free." 0, 20 or 21;
/// "either refusal writes nothing".
pub fn set_up(roster: &[u8], register: &mut [u8]) -> u8 {
    let Some(units) = question_20_roster_good(roster) else {
        return ROSTER_REFUSED;
    };
    if register.len() != units.len() * BLOCK_SIZE {
        return BUFFER_REFUSED;
    }
    register.fill(0);
    for ((block, unit), number) in register.chunks_mut(BLOCK_SIZE).zip(&units).zip(1..) {
        write_head(block, number, unit);
    }
    0
}
