//! The answer to a report.

use crate::after::Outcome;
use crate::fields::u16_at;
use crate::questions::ask;
use crate::register::{question_1_register_whole, Block, BLOCK_SIZE, HEAD_LAYOUT};
use crate::report::{question_2_report_whole, WholeReport};
use crate::warnings::warnings;

/// The answer: 0 or the number of the question that said no, the warnings, and the part that was
/// wrong.
#[derive(Clone, Copy, Debug, PartialEq, Eq)]
pub struct Answer {
    /// 0 if accepted.
    pub number: u8,
    /// The sum; 0 beside a refusal.
    pub warnings: u8,
    /// Beside 8 the number of the part that breaks cover; 0 otherwise.
    pub part: u8,
}

impl Answer {
    /// "Refusals carry warnings 0."
    pub fn refusal(number: u8) -> Answer {
        Answer {
            number,
            warnings: 0,
            part: 0,
        }
    }

    /// "The answer to a report carries this number beside refusal 8 and 0 otherwise".
    pub fn refusal_of_part(part: u32) -> Answer {
        Answer {
            // At most 100.
            part: part as u8,
            ..Answer::refusal(8)
        }
    }

    /// Accepted with warnings.
    pub fn accepted(warnings: u8) -> Answer {
        Answer {
            number: 0,
            warnings,
            part: 0,
        }
    }
}

/// Answers a report and brings the register up to date; a refusal leaves every byte.
pub fn answer(register: &mut [u8], report: &[u8]) -> Answer {
    if !question_1_register_whole(register) {
        return Answer::refusal(1);
    }
    let Some(report) = question_2_report_whole(report) else {
        return Answer::refusal(2);
    };
    match question_3_own_block(register, &report) {
        Some(block) => answer_in_block(block, report),
        None => Answer::refusal(3),
    }
}

/// "Is the unit 1 to n and the owner the one in its block?" The block, if so.
fn question_3_own_block<'r>(register: &'r mut [u8], report: &WholeReport) -> Option<&'r mut [u8]> {
    let index = usize::from(report.unit()).checked_sub(1)?;
    let block = register.chunks_mut(BLOCK_SIZE).nth(index)?;
    let owner = u16_at(block, HEAD_LAYOUT.owner);
    (owner == report.owner()).then_some(block)
}

/// Questions 4 to 19, the block afterwards and the warnings, on one block that is whole.
pub(crate) fn answer_in_block(block: &mut [u8], report: WholeReport) -> Answer {
    let Some(before) = Block::decode(block) else {
        return Answer::refusal(1);
    };
    let outcome = match ask(&before, report) {
        Ok(case) => Outcome::of(&case),
        Err(refusal) => return refusal,
    };
    let warnings = warnings(&outcome, &outcome.block_after(&before));
    // The outcome borrows the report alone, so the block is free to be written.
    outcome.write(block);
    Answer::accepted(warnings)
}
