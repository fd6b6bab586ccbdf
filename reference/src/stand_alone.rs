//! One unit alone: a block of its own (a page) to each unit.

use crate::processor::{answer_in_block, Answer};
use crate::register::{Block, BLOCK_SIZE};
use crate::report::question_2_report_whole;
use crate::roster::ENTRY_SIZE;
use crate::setup::set_up;

/// The pages, in order of unit.
pub struct StandAloneBlocks {
    blocks: Vec<Vec<u8>>,
}

impl StandAloneBlocks {
    /// "one block, starting as set-up writes it from number and entry"; None for a bad roster.
    pub fn set_up(roster: &[u8]) -> Option<StandAloneBlocks> {
        let mut register = vec![0; roster.len() / ENTRY_SIZE * BLOCK_SIZE];
        (set_up(roster, &mut register) == 0).then(|| StandAloneBlocks {
            blocks: register.chunks(BLOCK_SIZE).map(<[u8]>::to_vec).collect(),
        })
    }

    /// "Each own report is judged by questions 4 to 19 and the warnings on this page alone. A
    /// report that is no unit's own moves no page; its answer is 2 if it isn't whole, else 3."
    pub fn answer(&mut self, report: &[u8]) -> Answer {
        let Some(report) = question_2_report_whole(report) else {
            return Answer::refusal(2);
        };
        let own = self.blocks.iter_mut().find(|bytes| {
            Block::read(bytes).is_some_and(|block| {
                block.number == report.unit() && block.unit.owner == report.owner()
            })
        });
        match own {
            Some(block) => answer_in_block(block, report),
            None => Answer::refusal(3),
        }
    }

    /// The blocks one after another, as a register has them.
    pub fn bytes(&self) -> Vec<u8> {
        self.blocks.concat()
    }
}
