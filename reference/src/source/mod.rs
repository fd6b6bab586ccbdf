//! A seeded source of rosters, report streams and registers, good and damaged.
//!
//! It keeps a register of its own as its picture, so that its reports fit what is there and the
//! deep questions are reached.

mod drafts;
mod forms;
mod registers;
mod rosters;
mod spoilers;
mod uncovered;

use crate::codes::Operation;
use crate::compose::ReportFields;
use crate::processor::answer;
use crate::random::Random;
use crate::record::MRID_SIZE;
use crate::register::{Block, BLOCK_SIZE};
use crate::roster::ENTRY_SIZE;
use crate::setup::set_up;
use drafts::Draft;

pub use forms::{damaged_forms, regridded_forms, report_with_form, report_without_form};
pub use registers::{damaged_register, whole_register};
pub use rosters::{damaged_roster, roster};
pub use spoilers::broken_report;

/// In a hundred, the reports that one small change is meant to spoil.
const SPOILED: u32 = 25;

/// How fast the stamps of a stream rise.
#[derive(Clone, Copy, Debug, PartialEq, Eq)]
pub(crate) enum Pace {
    /// Blocks fill up.
    Slow,
    /// Records begin and end.
    Brisk,
}

/// A stream of reports on a register.
pub struct Source {
    random: Random,
    roster: Vec<u8>,
    register: Vec<u8>,
    used_mrids: Vec<[u8; MRID_SIZE]>,
    pace: Pace,
}

impl Source {
    /// The stream of a seed, on a fresh register of at most so many units (1 to 64).
    pub fn new(seed: u64, most_units: usize) -> Source {
        let mut random = Random::new(seed);
        let roster = roster(&mut random, most_units);
        let mut register = vec![0; roster.len() / ENTRY_SIZE * BLOCK_SIZE];
        set_up(&roster, &mut register);
        Source::with(random, roster, register)
    }

    /// The stream of a seed, on a register that is whole but that reports need not lead to.
    pub fn on_given_register(seed: u64, most_units: usize) -> Source {
        let mut random = Random::new(seed);
        let register = whole_register(&mut random, most_units);
        Source::with(random, Vec::new(), register)
    }

    fn with(mut random: Random, roster: Vec<u8>, register: Vec<u8>) -> Source {
        let pace = random.pick(&[Pace::Slow, Pace::Brisk, Pace::Brisk]);
        Source {
            random,
            roster,
            register,
            used_mrids: Vec::new(),
            pace,
        }
    }

    /// The roster; empty on a given register.
    pub fn roster(&self) -> &[u8] {
        &self.roster
    }

    /// The register before the next report.
    pub fn register(&self) -> &[u8] {
        &self.register
    }

    /// The next report, always whole.
    pub fn report(&mut self) -> Vec<u8> {
        let units = (self.register.len() / BLOCK_SIZE) as u32;
        let index = self.random.below(units) as usize;
        let block = self.register[index * BLOCK_SIZE..][..BLOCK_SIZE].to_vec();
        let Some(block) = Block::read(&block) else {
            return Vec::new();
        };
        let mut draft = Draft::new(&mut self.random, &block, &self.used_mrids, self.pace);
        let mut fields = draft.report();
        if self.random.percent(SPOILED) {
            spoilers::spoil(&mut self.random, &block, units, &mut fields);
        }
        self.keep_mrid(&fields);
        let bytes = fields.bytes();
        answer(&mut self.register, &bytes);
        bytes
    }

    /// The next report, now and then one that is not whole.
    pub fn whole_or_broken_report(&mut self) -> Vec<u8> {
        let report = self.report();
        if self.random.percent(2) {
            broken_report(&mut self.random, &report)
        } else {
            report
        }
    }

    fn keep_mrid(&mut self, fields: &ReportFields) {
        const KEPT: usize = 32;
        if fields.operation == Operation::Create as u8 && !self.used_mrids.contains(&fields.mrid) {
            if self.used_mrids.len() == KEPT {
                self.used_mrids.remove(0);
            }
            self.used_mrids.push(fields.mrid);
        }
    }
}
