//! "Accepted (0)": the block afterwards.

use crate::codes::{Operation, RecordType};
use crate::questions::{lowest_free_slot, row_after, Case};
use crate::register::{put_last_stamp, put_row, slot_bytes, write_slot, Block, SLOT_COUNT};
use crate::report::Report;
use crate::unit::Row;

/// What an accepted report does to its unit's block.
pub struct Outcome<'r> {
    /// The report.
    pub report: Report<'r>,
    /// A state change's row.
    pub row: Option<Row>,
    /// Live slots that the report makes leave.
    pub leaving: [bool; SLOT_COUNT],
    /// Used slots that are not live at the report's stamp.
    pub dead: [bool; SLOT_COUNT],
    /// The slot created, changed, withdrawn or ended early; None for an event.
    pub slot: Option<usize>,
}

impl<'r> Outcome<'r> {
    /// The outcome of a case to which every question said yes.
    pub fn of(case: &Case<'_, 'r>) -> Outcome<'r> {
        let record = &case.report.record;
        let row = if case.changes_state() {
            row_after(case.unit.row, record)
        } else {
            None
        };
        let slot = match (case.report.operation, record.record_type) {
            (_, RecordType::Event) => None,
            (Operation::Create, _) => lowest_free_slot(case),
            (Operation::Update | Operation::Withdraw, _) => case.named_slot(),
        };
        Outcome {
            report: case.report,
            row,
            leaving: case.leaving(),
            dead: case.dead,
            slot,
        }
    }

    /// The block afterwards, read: the block before with what the report changes.
    pub fn block_after<'a>(&self, before: &Block<'a>) -> Block<'a>
    where
        'r: 'a,
    {
        let mut after = *before;
        after.last_stamp = self.report.record.stamp;
        after.unit.row = self.row.unwrap_or(before.unit.row);
        for slot in 0..SLOT_COUNT {
            if self.dead[slot] || self.leaving[slot] {
                after.slots[slot] = None;
            }
        }
        if let Some(slot) = self.slot {
            let stays = !self.report.empties_slot();
            after.slots[slot] = stays.then_some(self.report.record);
        }
        after
    }

    /// "last stamp becomes the stamp; dead and closed slots become zeros; a state change sets
    /// state, qualification and since, and every other live begun stop or off-grid record of the
    /// unit leaves; a withdrawn slot becomes zeros, a change rewrites its slot, a creation takes
    /// the lowest free one". Ended early, "the record leaves its slot".
    pub fn write(&self, block: &mut [u8]) {
        put_last_stamp(block, self.report.record.stamp);
        if let Some(row) = self.row {
            put_row(block, row);
        }
        for slot in 0..SLOT_COUNT {
            if self.dead[slot] || self.leaving[slot] {
                slot_bytes(block, slot).fill(0);
            }
        }
        if let Some(slot) = self.slot {
            let bytes = slot_bytes(block, slot);
            if self.report.empties_slot() {
                bytes.fill(0);
            } else {
                write_slot(bytes, &self.report.record);
            }
        }
    }
}
