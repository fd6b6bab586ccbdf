//! What was tried, and what was found.

use crate::scenario::Complaint;
use std::collections::BTreeMap;

#[derive(Default)]
struct Row {
    tried: u64,
    lost: u64,
    torn: u64,
    other: u64,
}

/// The counts, by kind of fault.
#[derive(Default)]
pub struct Tally {
    rows: BTreeMap<String, Row>,
    complaints: u64,
}

/// So many complaints are printed in a stage; then it may end.
const ENOUGH: u64 = 3;

impl Tally {
    /// Counts a case; a complaint is printed.
    pub fn count(&mut self, kind: &str, case: &str, found: Result<(), Complaint>) {
        let row = self.rows.entry(kind.to_string()).or_default();
        row.tried += 1;
        let Err(complaint) = found else {
            return;
        };
        match complaint {
            Complaint::Lost(lines) => row.lost += lines as u64,
            Complaint::Torn => row.torn += 1,
            Complaint::Other(_) => row.other += 1,
        }
        self.complaints += 1;
        if self.complaints <= ENOUGH {
            println!("  {kind}: {case}: {complaint:?}");
        }
    }

    /// A new stage.
    pub fn start_stage(&mut self) {
        self.complaints = 0;
    }

    /// Complaints of this stage.
    pub fn complaints(&self) -> u64 {
        self.complaints
    }

    /// Whether the stage has found enough.
    pub fn enough(&self) -> bool {
        self.complaints >= ENOUGH
    }

    /// Cases tried in all.
    pub fn tried(&self) -> u64 {
        self.rows.values().map(|row| row.tried).sum()
    }

    /// Prints the table.
    pub fn print(&self) {
        println!(
            "  {:<44} {:>6} {:>10} {:>6} {:>6}",
            "", "tried", "lost lines", "torn", "other"
        );
        let mut all = Row::default();
        for (kind, row) in &self.rows {
            print_row(kind, row);
            all.tried += row.tried;
            all.lost += row.lost;
            all.torn += row.torn;
            all.other += row.other;
        }
        print_row("all", &all);
    }
}

fn print_row(kind: &str, row: &Row) {
    let Row {
        tried,
        lost,
        torn,
        other,
    } = row;
    println!("  {kind:<44} {tried:>6} {lost:>10} {torn:>6} {other:>6}");
}
