//! How often each answer, warning, way to break cover, kind of early end, of date and of form occurred.

use crate::date_kinds;
use desk_comparison::Answer;
use reference::cover_faults::{cover_fault, KINDS};
use reference::early_ends::{self, early_end_kinds};
use reference::form_faults;
use reference::report::question_2_report_whole;
use std::collections::BTreeMap;

const WARNINGS: [u32; 4] = [1, 2, 4, 8];

/// The counts.
#[derive(Default)]
pub struct Tally {
    answers: [u64; 20],
    sums: [u64; 16],
    cover_faults: [u64; KINDS.len()],
    early_ends: BTreeMap<&'static str, u64>,
    accepted_set_ups: u64,
    refused_rosters: u64,
    refused_buffers: u64,
    remarks: BTreeMap<&'static str, u64>,
    dates: BTreeMap<&'static str, u64>,
    forms: BTreeMap<&'static str, u64>,
}

impl Tally {
    /// Counts the answer to a report, by the register before it.
    pub fn count(&mut self, (number, warnings, _): Answer, before: &[u8], report: &[u8]) {
        self.answers[number as usize] += 1;
        for kind in early_end_kinds(before, report, (number, warnings)) {
            *self.early_ends.entry(kind).or_default() += 1;
        }
        match number {
            0 => self.sums[warnings as usize] += 1,
            8 => self.count_cover_fault(report),
            _ => {}
        }
    }

    /// What is wrong with the parts is read from the report, not from the answer.
    fn count_cover_fault(&mut self, report: &[u8]) {
        let fault = question_2_report_whole(report).and_then(|whole| cover_fault(&whole));
        let found = fault.and_then(|fault| fault.kind);
        for (kind, count) in KINDS.iter().zip(&mut self.cover_faults) {
            *count += u64::from(found == Some(*kind));
        }
    }

    /// Counts a set-up.
    pub fn count_set_up(&mut self, number: u32) {
        match number {
            0 => self.accepted_set_ups += 1,
            20 => self.refused_rosters += 1,
            _ => self.refused_buffers += 1,
        }
    }

    /// Counts the kinds of remark that a call was of.
    pub fn count_remark<const KINDS: usize>(&mut self, kinds: [(&'static str, bool); KINDS]) {
        for (kind, occurred) in kinds {
            *self.remarks.entry(kind).or_default() += u64::from(occurred);
        }
    }

    /// Counts so many dates of a kind.
    pub fn count_dates(&mut self, kind: &'static str, dates: u64) {
        *self.dates.entry(kind).or_default() += dates;
    }

    /// Counts the kinds of report, form and room that a call was of.
    pub fn count_forms<const KINDS: usize>(&mut self, kinds: [(&'static str, bool); KINDS]) {
        for (kind, occurred) in kinds {
            *self.forms.entry(kind).or_default() += u64::from(occurred);
        }
    }

    /// Kinds of reasons that never came are rows as well.
    fn form_rows(&self) -> impl Iterator<Item = (String, u64)> {
        let mut forms = self.forms.clone();
        for kind in form_faults::kinds() {
            forms.entry(kind).or_default();
        }
        forms
            .into_iter()
            .map(|(kind, count)| (kind.to_string(), count))
    }

    fn warning(&self, warning: u32) -> u64 {
        let sums = self.sums.iter().zip(0..);
        sums.filter(|(_, sum)| sum & warning != 0)
            .map(|(count, _)| count)
            .sum()
    }

    fn early_end(&self, kind: &str) -> u64 {
        self.early_ends.get(kind).copied().unwrap_or_default()
    }

    fn date(&self, kind: &str) -> u64 {
        self.dates.get(kind).copied().unwrap_or_default()
    }

    fn rows(&self) -> Vec<(String, u64)> {
        let answers = self.answers.iter().enumerate();
        let answers = answers.map(|(number, &count)| (format!("answer {number}"), count));
        let warnings =
            WARNINGS.map(|warning| (format!("warning {warning}"), self.warning(warning)));
        let cover_faults = KINDS.iter().zip(self.cover_faults);
        let cover_faults = cover_faults.map(|(kind, count)| (kind.to_string(), count));
        let early_ends = early_ends::KINDS.map(|kind| (kind.to_string(), self.early_end(kind)));
        let set_ups = [
            ("set-up 0", self.accepted_set_ups),
            ("set-up 20", self.refused_rosters),
            ("set-up 21", self.refused_buffers),
        ];
        let set_ups = set_ups.map(|(name, count)| (name.to_string(), count));
        let remarks = self.remarks.iter();
        let remarks = remarks.map(|(kind, &count)| (format!("remark: {kind}"), count));
        let dates = date_kinds::kinds().map(|kind| (format!("date: {kind}"), self.date(kind)));
        let rows = answers.chain(warnings).chain(cover_faults);
        rows.chain(early_ends)
            .chain(set_ups)
            .chain(remarks)
            .chain(dates)
            .chain(self.form_rows())
            .collect()
    }

    /// Prints the table.
    pub fn print(&self) {
        for (name, count) in self.rows() {
            println!("  {name:<44} {count:8}");
        }
        for (sum, count) in self.sums.iter().enumerate() {
            if *count > 0 {
                println!("  {:<44} {count:8}", format!("sum {sum}"));
            }
        }
        println!("  {:<44} {:8}", "answers", self.answers.iter().sum::<u64>());
    }

    /// What occurred and can't.
    pub fn impossible(&self) -> Vec<&'static str> {
        let never = early_ends::NEVER.into_iter();
        never.filter(|kind| self.early_end(kind) > 0).collect()
    }

    /// What never occurred.
    pub fn missing(&self) -> Vec<String> {
        let missing = self.rows().into_iter().filter(|&(_, count)| count == 0);
        missing.map(|(name, _)| name).collect()
    }
}
