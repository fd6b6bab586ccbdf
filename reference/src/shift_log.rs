//! The shift log, alone and with the remarks.

use crate::calendar::date;
use crate::processor::{answer, Answer};
use crate::register::BLOCK_SIZE;
use crate::remark::{printed, remark, STANDING};
use crate::report::{question_2_report_whole, stated_length, WholeReport};
use crate::roster::{ENTRY_MARK, ENTRY_SIZE};
use crate::setup::{set_up, ROSTER_REFUSED};
use std::io::Write;

/// The most roster entries that the log program reads.
pub const LOG_ENTRIES: usize = 8;

const HEADER: &str = "no unit answer warn part stamp";

/// What a line ends with.
#[derive(Clone, Copy)]
enum Ending {
    /// The stamp.
    Stamp,
    /// The stamp, a bar and the remark.
    Remark,
}

/// The input and the place reached in it.
struct Reader<'a> {
    input: &'a [u8],
}

impl<'a> Reader<'a> {
    /// The next bytes, if there are as many.
    fn take(&mut self, length: usize) -> Option<&'a [u8]> {
        let (taken, rest) = self.input.split_at_checked(length)?;
        self.input = rest;
        Some(taken)
    }

    /// "reads roster entries while the mark, both bytes, is 4A 47, at most 8"; None if one is cut
    /// short.
    fn roster(&mut self) -> Option<&'a [u8]> {
        let start = self.input;
        let mut entries = 0;
        while entries < LOG_ENTRIES && self.input.starts_with(&ENTRY_MARK) {
            self.take(ENTRY_SIZE)?;
            entries += 1;
        }
        Some(&start[..entries * ENTRY_SIZE])
    }

    /// The next report by its own k and t; None if the input is cut short.
    fn report(&mut self) -> Option<&'a [u8]> {
        self.take(stated_length(self.input)?)
    }
}

/// "Totals: clean, warned, refused."
#[derive(Default)]
struct Totals {
    clean: u64,
    warned: u64,
    refused: u64,
}

impl Totals {
    fn count(&mut self, answer: Answer) {
        match answer {
            Answer {
                number: 0,
                warnings: 0,
                ..
            } => self.clean += 1,
            Answer { number: 0, .. } => self.warned += 1,
            _ => self.refused += 1,
        }
    }
}

/// The reports of an input in order, up to one that is cut short.
pub fn reports(input: &[u8]) -> Vec<&[u8]> {
    let mut reader = Reader { input };
    match reader.roster() {
        Some(_) => std::iter::from_fn(|| reader.report()).collect(),
        None => Vec::new(),
    }
}

/// The log of an input: roster entries, then reports.
pub fn shift_log(input: &[u8]) -> Vec<u8> {
    log(input, Ending::Stamp)
}

/// The log with each report's remark at the end of its line.
pub fn remarks(input: &[u8]) -> Vec<u8> {
    log(input, Ending::Remark)
}

/// The log of reports on a register that is there, which they bring up to date.
pub fn register_log(register: &mut [u8], reports: &[u8]) -> Vec<u8> {
    let mut log = Vec::new();
    let mut reader = Reader { input: reports };
    put_reports(&mut log, &mut reader, register, Ending::Stamp);
    log
}

fn log(input: &[u8], ending: Ending) -> Vec<u8> {
    let mut reader = Reader { input };
    let mut log = Vec::new();
    let Some(roster) = reader.roster() else {
        put_roster_fault(&mut log, ROSTER_REFUSED);
        return log;
    };
    let mut register = vec![0; roster.len() / ENTRY_SIZE * BLOCK_SIZE];
    match set_up(roster, &mut register) {
        0 => put_reports(&mut log, &mut reader, &mut register, ending),
        fault => put_roster_fault(&mut log, fault),
    }
    log
}

/// "A roster fault prints only 'roster' and its number."
fn put_roster_fault(log: &mut Vec<u8>, number: u8) {
    put(log, format_args!("roster {number}\n"));
}

/// The header, a line to each report, the totals. "A report that fails question 2, or an input
/// cut short, gets a line with 2 and ends the run; the totals follow."
fn put_reports(log: &mut Vec<u8>, reader: &mut Reader, register: &mut [u8], ending: Ending) {
    put(log, format_args!("{HEADER}"));
    end_line(log, ending, "remark");
    let mut totals = Totals::default();
    let mut line = 0_u64;
    while !reader.input.is_empty() {
        line += 1;
        let Some(whole) = reader.report().and_then(question_2_report_whole) else {
            put(log, format_args!("{line} - 2 0 0 -"));
            end_line(log, ending, "");
            totals.count(Answer::refusal(2));
            break;
        };
        let answer = answer(register, whole.bytes());
        put_answer(log, line, &whole, answer);
        let (_, remark) = remark(whole.bytes(), STANDING);
        end_line(log, ending, &printed(remark));
        totals.count(answer);
    }
    let Totals {
        clean,
        warned,
        refused,
    } = totals;
    put(log, format_args!("total {clean} {warned} {refused}\n"));
}

/// A line up to its stamp.
fn put_answer(log: &mut Vec<u8>, line: u64, report: &WholeReport, answer: Answer) {
    let unit = report.unit();
    let Answer {
        number,
        warnings,
        part,
    } = answer;
    put(
        log,
        format_args!("{line} {unit} {number} {warnings} {part} "),
    );
    match date(report.stamp()) {
        Ok(text) => log.extend_from_slice(&text),
        Err(_) => log.push(b'-'),
    }
}

fn end_line(log: &mut Vec<u8>, ending: Ending, remark: &str) {
    match ending {
        Ending::Stamp => log.push(b'\n'),
        Ending::Remark => put(log, format_args!(" | {remark}\n")),
    }
}

fn put(log: &mut Vec<u8>, text: std::fmt::Arguments) {
    // Writing to a Vec does not fail.
    let _ = log.write_fmt(text);
}
