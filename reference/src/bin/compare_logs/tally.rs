//! How often each kind of ending, each answer, each place of a named part, each answer to an early
//! end and each kind of remark occurred.

use crate::ending::{ending, whole_reports, ENDINGS};
use reference::remark::STANDING;
use reference::report::{head, MAX_TEXT};
use std::collections::BTreeMap;

/// The counts.
#[derive(Default)]
pub struct Tally {
    endings: BTreeMap<&'static str, u64>,
    answers: BTreeMap<String, u64>,
    remarks: BTreeMap<&'static str, u64>,
}

/// What the log can answer: question 1 is always answered "yes" there.
fn answers() -> impl Iterator<Item = String> {
    let numbers = (0..=19).filter(|&number| number != 1);
    let numbers = numbers.map(|number| format!("answer {number}"));
    let warnings = [1, 2, 4, 8].map(|warning| format!("warning {warning}"));
    let early_ends = EARLY_ENDS.map(|number| early_end(&number.to_string()));
    numbers
        .chain(warnings)
        .chain(PARTS.map(str::to_string))
        .chain(early_ends)
        .chain([LATE_STAMP.to_string(), CLEAN_LOG.to_string()])
}

/// The parts that a line with answer 8 names.
const PARTS: [&str; 4] = [
    "answer 8, part 0",
    "answer 8, part 1",
    "answer 8, part 2 to 99",
    "answer 8, part 100",
];

fn named_part(part: &str) -> &'static str {
    match part {
        "0" => PARTS[0],
        "1" => PARTS[1],
        "100" => PARTS[3],
        _ => PARTS[2],
    }
}

/// What a report with end mark 2 can be answered, being whole and its owner's.
const EARLY_ENDS: [u32; 10] = [0, 4, 5, 6, 8, 9, 10, 12, 13, 14];

fn early_end(number: &str) -> String {
    format!("end mark 2, answer {number}")
}

const LATE_STAMP: &str = "stamp out of range";
const CLEAN_LOG: &str = "log without refusal";

/// The kinds of remark, and of which a line's is.
fn remark_kinds(line: &str, remark: &str) -> [(&'static str, bool); 8] {
    let refused = line.ends_with(" - 2 0 0 -");
    let standing = remark.as_bytes() == STANDING;
    let length = text_length(remark);
    [
        ("none beside 2", refused && remark.is_empty()),
        ("the standing one", standing),
        (
            "as it is",
            !standing && length == remark.len() && length > 1,
        ),
        ("with a backslash", remark.contains(r"\\")),
        ("with a line feed", remark.contains(r"\x0a")),
        ("with a byte above 7F", remark.contains(r"\xff")),
        ("of 1 byte", length == 1),
        ("of 200 bytes", length == MAX_TEXT),
    ]
}

/// Bytes of a text that is printed so: a backslash begins two characters, or four with an x.
fn text_length(printed: &str) -> usize {
    let mut characters = printed.chars();
    let mut length = 0;
    while let Some(character) = characters.next() {
        length += 1;
        if character == '\\' && characters.next() == Some('x') {
            characters.nth(1);
        }
    }
    length
}

impl Tally {
    /// Counts a stream and its log; the number of the log's lines.
    pub fn count(&mut self, input: &[u8], log: &[u8]) -> u64 {
        let log = String::from_utf8_lossy(log);
        let kind = ending(input);
        let refused_roster = log.starts_with("roster");
        let ended_early = log.contains(" - 2 0 0 -\n");
        let told = match kind.split_once(':') {
            Some(("roster 20", _)) => refused_roster,
            Some(("2", _)) => ended_early,
            _ => !refused_roster && !ended_early,
        };
        assert!(told, "{kind:?} is not the ending of\n{log}");
        *self.endings.entry(kind).or_default() += 1;
        log.lines().for_each(|line| self.count_line(line));
        if !refused_roster {
            self.count_early_ends(input, &log);
        }
        log.lines().count() as u64
    }

    /// The lines after the header are those of the reports in order.
    fn count_early_ends(&mut self, input: &[u8], log: &str) {
        let lines = log.lines().skip(1);
        let early = whole_reports(input)
            .zip(lines)
            .filter(|(report, _)| report.byte(head::END_MARK) == 2);
        for (_, line) in early {
            let words: Vec<&str> = line.split(' ').collect();
            let (number, warnings) = (words[2], words[3]);
            let expected = EARLY_ENDS.into_iter().chain([3]);
            let mut expected = expected.map(|number| number.to_string());
            let fits = expected.any(|expected| expected == number) && warnings == "0";
            assert!(fits, "an early end can't be answered {line:?}");
            self.occurred(early_end(number));
        }
    }

    fn count_line(&mut self, line: &str) {
        let words: Vec<&str> = line.split(' ').collect();
        match words.as_slice() {
            ["total", _, _, "0"] => self.occurred(CLEAN_LOG.to_string()),
            [_, unit, number, warnings, part, stamp @ ..]
                if !stamp.is_empty() && *unit != "unit" =>
            {
                self.occurred(format!("answer {number}"));
                match *number {
                    "8" => self.occurred(named_part(part).to_string()),
                    _ => assert_eq!(*part, "0", "{line}"),
                }
                let sum: u32 = warnings.parse().unwrap_or_default();
                for warning in [1, 2, 4, 8].into_iter().filter(|bit| sum & bit != 0) {
                    self.occurred(format!("warning {warning}"));
                }
                if *unit != "-" && *stamp == ["-"] {
                    self.occurred(LATE_STAMP.to_string());
                }
            }
            _ => {}
        }
    }

    /// Counts the remarks at the ends of a log's lines; the number of the lines.
    pub fn count_remarks(&mut self, log: &[u8]) -> u64 {
        let log = String::from_utf8_lossy(log);
        let with_remark = log.lines().skip(1);
        for (line, remark) in with_remark.filter_map(|line| line.split_once(" | ")) {
            for (kind, occurred) in remark_kinds(line, remark) {
                *self.remarks.entry(kind).or_default() += u64::from(occurred);
            }
        }
        log.lines().count() as u64
    }

    fn occurred(&mut self, name: String) {
        *self.answers.entry(name).or_default() += 1;
    }

    fn rows(&self) -> Vec<(String, u64)> {
        let of_ending = |name: &str| self.endings.get(name).copied().unwrap_or_default();
        let of_answer = |name: &str| self.answers.get(name).copied().unwrap_or_default();
        let endings = ENDINGS.map(|name| (name.to_string(), of_ending(name)));
        let answers = answers().map(|name| (name.clone(), of_answer(&name)));
        let remarks = self.remarks.iter();
        let remarks = remarks.map(|(kind, &count)| (format!("remark: {kind}"), count));
        let rows = endings.into_iter().chain(answers);
        rows.chain(remarks).collect()
    }

    /// Prints the table.
    pub fn print(&self) {
        for (name, count) in self.rows() {
            println!("  {name:<28} {count:8}");
        }
        let streams: u64 = self.endings.values().sum();
        println!("  {:<28} {streams:8}", "streams");
    }

    /// What never occurred.
    pub fn missing(&self) -> Vec<String> {
        let missing = self.rows().into_iter().filter(|&(_, count)| count == 0);
        missing.map(|(name, _)| name).collect()
    }
}
