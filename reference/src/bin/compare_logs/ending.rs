//! How a stream ends, read from the stream itself.

use reference::fields::{all_zero, u16_at};
use reference::record::MAX_PARTS;
use reference::report::{
    head, part, question_2_report_whole, stated_length, WholeReport, HEAD_SIZE, MAX_TEXT,
    PART_MARK, PART_SIZE, REPORT_MARK, TEXT_MARK,
};
use reference::roster::{read_entry, ENTRY_MARK, ENTRY_SIZE};
use reference::shift_log::LOG_ENTRIES;

/// The kinds of ending: what the log says, and why.
pub const ENDINGS: [&str; 20] = [
    NO_ENTRY,
    ENTRY_CUT,
    ENTRY_BAD,
    NO_REPORTS,
    CLEAN,
    LONE_BYTE,
    NINTH_ENTRY,
    ENTRY_AFTER_REPORTS,
    HEAD_CUT,
    PARTS_CUT,
    TEXT_MARK_CUT,
    TEXT_CUT,
    PARTS_COUNT,
    PARTS_COUNT_CUT,
    TEXT_LENGTH,
    TEXT_LENGTH_CUT,
    REPORT_MARK_WRONG,
    PART_MARK_WRONG,
    TEXT_MARK_WRONG,
    ZERO_WRONG,
];

const NO_ENTRY: &str = "roster 20: no entry";
const ENTRY_CUT: &str = "roster 20: entry cut short";
const ENTRY_BAD: &str = "roster 20: bad entry";
const NO_REPORTS: &str = "clean: no report";
const CLEAN: &str = "clean: after reports";
const LONE_BYTE: &str = "2: one byte 4A";
const NINTH_ENTRY: &str = "2: a ninth entry";
const ENTRY_AFTER_REPORTS: &str = "2: an entry after reports";
const HEAD_CUT: &str = "2: head cut short";
const PARTS_CUT: &str = "2: parts cut short";
const TEXT_MARK_CUT: &str = "2: text mark cut short";
const TEXT_CUT: &str = "2: text cut short";
const PARTS_COUNT: &str = "2: k above 100, parts there";
const PARTS_COUNT_CUT: &str = "2: k above 100, cut short";
const TEXT_LENGTH: &str = "2: t above 200, text there";
const TEXT_LENGTH_CUT: &str = "2: t above 200, cut short";
const REPORT_MARK_WRONG: &str = "2: wrong report mark";
const PART_MARK_WRONG: &str = "2: wrong part mark";
const TEXT_MARK_WRONG: &str = "2: wrong text mark";
const ZERO_WRONG: &str = "2: zero field not 0";

/// How the run on a stream ends.
pub fn ending(input: &[u8]) -> &'static str {
    let (mut rest, mut entries, mut good) = (input, 0, true);
    while entries < LOG_ENTRIES && rest.starts_with(&ENTRY_MARK) {
        let Some((entry, after)) = rest.split_at_checked(ENTRY_SIZE) else {
            return ENTRY_CUT;
        };
        good &= read_entry(entry).is_some();
        (rest, entries) = (after, entries + 1);
    }
    match (entries, good) {
        (0, _) => NO_ENTRY,
        (_, false) => ENTRY_BAD,
        _ => reports_ending(rest),
    }
}

/// The whole reports of a stream up to the first that is not, its roster being good.
pub fn whole_reports(input: &[u8]) -> impl Iterator<Item = WholeReport<'_>> {
    let entries = input.chunks_exact(ENTRY_SIZE).take(LOG_ENTRIES);
    let entries = entries.take_while(|entry| entry.starts_with(&ENTRY_MARK));
    let mut rest = &input[entries.count() * ENTRY_SIZE..];
    std::iter::from_fn(move || {
        let (report, after) = split_report(rest)?;
        rest = after;
        Some(report)
    })
}

/// The first report, if it is whole, and what comes after it.
fn split_report(reports: &[u8]) -> Option<(WholeReport<'_>, &[u8])> {
    let (report, after) = reports.split_at_checked(stated_length(reports)?)?;
    Some((question_2_report_whole(report)?, after))
}

fn reports_ending(reports: &[u8]) -> &'static str {
    let mut rest = reports;
    while !rest.is_empty() {
        match split_report(rest) {
            Some((_, after)) => rest = after,
            None => return fault(rest, rest.len() == reports.len()),
        }
    }
    if reports.is_empty() {
        NO_REPORTS
    } else {
        CLEAN
    }
}

/// Why the first report of the rest is not whole.
fn fault(rest: &[u8], first: bool) -> &'static str {
    let Some(length) = stated_length(rest) else {
        return match rest {
            [0x4A] => LONE_BYTE,
            _ if rest.starts_with(&ENTRY_MARK) => entry_fault(first),
            _ => HEAD_CUT,
        };
    };
    let cut = rest.len() < length;
    let parts = usize::from(u16_at(rest, head::PART_COUNT));
    if rest.starts_with(&ENTRY_MARK) {
        entry_fault(first)
    } else if !rest.starts_with(&REPORT_MARK) {
        REPORT_MARK_WRONG
    } else if parts > MAX_PARTS {
        [PARTS_COUNT, PARTS_COUNT_CUT][usize::from(cut)]
    } else if usize::from(u16_at(rest, head::TEXT_LENGTH)) > MAX_TEXT {
        [TEXT_LENGTH, TEXT_LENGTH_CUT][usize::from(cut)]
    } else {
        fault_after_counts(rest, HEAD_SIZE + parts * PART_SIZE, cut)
    }
}

fn entry_fault(first: bool) -> &'static str {
    if first {
        NINTH_ENTRY
    } else {
        ENTRY_AFTER_REPORTS
    }
}

/// The counts being in range.
fn fault_after_counts(rest: &[u8], parts_end: usize, cut: bool) -> &'static str {
    let text_start = parts_end + TEXT_MARK.len();
    if cut {
        return match rest.len() {
            length if length < parts_end => PARTS_CUT,
            length if length < text_start => TEXT_MARK_CUT,
            _ => TEXT_CUT,
        };
    }
    let mut parts = rest[HEAD_SIZE..parts_end].chunks(PART_SIZE);
    let zeros = |part: &[u8]| all_zero(&part[part::ZERO..part::START]);
    if !all_zero(&rest[head::ZERO..HEAD_SIZE]) || !parts.clone().all(zeros) {
        ZERO_WRONG
    } else if !parts.all(|part| part.starts_with(&PART_MARK)) {
        PART_MARK_WRONG
    } else {
        TEXT_MARK_WRONG
    }
}
