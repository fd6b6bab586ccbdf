//! The shift log's edges.

use crate::{derating, with};
use reference::compose::ReportFields;
use reference::sample::{sample, samples};
use reference::source::Source;
use reference::worked_examples::{roster_a, roster_a_reports, D};
use reference::{remarks, shift_log};

const HEADER: &str = "no unit answer warn part stamp\n";

fn log(input: &[u8]) -> String {
    String::from_utf8(shift_log(input)).unwrap()
}

fn lines(reports: &[u8]) -> String {
    let log = log(&[&roster_a(), reports].concat());
    log.strip_prefix(HEADER).unwrap().to_string()
}

fn first() -> Vec<u8> {
    roster_a_reports().swap_remove(0)
}

const FIRST: &str = "1 1 0 0 0 2026-03-01 00:10\n";

#[test]
fn no_reports() {
    assert_eq!(lines(&[]), "total 0 0 0\n");
}

#[test]
fn roster_faults() {
    let roster = roster_a();
    let fault = "roster 20\n";
    assert_eq!(log(&[]), fault);
    assert_eq!(log(&[0x4A]), fault);
    assert_eq!(log(&first()), fault, "no entry at all");
    assert_eq!(log(&roster[..2]), fault);
    assert_eq!(log(&roster[..27]), fault);
    assert_eq!(log(&roster[..30]), fault, "cut short after a good one");
    assert_eq!(log(&sample("bad-roster").unwrap()), fault);
    // The fault is found before any report is looked at.
    let bad = [sample("bad-roster").unwrap(), first()].concat();
    assert_eq!(log(&bad), fault);
}

#[test]
fn one_byte_of_a_mark_is_a_report() {
    assert_eq!(lines(&[0x4A]), "1 - 2 0 0 -\ntotal 0 0 1\n");
    assert_eq!(lines(&[0x4A, 0x48]), "1 - 2 0 0 -\ntotal 0 0 1\n");
}

#[test]
fn eight_entries_and_a_ninth() {
    let eight = roster_a().repeat(4);
    assert_eq!(
        log(&[&eight[..], &first()].concat()),
        [HEADER, FIRST, "total 1 0 0\n"].concat()
    );
    let ninth = &roster_a()[..28];
    for cut in [28, 27, 2] {
        let nine = [&eight[..], &ninth[..cut]].concat();
        assert_eq!(log(&nine), [HEADER, "1 - 2 0 0 -\ntotal 0 0 1\n"].concat());
    }
    // Even where the ninth entry and what follows are long enough for a report.
    let long = [&eight[..], ninth, &first(), &first(), &first()].concat();
    assert_eq!(log(&long), [HEADER, "1 - 2 0 0 -\ntotal 0 0 1\n"].concat());
}

#[test]
fn a_run_ends_at_the_first_report_that_is_not_whole() {
    let good = first();
    for cut in 1..good.len() {
        let input = [&good[..], &good[..cut]].concat();
        assert_eq!(
            lines(&input),
            format!("{FIRST}2 - 2 0 0 -\ntotal 1 0 1\n"),
            "{cut}"
        );
    }
    let mut broken = good.clone();
    broken[46] = 1;
    let input = [&good[..], &broken, &good].concat();
    assert_eq!(lines(&input), format!("{FIRST}2 - 2 0 0 -\ntotal 1 0 1\n"));
}

#[test]
fn counts_out_of_range_end_the_run() {
    for (at, count) in [(14, 101_u16), (44, 201)] {
        let mut report = first();
        report[at..at + 2].copy_from_slice(&count.to_le_bytes());
        report.resize(50 + 16 * 101 + 201, 0);
        assert_eq!(lines(&report), "1 - 2 0 0 -\ntotal 0 0 1\n");
    }
}

#[test]
fn units_and_stamps_as_they_stand() {
    let report = |change: &dyn Fn(&mut ReportFields)| with(derating(1), change).bytes();
    let input = [
        report(&|fields| fields.unit = 0),
        report(&|fields| fields.unit = 65_535),
        report(&|fields| fields.unit = 9),
        report(&|fields| (fields.unit, fields.stamp) = (8, 26_298_720)),
        report(&|fields| fields.stamp = u32::MAX),
        report(&|fields| fields.stamp = 26_298_719),
        report(&|fields| fields.stamp = 0),
    ]
    .concat();
    let expected = "\
1 0 3 0 0 2026-03-01 00:10
2 65535 3 0 0 2026-03-01 00:10
3 9 3 0 0 2026-03-01 00:10
4 8 3 0 0 -
5 1 4 0 0 -
6 1 6 0 0 2049-12-31 23:59
7 1 10 0 0 2000-01-01 00:00
total 0 0 7
";
    assert_eq!(lines(&input), expected);
}

#[test]
fn totals_tell_clean_warned_and_refused_apart() {
    let outage = crate::begun_outage(1, 1, D + 5);
    let second = with(crate::begun_outage(1, 2, D + 8), |fields| {
        fields.mrid = [9; 16]
    });
    let input = [outage.bytes(), second.bytes(), second.bytes()].concat();
    let expected = "\
1 1 0 0 0 2026-03-01 00:10
2 1 0 8 0 2026-03-01 00:10
3 1 11 0 0 2026-03-01 00:10
total 1 1 1
";
    assert_eq!(lines(&input), expected);
}

#[test]
fn the_part_that_was_wrong() {
    let quarters = |count: u32| {
        let steps: Vec<(u32, i32)> = (1..=count).map(|part| (D + 60 + 15 * part, 1)).collect();
        derating(1)
            .over(D + 60, D + 60 + 15 * count)
            .stepping(&steps)
    };
    let late =
        |count, part: usize| with(quarters(count), |fields| fields.parts[part - 1].start += 1);
    let input = [
        late(90, 57).bytes(),
        quarters(90).bytes(),
        late(100, 100).bytes(),
        late(100, 1).bytes(),
        with(quarters(90), |fields| fields.parts.clear()).bytes(),
        with(late(90, 57), |fields| fields.parts[3].end += 1).bytes(),
    ]
    .concat();
    let expected = "\
1 1 8 0 57 2026-03-01 00:10
2 1 0 0 0 2026-03-01 00:10
3 1 8 0 100 2026-03-01 00:10
4 1 8 0 1 2026-03-01 00:10
5 1 8 0 0 2026-03-01 00:10
6 1 7 0 0 2026-03-01 00:10
total 1 0 5
";
    assert_eq!(lines(&input), expected);
    let with_remarks = String::from_utf8(remarks(&[roster_a(), input].concat())).unwrap();
    let first = "1 1 8 0 57 2026-03-01 00:10 | no remark";
    assert_eq!(with_remarks.lines().nth(1), Some(first));
}

#[test]
fn remarks_of_the_texts() {
    let log = String::from_utf8(remarks(&sample("texts").unwrap())).unwrap();
    let printed: String = (0x20..=0x7E).map(char::from).collect();
    let hex = |bytes: std::ops::RangeInclusive<u8>| -> String {
        bytes.map(|byte| format!("\\x{byte:02x}")).collect()
    };
    let low = [
        hex(0x00..=0x1F),
        printed.replace('\\', r"\\"),
        hex(0x7F..=0x7F),
    ];
    let expected = [
        "no unit answer warn part stamp | remark".to_string(),
        format!("1 1 0 0 0 2026-03-01 00:10 | {}", low.concat()),
        format!("2 1 11 0 0 2026-03-01 00:10 | {}", hex(0x80..=0xFF)),
        r"3 1 11 0 0 2026-03-01 00:10 | \\".to_string(),
        r"4 1 11 0 0 2026-03-01 00:10 |  | feed pump B \\x0a".to_string(),
        "5 1 11 0 0 2026-03-01 00:10 | no remark".to_string(),
        format!("6 1 11 0 0 2026-03-01 00:10 | {}", r"\x0a".repeat(200)),
        "7 1 11 0 0 2026-03-01 00:10 | no remark".to_string(),
        "total 1 0 6".to_string(),
    ];
    assert_eq!(log.lines().collect::<Vec<_>>(), expected);
    assert!(log.ends_with("total 1 0 6\n"));
}

#[test]
fn remarks_of_refused_reports_and_rosters() {
    let remarks_of = |input: &[u8]| String::from_utf8(remarks(input)).unwrap();
    let header = "no unit answer warn part stamp | remark\n";
    assert_eq!(remarks_of(&[]), "roster 20\n");
    assert_eq!(remarks_of(&sample("bad-roster").unwrap()), "roster 20\n");
    assert_eq!(remarks_of(&roster_a()), format!("{header}total 0 0 0\n"));
    let text =
        |fields: &mut ReportFields| (fields.stamp, fields.text) = (u32::MAX, b"late".to_vec());
    let late = with(derating(1), text).bytes();
    let cut = &late[..late.len() - 1];
    let input = [&roster_a(), &late[..], cut].concat();
    let expected = format!("{header}1 1 4 0 0 - | late\n2 - 2 0 0 - | \ntotal 0 0 2\n");
    assert_eq!(remarks_of(&input), expected);
}

/// Without its remarks it is the log, line by line.
#[test]
fn remarks_stand_beside_the_log() {
    let mut inputs: Vec<Vec<u8>> = samples().into_iter().map(|sample| sample.bytes).collect();
    for seed in 0..40 {
        let mut source = Source::new(seed, 8);
        let reports: Vec<u8> = (0..40).flat_map(|_| source.report()).collect();
        inputs.push([source.roster(), &reports].concat());
    }
    for input in inputs {
        let with_remarks = String::from_utf8(remarks(&input)).unwrap();
        let without = with_remarks
            .lines()
            .map(|line| match line.split_once(" | ") {
                Some((line, _)) => format!("{line}\n"),
                None => format!("{line}\n"),
            });
        assert_eq!(without.collect::<String>(), log(&input));
    }
}
