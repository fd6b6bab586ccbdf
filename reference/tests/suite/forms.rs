//! Forms of lines (A4), reading by reading, and against a slow reading of the same lines.

use crate::with;
use reference::codes::RecordType;
use reference::compose::ReportFields;
use reference::form_faults::{self, of_form, of_report, READ, WRITTEN};
use reference::random::Random;
use reference::report::MAX_TEXT;
use reference::source::{
    damaged_forms, regridded_forms, report_with_form, report_without_form, Source,
};
use reference::worked_examples::{roster_a_reports, D};
use reference::{read_form, write_form};
use std::collections::BTreeMap;

/// The form of the first report of paper 01's log, as docs/FORM.md has it.
const FIRST: &str = "\
unit=1
owner=7
type=2
operation=1
direction=1
start_mark=1
end_mark=1
qualification=0
ordinal=1
identifier=01010101010101010101010101010101
stamp=2026-03-01 00:10
start=2026-03-01 01:00
end=2026-03-01 02:00
resolution=60
point=1 20000
text=
";

const LONGEST: usize = 4_000;

fn written(report: &[u8]) -> Result<Vec<u8>, u8> {
    let mut form = vec![0xA5; LONGEST];
    let length = write_form(report, &mut form)?;
    assert!(form[length..].iter().all(|&byte| byte == 0xA5));
    form.truncate(length);
    Ok(form)
}

fn read(form: &[u8]) -> Result<Vec<u8>, u8> {
    let mut report = vec![0xA5; LONGEST];
    let length = read_form(form, &mut report)?;
    assert!(report[length..].iter().all(|&byte| byte == 0xA5));
    report.truncate(length);
    Ok(report)
}

fn first() -> ReportFields {
    ReportFields::creation(1, 7, RecordType::PositiveDerating)
        .over(D + 60, D + 120)
        .at(20_000)
        .stamped(D + 10)
        .named(1)
}

/// The form of a report, which comes back from it.
fn form(fields: &ReportFields) -> String {
    let form = written(&fields.bytes()).unwrap();
    assert_eq!(read(&form).unwrap(), fields.bytes());
    String::from_utf8(form).unwrap()
}

/// What the line of a name says.
fn line<'a>(form: &'a str, name: &str) -> &'a str {
    let mut lines = form.lines().filter_map(|line| line.split_once('='));
    lines
        .find(|line| line.0 == name)
        .map_or("none", |line| line.1)
}

fn without(fields: &ReportFields) {
    assert_eq!(written(&fields.bytes()), Err(25), "{fields:?}");
}

fn no_form(text: &str) {
    assert_eq!(read(text.as_bytes()), Err(24), "{text}");
}

/// The first form with one line or value replaced: it is none.
fn none_with(from: &str, to: &str) {
    assert_eq!(FIRST.matches(from).count(), 1, "{from:?}");
    no_form(&FIRST.replace(from, to));
}

#[test]
fn the_first_report_of_the_log() {
    let report = roster_a_reports().swap_remove(0);
    assert_eq!(report, first().bytes());
    assert_eq!(form(&first()), FIRST);
    assert_eq!(read(FIRST.as_bytes()), Ok(report));
}

#[test]
fn the_counts_have_no_line() {
    let steps: Vec<(u32, i32)> = (1..=100).map(|part| (D + 60 + part, 7)).collect();
    let fields = first().over(D + 60, D + 160).stepping(&steps);
    let long = form(&with(fields, |fields| fields.text = vec![b'x'; 200]));
    assert_eq!(long.matches("\npoint=").count(), 100);
    assert_eq!(long.lines().count(), 13 + 1 + 100 + 1);
    none_with("resolution=60\n", "parts=1\nresolution=60\n");
    none_with("text=\n", "length=0\ntext=\n");
}

#[test]
fn every_line_ends_with_one_line_feed() {
    no_form(&FIRST.replace('\n', "\r\n"));
    no_form(&FIRST[..FIRST.len() - 1]);
    no_form(&FIRST.replace("text=\n", "text=\r\n"));
    no_form(&FIRST.replace("text=\n", "text=\n\n"));
    no_form(&FIRST.replace("text=\n", "text=\ntext=\n"));
    no_form(&FIRST.replace("text=\n", "text=\nend\n"));
    no_form(&FIRST.replace("text=\n", "\ntext=\n"));
    no_form(&format!("\n{FIRST}"));
    no_form(&format!("{FIRST}{FIRST}"));
    no_form("");
    no_form("\n");
}

#[test]
fn question_4_of_any_operation_and_no_later_question() {
    let early = first().begun().ended_early(D + 120);
    assert_eq!(line(&form(&early), "end_mark"), "2");
    for record_type in [RecordType::Outage, RecordType::OffGrid] {
        let stop = ReportFields::creation(64, 999, record_type)
            .qualified(1)
            .over(D + 61, D + 7)
            .towards_both();
        let ended = with(stop.clone(), |stop| stop.end_mark = 2);
        for fields in [stop, ended] {
            let form = form(&fields);
            assert_eq!(line(&form, "start"), "2026-03-01 01:01");
            assert_eq!(line(&form, "end"), "2026-03-01 00:07");
            assert_eq!(line(&form, "direction"), "3");
        }
    }
    for mark in [0, 3, 17, 255] {
        without(&with(first(), |fields| fields.end_mark = mark));
    }
    without(&with(first(), |fields| fields.qualification = 1));
    without(&with(first(), |fields| fields.stamp = 26_298_720));
    for revision in [0, 10_000] {
        without(&with(first(), |fields| fields.revision = revision));
    }
}

trait Towards {
    fn towards_both(self) -> Self;
}

impl Towards for ReportFields {
    fn towards_both(self) -> Self {
        with(self, |fields| fields.direction = 3)
    }
}

#[test]
fn every_power_has_a_form() {
    for power in [
        i32::MIN,
        i32::MIN + 1,
        -100_000_000,
        -1,
        0,
        1,
        99_999_999,
        i32::MAX,
    ] {
        let form = form(&first().over(D, D + 60).at(power));
        assert_eq!(line(&form, "point"), format!("1 {power}"));
    }
    for power in [
        "2147483648",
        "-2147483649",
        "4294967296",
        "9999999999",
        "10000000000",
        "-0",
        "00",
        "01",
        "+1",
        "- 1",
        "--1",
        "-",
        "",
        " 1",
        "1 ",
        "1.0",
        "0020000",
        "000000001",
        "0000000001",
    ] {
        none_with("point=1 20000", &format!("point=1 {power}"));
    }
}

#[test]
fn every_number_of_digits() {
    let mut powers = vec![0_i64];
    for digits in 0..10 {
        let first = 10_i64.pow(digits);
        powers.extend([
            first - 1,
            first,
            first + 1,
            2 * first,
            123_456_789 % first,
            9 * first,
        ]);
    }
    for power in powers.iter().flat_map(|power| [*power, -power]) {
        let text = FIRST.replace("20000", &power.to_string());
        match i32::try_from(power) {
            Ok(power) => assert_eq!(form(&first().over(D + 60, D + 120).at(power)), text),
            Err(_) => no_form(&text),
        }
    }
}

#[test]
fn withdrawals_and_events_have_no_points() {
    let withdrawal = with(first(), |fields| {
        (fields.operation, fields.revision) = (3, 2);
        fields.parts.clear();
    });
    let lines = form(&withdrawal);
    assert!(lines.ends_with("end=2026-03-01 02:00\ntext=\n"), "{lines}");
    none_with("operation=1", "operation=3");
    without(&with(first(), |fields| fields.operation = 3));
    without(&with(first(), |fields| fields.parts.clear()));
    without(&with(withdrawal, |fields| fields.end_mark = 2));

    let event = ReportFields::creation(1, 7, RecordType::Event)
        .begun()
        .qualified(5)
        .over(D + 10, D + 9);
    assert_eq!(line(&form(&event), "identifier"), "0".repeat(32));
    without(&event.clone().named(1));
    without(&with(event.clone(), |fields| fields.operation = 2));
    without(&with(event.clone(), |fields| fields.end_mark = 2));
    without(&event.clone().at(1));
    no_form(&form(&event).replace("000\n", "001\n"));
    no_form(&form(&event).replace("operation=1", "operation=2"));
}

#[test]
fn units_owners_and_texts() {
    for (unit, owner) in [(1, 1), (64, 999), (9, 10), (10, 99), (63, 100)] {
        let form = form(&with(first(), |fields| {
            (fields.unit, fields.owner) = (unit, owner)
        }));
        assert!(form.starts_with(&format!("unit={unit}\nowner={owner}\ntype=2\n")));
    }
    for unit in [0, 65, 100, 257, u16::MAX] {
        without(&with(first(), |fields| fields.unit = unit));
        none_with("unit=1\n", &format!("unit={unit}\n"));
    }
    for owner in [0, 1_000, 1_031, u16::MAX] {
        without(&with(first(), |fields| fields.owner = owner));
        none_with("owner=7\n", &format!("owner={owner}\n"));
    }
    none_with("owner=7\n", "owner=65543\n");
    for text in [
        "",
        " ",
        "=",
        "a=b",
        " a ",
        "text=",
        " = ~!",
        &"=".repeat(200),
    ] {
        let lines = form(&with(first(), |fields| fields.text = text.into()));
        assert_eq!(lines, format!("{}{text}\n", &FIRST[..FIRST.len() - 1]));
    }
    none_with("text=\n", &format!("text={}\n", "x".repeat(MAX_TEXT + 1)));
    for byte in 0..=u8::MAX {
        let fields = with(first(), |fields| fields.text = vec![b'a', byte, b'b']);
        let form = [
            &FIRST.as_bytes()[..FIRST.len() - 1],
            &[b'a', byte, b'b', b'\n'],
        ]
        .concat();
        if (0x20..=0x7E).contains(&byte) {
            assert_eq!(written(&fields.bytes()), Ok(form));
        } else {
            without(&fields);
            assert_eq!(read(&form), Err(24));
        }
    }
}

/// A derating that steps at these minutes past a start, all of it 7 kW.
fn stepping(start: u32, ends: &[u32]) -> ReportFields {
    let steps: Vec<(u32, i32)> = ends.iter().map(|end| (start + end, 7)).collect();
    let last = ends.last().unwrap();
    first().over(start, start + last).stepping(&steps)
}

#[test]
fn the_grid_starts_at_the_record() {
    for (ends, resolution, positions) in [
        (&[60][..], "60", "1"),
        (&[1_440], "1440", "1"),
        (&[1_500], "60", "1"),
        (&[2_880, 4_320], "1440", "1 3"),
        (&[60, 1_440], "60", "1 2"),
        (&[15, 60], "15", "1 2"),
        (&[30, 60], "15", "1 3"),
        (&[60, 75], "15", "1 5"),
        (&[5, 15], "5", "1 2"),
        (&[60, 70], "5", "1 13"),
        (&[1_440, 1_441], "1", "1 1441"),
        (&[7], "1", "1"),
        (&[120, 180, 300], "60", "1 3 4"),
    ] {
        for start in [D, D + 15, D + 7] {
            let form = form(&stepping(start, ends));
            assert_eq!(line(&form, "resolution"), resolution, "{form}");
            let points = form.lines().filter_map(|line| line.strip_prefix("point="));
            let given: Vec<&str> = points.filter_map(|point| point.split(' ').next()).collect();
            assert_eq!(given.join(" "), positions);
        }
    }
    let longest = form(&stepping(0, &[26_298_718, 26_298_719]));
    assert!(
        longest.contains("\nresolution=1\npoint=1 7\npoint=26298719 7\n"),
        "{longest}"
    );
}

#[test]
fn another_resolution_is_no_form() {
    for resolution in [0, 1, 2, 5, 10, 15, 30, 120, 1_440, 1_500] {
        none_with("resolution=60", &format!("resolution={resolution}"));
    }
    let hours = form(&stepping(D, &[60, 180]));
    assert!(hours.contains("resolution=60\npoint=1 7\npoint=2 7\n"));
    for (resolution, position) in [(15, 5), (5, 13), (1, 61), (1_440, 2)] {
        let lines = format!("resolution={resolution}\npoint=1 7\npoint={position} 7\n");
        no_form(&hours.replace("resolution=60\npoint=1 7\npoint=2 7\n", &lines));
    }
}

#[test]
fn positions_rise_from_1_to_the_end() {
    let form = form(&stepping(D, &[60, 180, 240]));
    let points = "point=1 7\npoint=2 7\npoint=4 7\n";
    assert!(form.contains(points));
    let with = |positions: &[&str]| {
        let lines = positions
            .iter()
            .map(|position| format!("point={position} 7\n"));
        read(form.replace(points, &lines.collect::<String>()).as_bytes())
    };
    for good in [&["1"][..], &["1", "2"], &["1", "4"], &["1", "2", "3", "4"]] {
        assert!(with(good).is_ok());
    }
    for wrong in [
        &[][..],
        &["0"],
        &["2"],
        &["2", "3"],
        &["0", "1"],
        &["1", "1"],
        &["1", "3", "2"],
        &["1", "3", "3"],
        &["1", "5"],
        &["1", "2", "4", "5"],
        &["1", "100000001"],
        &["1", "71582790"],
        &["1", "4294967298"],
        &["1", "02"],
        &["1", "+2"],
        &["1", " 2"],
        &["1", "2 "],
        &["1", "-2"],
        &["1", ""],
    ] {
        assert_eq!(with(wrong), Err(24), "{wrong:?}");
    }
}

#[test]
fn equal_neighbours_stay_two_lines() {
    let form = form(&stepping(D, &[60, 120, 180]));
    assert!(form.contains("resolution=60\npoint=1 7\npoint=2 7\npoint=3 7\ntext="));
    assert!(read(form.replace("point=2 7\n", "").as_bytes()).is_ok());
}

#[test]
fn one_spelling() {
    for (from, to) in [
        ("unit=1\n", "unit=01\n"),
        ("unit=1\n", "unit=+1\n"),
        ("unit=1\n", "unit= 1\n"),
        ("unit=1\n", "unit =1\n"),
        ("unit=1\n", "unit=1 \n"),
        ("unit=1\n", "unit=\n"),
        ("unit=1\n", "Unit=1\n"),
        ("unit=1\n", " unit=1\n"),
        ("type=2", "type=02"),
        ("type=2", "type=+2"),
        ("direction=1", "direction=-1"),
        ("qualification=0", "qualification=-0"),
        ("qualification=0", "qualification="),
        ("start_mark=1", "start-mark=1"),
        ("ordinal=1", "ordinal=0001"),
        ("ordinal=1", "ordinal=65537"),
        ("resolution=60", "resolution=060"),
        ("point=1 20000", "point=1  20000"),
        ("point=1 20000", "point=1\t20000"),
        ("point=1 20000", "point=1 20000 "),
        ("point=1 20000", "point=120000"),
        ("stamp=2026-03-01 00:10", "stamp=2026-03-01T00:10"),
        ("stamp=2026-03-01 00:10", "stamp=2026-02-29 00:10"),
        ("stamp=2026-03-01 00:10", "stamp=2026-03-01 00:60"),
        ("stamp=2026-03-01 00:10", "stamp=2026-3-01 00:10"),
        ("end=2026-03-01 02:00", "end=2026-03-01 24:00"),
        ("identifier=01", "identifier=0"),
        ("identifier=01", "identifier=0g"),
        ("identifier=01", "identifier=0A"),
        ("identifier=01", "identifier=010"),
    ] {
        none_with(from, to);
    }
    let form = FIRST.replace("identifier=01", "identifier=0a");
    assert!(read(form.as_bytes()).is_ok());
}

#[test]
fn the_digits_of_an_identifier() {
    for at in 0..32 {
        for byte in 0..=u8::MAX {
            let mut form = FIRST.as_bytes().to_vec();
            let place = FIRST.find("identifier=").unwrap() + 11 + at;
            form[place] = byte;
            let good = matches!(byte, b'0'..=b'9' | b'a'..=b'f');
            assert_eq!(read(&form).is_ok(), good, "{byte}");
        }
    }
}

#[test]
fn a_hundred_and_one_points() {
    let ends: Vec<u32> = (1..=100).collect();
    let hundred = form(&stepping(D, &ends));
    no_form(&hundred.replace("point=100 7\n", "point=100 7\npoint=101 7\n"));
    let longer = hundred.replace("end=2026-03-01 01:40", "end=2026-03-01 01:41");
    assert!(read(longer.as_bytes()).is_ok());
    no_form(&longer.replace("point=100 7\n", "point=100 7\npoint=101 7\n"));
}

#[test]
fn room_is_asked_last() {
    let report = first().bytes();
    let before: Vec<u8> = (0..=u8::MAX).cycle().take(LONGEST).collect();
    for room in 0..=FIRST.len() + 40 {
        let mut form = before[..room].to_vec();
        let (number, written) = match room < FIRST.len() {
            true => (Err(43), ""),
            false => (Ok(FIRST.len()), FIRST),
        };
        assert_eq!(write_form(&report, &mut form), number);
        assert_eq!(
            form,
            [written.as_bytes(), &before[written.len()..room]].concat()
        );
        assert_eq!(write_form(&report[1..], &mut form), Err(25));
    }
    for room in 0..=report.len() + 40 {
        let mut place = before[..room].to_vec();
        let (number, written) = match room < report.len() {
            true => (Err(43), &[][..]),
            false => (Ok(report.len()), &report[..]),
        };
        assert_eq!(read_form(FIRST.as_bytes(), &mut place), number);
        assert_eq!(place, [written, &before[written.len()..room]].concat());
        assert_eq!(read_form(&FIRST.as_bytes()[1..], &mut place), Err(24));
    }
}

/// Counts what a text or a report turns out to be.
type Kinds = BTreeMap<&'static str, u64>;

fn agrees_on_form(form: &[u8], kinds: &mut Kinds) {
    let finding = of_form(form);
    let shown = String::from_utf8_lossy(form);
    assert_eq!(read(form).ok(), finding.bytes, "{}\n{shown}", finding.kind);
    *kinds.entry(finding.kind).or_default() += 1;
    if let Some(report) = finding.bytes {
        assert_eq!(written(&report).as_deref(), Ok(form), "{shown}");
    }
}

fn agrees_on_report(report: &[u8], kinds: &mut Kinds) {
    let finding = of_report(report);
    assert_eq!(written(report).ok(), finding.bytes, "{}", finding.kind);
    *kinds.entry(finding.kind).or_default() += 1;
    if let Some(form) = finding.bytes {
        assert_eq!(read(&form).as_deref(), Ok(report));
    }
}

#[test]
fn a_slow_reading_agrees_and_every_kind_occurs() {
    let (mut random, mut kinds) = (Random::new(4), Kinds::new());
    for _ in 0..60 {
        let fields = report_with_form(&mut random);
        agrees_on_report(&fields.bytes(), &mut kinds);
        let form = form(&fields);
        if form.len() < 1_000 {
            for damaged in damaged_forms(form.as_bytes()) {
                agrees_on_form(&damaged, &mut kinds);
            }
        }
        for regridded in regridded_forms(form.as_bytes()) {
            agrees_on_form(&regridded, &mut kinds);
        }
    }
    for _ in 0..5_000 {
        let fields = report_with_form(&mut random);
        agrees_on_report(&fields.bytes(), &mut kinds);
        agrees_on_report(&report_without_form(&mut random), &mut kinds);
        agrees_on_form(form(&fields).as_bytes(), &mut kinds);
    }
    let missing = form_faults::kinds();
    let missing = missing.iter().filter(|kind| !kinds.contains_key(*kind));
    assert_eq!(missing.collect::<Vec<_>>(), Vec::<&&str>::new());
    assert!(kinds[READ] > 5_000 && kinds[WRITTEN] > 5_000);
}

#[test]
fn every_cut_and_every_byte_of_a_form() {
    let mut kinds = Kinds::new();
    for cut in 0..FIRST.len() {
        agrees_on_form(&FIRST.as_bytes()[..cut], &mut kinds);
        agrees_on_form(&FIRST.as_bytes()[cut..], &mut kinds);
        for byte in 0..=u8::MAX {
            let mut form = FIRST.as_bytes().to_vec();
            form[cut] = byte;
            agrees_on_form(&form, &mut kinds);
            form.insert(cut, byte);
            agrees_on_form(&form, &mut kinds);
        }
    }
}

#[test]
fn reports_of_streams() {
    let mut kinds = Kinds::new();
    for seed in 0..40 {
        let mut source = Source::new(seed, 64);
        for _ in 0..50 {
            agrees_on_report(&source.whole_or_broken_report(), &mut kinds);
        }
    }
    assert!(kinds[WRITTEN] > 500);
}
