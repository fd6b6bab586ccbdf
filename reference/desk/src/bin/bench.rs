//! Times the proved desk beside the reference, in one process and on the same inputs.

use desk_comparison::{reference_answer, reference_print_date, reference_read_date, Answer};
use desk_comparison::{reference_read_form, reference_write_form, Written};
use reference::calendar::{DATE_SIZE, NO_PRINT};
use reference::codes::{Direction, Mark, Operation, RecordType, UnitKind};
use reference::compose::{EntryFields, ReportFields, SlotFields};
use reference::fields::put_u16;
use reference::forms::NO_SUCH_FORM;
use reference::quantities::{Minute, LAST_MINUTE, QUARTER};
use reference::random::Random;
use reference::record::MAX_PARTS;
use reference::register::{
    head, put_last_stamp, slot_bytes, BLOCK_SIZE, HEAD_SIZE, MAX_UNITS, SLOT_SIZE,
};
use reference::roster::{read_entry, ENTRY_SIZE};
use reference::source::Source;
use reference::worked_examples::D;
use std::hint::black_box;
use std::process::ExitCode;
use std::time::{Duration, Instant};

const OWNER: u16 = 7;
const START: u32 = D + 60;
const MOST_PARTS: u32 = MAX_PARTS as u32;
const POSITIVE_DERATINGS: u32 = 4;
const NEGATIVE_DERATINGS: u32 = 3;
const MUST_RUN_MRID: u8 = 8;

/// Answers a report.
type Desk = fn(&mut [u8], &[u8]) -> Answer;

/// Accepted without warnings.
const CLEAN: Answer = (0, 0, 0);
const NOT_WHOLE: Answer = (2, 0, 0);

const RATTLE: Desk = desk_comparison::answer;
const RUST: Desk = reference_answer;

/// A register and the reports on it.
struct Load {
    register: Vec<u8>,
    reports: Vec<Vec<u8>>,
}

impl Load {
    fn answers(&self, desk: Desk) -> Vec<Answer> {
        let mut register = self.register.clone();
        let reports = self.reports.iter();
        reports.map(|report| desk(&mut register, report)).collect()
    }

    /// Reports per second of Rattle and of Rust, each round starting from the same register.
    fn rates(&self) -> [f64; 2] {
        let mut register = self.register.clone();
        let mut round = |desk: Desk| {
            register.copy_from_slice(&self.register);
            timed(|| {
                for report in &self.reports {
                    black_box(desk(&mut register, black_box(report)));
                }
            })
        };
        let seconds = fastest(|side| round([RATTLE, RUST][side]));
        seconds.map(|seconds| self.reports.len() as f64 / seconds)
    }
}

fn timed(work: impl FnOnce()) -> Duration {
    let begun = Instant::now();
    work();
    begun.elapsed()
}

/// Seconds of the fastest round of each side, in turn: other programs disturb that least.
fn fastest<const SIDES: usize>(mut round: impl FnMut(usize) -> Duration) -> [f64; SIDES] {
    const LEAST: Duration = Duration::from_millis(400);
    let (start, mut fastest) = (Instant::now(), [Duration::MAX; SIDES]);
    while start.elapsed() < LEAST {
        for (side, least) in fastest.iter_mut().enumerate() {
            *least = round(side).min(*least);
        }
    }
    fastest.map(|least| least.as_secs_f64())
}

/// An ordinary stream on so many units, from the first seed that gives that many near D.
fn stream(units: usize) -> Load {
    const REPORTS: usize = 200;
    let sources = (0..).map(|seed| Source::new(seed, units));
    let mut fitting = sources.filter(|source| fits(source.roster(), units));
    let mut source = fitting.next().expect("seeds don't run out");
    Load {
        register: source.register().to_vec(),
        reports: (0..REPORTS).map(|_| source.report()).collect(),
    }
}

fn fits(roster: &[u8], units: usize) -> bool {
    let first = read_entry(&roster[..ENTRY_SIZE]);
    roster.len() == units * ENTRY_SIZE
        && first.is_some_and(|unit| {
            unit.kind == UnitKind::W1 && (D..D + 40).contains(&unit.row.since.0)
        })
}

/// So many units with all slots free.
fn free_register(units: usize) -> Vec<u8> {
    let entry = EntryFields::generating(OWNER, UnitKind::W1, 5, D, 200_000, 80_000);
    let mut register = vec![0; units * BLOCK_SIZE];
    reference::set_up(&entry.bytes().repeat(units), &mut register);
    register
}

fn event() -> Load {
    let event = ReportFields::creation(MAX_UNITS as u16, OWNER, RecordType::Event)
        .begun()
        .qualified(5)
        .over(D + 10, D + 10)
        .stamped(D + 10);
    Load {
        register: free_register(MAX_UNITS),
        reports: vec![event.bytes()],
    }
}

/// So many equal parts, the power stepping up by 10 kW: end and power of each.
fn steps(start: u32, length: u32, parts: u32, power: u32) -> Vec<(u32, u32)> {
    (1..=parts)
        .map(|part| (start + length / parts * part, power + 10 * part))
        .collect()
}

/// Planned, from START plus an offset on, of parts that step.
fn record(record_type: RecordType, mrid: u8, offset: u32, pairs: Vec<(u32, u32)>) -> SlotFields {
    SlotFields {
        record_type: record_type as u8,
        direction: Direction::Generation as u8,
        qualification: 0,
        start_mark: Mark::Planned as u8,
        revision: 1,
        mrid: [mrid; 16],
        stamp: D,
        start: START + offset,
        end: pairs.last().map_or(START + offset, |&(end, _)| end),
        pairs,
    }
}

/// Forced work over four positive deratings in a row and three negative ones, of so many parts
/// each: a quarter hour to a derating's part, an hour to a level's.
fn full_slots(parts: u32) -> Vec<SlotFields> {
    let length = QUARTER * parts;
    let derating = |record_type, mrid: u32, index: u32| {
        let pairs = steps(START + length * index, length, parts, 1_000);
        record(record_type, mrid as u8, length * index, pairs)
    };
    let positive = (0..POSITIVE_DERATINGS)
        .map(|index| derating(RecordType::PositiveDerating, 1 + index, index));
    let negative = (0..NEGATIVE_DERATINGS)
        .map(|index| derating(RecordType::NegativeDerating, 5 + index, index));
    let levels = steps(START, length * POSITIVE_DERATINGS, parts, 150_000);
    let must_run = record(RecordType::MustRun, MUST_RUN_MRID, 0, levels);
    positive.chain(negative).chain([must_run]).collect()
}

/// So many units with all slots used, by records of so many parts.
fn full_register(units: usize, parts: u32) -> Vec<u8> {
    let mut register = free_register(units);
    let slots = full_slots(parts);
    let slots: Vec<u8> = slots.iter().flat_map(SlotFields::bytes).collect();
    for block in register.chunks_mut(BLOCK_SIZE) {
        block[HEAD_SIZE..HEAD_SIZE + 8 * SLOT_SIZE].copy_from_slice(&slots);
    }
    register
}

/// Levels far from the limits.
const FAR: u32 = 140_000;
/// A first level that fits beside the positive deratings of its hour alone, not beside later ones.
const NEAR: u32 = 198_960;

/// The last unit's slots being used, its forced work is not created but changed, again and again.
fn must_run(units: usize, parts: u32, first_level: u32) -> Load {
    const REPORTS: u16 = 20;
    let length = QUARTER * parts * POSITIVE_DERATINGS;
    let mut levels: Vec<(u32, i32)> = steps(START, length, parts, FAR)
        .into_iter()
        .map(|(end, power)| (end, power as i32))
        .collect();
    levels[0].1 = first_level as i32;
    let mut fields = ReportFields::creation(units as u16, OWNER, RecordType::MustRun)
        .over(START, START + length)
        .stepping(&levels)
        .stamped(D + 10)
        .named(MUST_RUN_MRID);
    fields.operation = Operation::Update as u8;
    let change = |revision| {
        let fields = ReportFields {
            revision,
            ..fields.clone()
        };
        fields.bytes()
    };
    Load {
        register: full_register(units, parts),
        reports: (2..2 + REPORTS).map(change).collect(),
    }
}

/// A derating of a hundred parts, of which one starts a minute late, sent again and again.
fn uncovered(late_part: u32) -> Load {
    const REPORTS: usize = 20;
    let length = QUARTER * MOST_PARTS;
    let powers: Vec<(u32, i32)> = steps(START, length, MOST_PARTS, 1_000)
        .into_iter()
        .map(|(end, power)| (end, power as i32))
        .collect();
    let mut fields = ReportFields::creation(1, OWNER, RecordType::PositiveDerating)
        .over(START, START + length)
        .stepping(&powers)
        .stamped(D + 10)
        .named(1);
    fields.parts[late_part as usize - 1].start += 1;
    Load {
        register: free_register(1),
        reports: vec![fields.bytes(); REPORTS],
    }
}

/// The first derating of a full block, begun at START, ends 8 minutes early, at the stamp; all of
/// its parts but the last are as they are stored.
fn early_end(parts: u32) -> Load {
    let stored = SlotFields {
        start_mark: Mark::Actual as u8,
        stamp: START,
        ..full_slots(parts).swap_remove(0)
    };
    let mut register = full_register(1, parts);
    put_last_stamp(&mut register, Minute(START));
    slot_bytes(&mut register, 0).copy_from_slice(&stored.bytes());
    let powers: Vec<(u32, i32)> = stored
        .pairs
        .iter()
        .map(|&(end, power)| (end, power as i32))
        .collect();
    let end = stored.end - 8;
    let mut fields = ReportFields::creation(1, OWNER, RecordType::PositiveDerating)
        .begun()
        .over(START, stored.end)
        .stepping(&powers)
        .ended_early(end)
        .stamped(end)
        .named(stored.mrid[0]);
    (fields.operation, fields.revision) = (Operation::Update as u8, 2);
    Load {
        register,
        reports: vec![fields.bytes()],
    }
}

/// An empty report is refused with 2, right after question 1.
fn question_1(register: Vec<u8>) -> Load {
    Load {
        register,
        reports: vec![Vec::new()],
    }
}

/// The rates of both sides; None if the answers differ or aren't those expected.
fn checked_rates(name: &str, load: &Load, expected: Option<Answer>) -> Option<[f64; 2]> {
    let answers = load.answers(RATTLE);
    let right = expected.is_none_or(|expected| answers.iter().all(|&given| given == expected));
    if !right || answers != load.answers(RUST) {
        println!("{name:<44} wrong answers");
        return None;
    }
    Some(load.rates())
}

fn print_head(what: &str) {
    println!(
        "{what:<44} {:>12} {:>12} {:>12}",
        "Rattle", "Rust", "Rattle/Rust"
    );
}

/// Prints the rates of both sides; Rattle's.
fn print_rates(name: &str, load: &Load, expected: Option<Answer>) -> Option<f64> {
    let [rattle, rust] = checked_rates(name, load, expected)?;
    let ratio = rattle / rust;
    println!("{name:<44} {rattle:>12.0} {rust:>12.0} {ratio:>12.2}");
    Some(rattle)
}

/// Question 1 beside a byte sum of the same register.
fn print_question_1(name: &str, register: Vec<u8>) -> Option<()> {
    let load = question_1(register);
    let rate = print_rates(name, &load, Some(NOT_WHOLE))?;
    let sum = byte_sum_rate(&load.register);
    let bytes = load.register.len() as f64;
    println!(
        "  beside a byte sum: {sum:.0} a second, question 1 takes {:.1} times as long; {:.2} and {:.2} ns a byte",
        sum / rate,
        1e9 / rate / bytes,
        1e9 / sum / bytes,
    );
    Some(())
}

/// Plain byte sums per second.
fn byte_sum_rate(bytes: &[u8]) -> f64 {
    let sum = || {
        black_box(bytes)
            .iter()
            .map(|&byte| u64::from(byte))
            .sum::<u64>()
    };
    let [seconds] = fastest(|_| timed(|| _ = black_box(sum())));
    1.0 / seconds
}

/// A one-unit stream on so many units, the others' blocks filled as the unit's is half-way.
fn widened(load: &Load, units: usize) -> Load {
    let mut halfway = load.register.clone();
    for report in &load.reports[..load.reports.len() / 2] {
        reference::answer(&mut halfway, report);
    }
    let mut register = load.register.clone();
    for unit in 2..=units as u16 {
        put_u16(&mut halfway, head::UNIT, unit);
        register.extend_from_slice(&halfway);
    }
    Load {
        register,
        reports: load.reports.clone(),
    }
}

/// One stream, the register growing from 1 to 64 units.
fn print_growth() -> Option<()> {
    let (load, mut first) = (stream(1), None);
    for units in [1, 2, 4, 8, 16, 32, 64] {
        let name = format!("(a) one unit's stream among {units}");
        let rate = print_rates(&name, &widened(&load, units), None)?;
        let times = *first.get_or_insert(rate) / rate;
        println!("  {:.2} µs a report, {times:.2} times 1 unit", 1e6 / rate);
    }
    Some(())
}

/// The forced work of (c) on one unit, so that question 1 does not hide the sweep, with more and
/// more parts in every record.
fn print_growth_by_parts(row: &str, first_level: u32, all_parts: &[u32]) -> Option<()> {
    let mut before: Option<[f64; 2]> = None;
    for &parts in all_parts {
        let name = format!("{row}, parts: {parts}");
        let rates = checked_rates(&name, &must_run(1, parts, first_level), Some(CLEAN))?;
        let [rattle, rust] = print_micros(&name, rates);
        if let Some([rattle_before, rust_before]) = before {
            let (rattle, rust) = (rattle / rattle_before, rust / rust_before);
            println!(
                "{:<44} {rattle:>12.1} {rust:>12.1}",
                "  times the row before"
            );
        }
        before = Some([rattle, rust]);
    }
    Some(())
}

/// Prints the µs a report of both sides, which it gives.
fn print_micros(name: &str, rates: [f64; 2]) -> [f64; 2] {
    let micros = rates.map(|rate| 1e6 / rate);
    print_times(name, micros);
    micros
}

fn print_times(name: &str, [rattle, rust]: [f64; 2]) {
    let ratio = rust / rattle;
    println!("{name:<44} {rattle:>12.2} {rust:>12.2} {ratio:>12.2}");
}

/// Deratings of a hundred parts, refused with 8 at the first, at a middle and at the last part.
fn print_uncovered() -> Option<()> {
    for part in [1, 57, MOST_PARTS] {
        let name = format!("(g) 1 unit, 100 parts, refused at part {part}");
        let rates = checked_rates(&name, &uncovered(part), Some((8, 0, part)))?;
        print_micros(&name, rates);
    }
    Some(())
}

/// A begun derating of one part and of a hundred, ended early.
fn print_early_ends() -> Option<()> {
    for parts in [1, MOST_PARTS] {
        let name = format!("(h) 1 unit, full, early end, parts: {parts}");
        let rates = checked_rates(&name, &early_end(parts), Some(CLEAN))?;
        print_micros(&name, rates);
    }
    Some(())
}

/// Number and minute of a text.
type ReadDate = fn(&[u8]) -> (u32, u32);
/// Prints a minute's date.
type PrintDate = fn(u32, &mut [u8]) -> u32;

const READ_DATE: [ReadDate; 2] = [desk_comparison::read_date, reference_read_date];
const PRINT_DATE: [PrintDate; 2] = [desk_comparison::print_date, reference_print_date];

fn random_minutes() -> Vec<u32> {
    const MINUTES: usize = 2_000;
    let mut random = Random::new(0);
    let minutes = (0..MINUTES).map(|_| random.between(0..=LAST_MINUTE.0));
    minutes.collect()
}

fn printed(minute: u32, print: PrintDate) -> Vec<u8> {
    let mut text = vec![0; DATE_SIZE];
    print(minute, &mut text);
    text
}

/// The same texts, each with something wrong in it.
fn spoiled(prints: &[Vec<u8>]) -> Vec<Vec<u8>> {
    const FAULTS: [(usize, &str); 14] = [
        (0, "1999"),
        (0, "2050"),
        (4, "/"),
        (5, "00"),
        (5, "13"),
        (5, "02-30"),
        (5, "04-31"),
        (8, "00"),
        (8, "32"),
        (9, " "),
        (10, "T"),
        (11, "24"),
        (14, "60"),
        (15, "x"),
    ];
    let mut random = Random::new(1);
    let mut spoil = |print: &Vec<u8>| {
        let mut text = print.clone();
        match random.below(8) {
            0 => text.truncate(DATE_SIZE - 1),
            1 => text.push(b' '),
            _ => {
                let (at, fault) = random.pick(&FAULTS);
                text[at..at + fault.len()].copy_from_slice(fault.as_bytes());
            }
        }
        text
    };
    prints.iter().map(&mut spoil).collect()
}

/// The ns a text of both sides; None if they read it differently or with another number.
fn print_reading(name: &str, texts: &[Vec<u8>], expected: u8) -> Option<()> {
    let [rattle, rust] =
        READ_DATE.map(|read| texts.iter().map(|text| read(text)).collect::<Vec<_>>());
    let right = |&(number, _): &(u32, u32)| number == u32::from(expected);
    if rattle != rust || !rattle.iter().all(right) {
        println!("{name:<44} wrong answers");
        return None;
    }
    let seconds = fastest(|side| {
        let read = READ_DATE[side];
        timed(|| {
            for text in texts {
                black_box(read(black_box(text)));
            }
        })
    });
    print_times(name, seconds.map(|all| 1e9 * all / texts.len() as f64));
    Some(())
}

/// The ns a date of both sides; None if they print one differently.
fn print_printing(name: &str, minutes: &[u32]) -> Option<()> {
    let same = |&minute: &u32| {
        let [rattle, rust] = PRINT_DATE.map(|print| printed(minute, print));
        rattle == rust
    };
    if !minutes.iter().all(same) {
        println!("{name:<44} wrong dates");
        return None;
    }
    let mut text = [0; DATE_SIZE];
    let seconds = fastest(|side| {
        let print = PRINT_DATE[side];
        timed(|| {
            for &minute in minutes {
                black_box(print(black_box(minute), black_box(&mut text)));
            }
        })
    });
    print_times(name, seconds.map(|all| 1e9 * all / minutes.len() as f64));
    Some(())
}

fn print_dates() -> Option<()> {
    let minutes = random_minutes();
    let prints = minutes.iter();
    let prints: Vec<_> = prints
        .map(|&minute| printed(minute, reference_print_date))
        .collect();
    print_reading("(i) dates read", &prints, 0)?;
    print_reading("(i) texts refused", &spoiled(&prints), NO_PRINT)?;
    print_printing("(i) dates printed", &minutes)
}

/// From the bytes of a report to those of its form, or back.
type Convert = fn(&[u8], &mut [u8]) -> Written;

const WRITE_FORM: [Convert; 2] = [desk_comparison::write_form, reference_write_form];
const READ_FORM: [Convert; 2] = [desk_comparison::read_form, reference_read_form];

/// More than the longest form and the longest report.
const LONGEST: usize = 4_000;

fn converted(convert: Convert, input: &[u8]) -> (u32, Vec<u8>) {
    let mut output = vec![0; LONGEST];
    let (number, length) = convert(input, &mut output);
    output.truncate(length as usize);
    (number, output)
}

/// Deratings of so many quarter hours, or stops where there is no part, each with other numbers.
fn reports_with_forms(parts: u32) -> Vec<Vec<u8>> {
    const REPORTS: usize = 200;
    let mut random = Random::new(parts.into());
    let mut report = || {
        let start = QUARTER * random.between(0..=1_000_000);
        let record_type = match parts {
            0 => RecordType::Outage,
            _ => RecordType::PositiveDerating,
        };
        let steps: Vec<(u32, i32)> = (1..=parts)
            .map(|part| {
                let power = random.between(1_000..=199_999) as i32;
                (start + QUARTER * part, power)
            })
            .collect();
        let mut fields = ReportFields::creation(random.between(1..=64) as u16, OWNER, record_type)
            .over(start, start + QUARTER * parts.max(4))
            .stepping(&steps)
            .stamped(start);
        fields.qualification = u8::from(parts == 0);
        random.fill(&mut fields.mrid);
        fields.text = b"feed pump B still out".to_vec();
        fields.bytes()
    };
    (0..REPORTS).map(|_| report()).collect()
}

/// The same forms, each with one character changed so that it is none.
fn spoiled_forms(forms: &[Vec<u8>]) -> Vec<Vec<u8>> {
    let mut random = Random::new(2);
    let mut spoil = |form: &Vec<u8>| {
        let mut form = form.clone();
        let at = random.below(form.len() as u32) as usize;
        form[at] = b'\n' ^ u8::from(form[at] == b'\n');
        form
    };
    forms.iter().map(&mut spoil).collect()
}

/// Forms a second of both sides; None if they differ or give another number.
fn print_forms(
    name: &str,
    inputs: &[Vec<u8>],
    sides: [Convert; 2],
    expected: u8,
) -> Option<Vec<Vec<u8>>> {
    let [rattle, rust] = sides.map(|side| {
        let outputs = inputs.iter().map(|input| converted(side, input));
        outputs.collect::<Vec<_>>()
    });
    let right = |(number, _): &(u32, Vec<u8>)| *number == u32::from(expected);
    if rattle != rust || !rattle.iter().all(right) {
        println!("{name:<44} wrong answers");
        return None;
    }
    let mut output = vec![0; LONGEST];
    let seconds = fastest::<2>(|side| {
        let convert = sides[side];
        timed(|| {
            for input in inputs {
                black_box(convert(black_box(input), black_box(&mut output)));
            }
        })
    });
    let [rattle_rate, rust_rate] = seconds.map(|all| inputs.len() as f64 / all);
    let ratio = rattle_rate / rust_rate;
    println!("{name:<44} {rattle_rate:>12.0} {rust_rate:>12.0} {ratio:>12.2}");
    Some(rattle.into_iter().map(|(_, output)| output).collect())
}

fn print_all_forms() -> Option<()> {
    for (row, parts, what) in [
        ("(j)", 0, "without parts"),
        ("(k)", 10, "of 10 parts"),
        ("(l)", MOST_PARTS, "of 100 parts"),
    ] {
        let reports = reports_with_forms(parts);
        let name = |done: &str| format!("{row} report {what}, form {done}");
        let forms = print_forms(&name("written"), &reports, WRITE_FORM, 0)?;
        print_forms(&name("read"), &forms, READ_FORM, 0)?;
        print_forms(
            &name("refused"),
            &spoiled_forms(&forms),
            READ_FORM,
            NO_SUCH_FORM,
        )?;
    }
    Some(())
}

fn bench() -> Option<()> {
    print_head("reports per second");
    print_rates("(a) 2 units, ordinary stream", &stream(2), None)?;
    print_rates("(b) 64 units, slots free, event", &event(), Some(CLEAN))?;
    print_rates(
        "(c) 64 units, slots full, forced work",
        &must_run(MAX_UNITS, MOST_PARTS, FAR),
        Some(CLEAN),
    )?;
    let (free, full) = (
        free_register(MAX_UNITS),
        full_register(MAX_UNITS, MOST_PARTS),
    );
    print_question_1("(d) question 1 alone, slots free", free)?;
    print_question_1("(d) question 1 alone, slots full", full)?;
    print_growth()?;
    print_head("µs a report");
    print_growth_by_parts("(e) 1 unit, forced work", FAR, &[1, 10, MOST_PARTS])?;
    print_growth_by_parts("(f) the same near a limit", NEAR, &[10, MOST_PARTS])?;
    print_uncovered()?;
    print_early_ends()?;
    print_head("ns a date");
    print_dates()?;
    print_head("forms per second");
    print_all_forms()
}

fn main() -> ExitCode {
    match bench() {
        Some(()) => ExitCode::SUCCESS,
        None => ExitCode::FAILURE,
    }
}
