//! The stages: what is compared.

use crate::case::{answer, set_up, Difference};
use crate::damaged;
use crate::dates;
use crate::forms;
use crate::remarks::{compare, random_standing, with_random_text, with_text};
use crate::tally::Tally;
use reference::damage::{base, variants};
use reference::random::Random;
use reference::register::BLOCK_SIZE;
use reference::report::MAX_TEXT;
use reference::roster::ENTRY_SIZE;
use reference::source::{broken_report, roster, Source};
use reference::worked_examples::{
    bench_findings, early_ends, examples, roster_a, roster_a_reports,
};

/// The number of calls compared, or the first difference.
pub type Outcome = Result<u64, Box<Difference>>;

/// A stage.
pub struct Stage {
    /// Its name.
    pub name: &'static str,
    /// Runs it.
    pub run: fn(&mut Random, &mut Tally) -> Outcome,
}

/// All stages.
pub const STAGES: [Stage; 16] = [
    Stage {
        name: "worked examples",
        run: worked_examples,
    },
    Stage {
        name: "streams on fresh registers",
        run: fresh_streams,
    },
    Stage {
        name: "streams on given registers",
        run: given_streams,
    },
    Stage {
        name: "every byte of a register changed",
        run: every_byte,
    },
    Stage {
        name: "damaged registers",
        run: damaged_registers,
    },
    Stage {
        name: "damaged reports",
        run: damaged_reports,
    },
    Stage {
        name: "damaged rosters",
        run: damaged_rosters,
    },
    Stage {
        name: "remarks",
        run: remarks,
    },
    Stage {
        name: "dates of every minute",
        run: dates::every_minute,
    },
    Stage {
        name: "dates printed into places of any length",
        run: dates::printed,
    },
    Stage {
        name: "dates typed back in",
        run: dates::typed,
    },
    Stage {
        name: "reports written as forms",
        run: forms::written,
    },
    Stage {
        name: "forms of streams",
        run: forms::of_streams,
    },
    Stage {
        name: "texts in forms",
        run: forms::texts,
    },
    Stage {
        name: "forms damaged in every place",
        run: forms::damaged_once,
    },
    Stage {
        name: "forms cut and changed",
        run: forms::cut_and_changed,
    },
];

/// In a hundred, reports that are tried broken as well.
const BROKEN: u32 = 2;

/// Few units as a rule, now and then up to 64.
fn most_units(index: u64) -> usize {
    if index.is_multiple_of(40) {
        64
    } else {
        4
    }
}

fn fresh(roster: &[u8], tally: &mut Tally) -> Result<Vec<u8>, Box<Difference>> {
    let before = vec![0xA5; roster.len() / ENTRY_SIZE * BLOCK_SIZE];
    let (number, register) = set_up(roster, &before)?;
    tally.count_set_up(number);
    Ok(register)
}

/// A report answered and counted: the register afterwards.
fn counted(before: &[u8], report: &[u8], tally: &mut Tally) -> Result<Vec<u8>, Box<Difference>> {
    let (given, after) = answer(before, report)?;
    tally.count(given, before, report);
    Ok(after)
}

fn worked_examples(_: &mut Random, tally: &mut Tally) -> Outcome {
    let mut calls = 0;
    let examples = examples().into_iter().chain(bench_findings());
    for example in examples.chain(early_ends()) {
        let mut register = fresh(&roster_a(), tally)?;
        for report in &example.reports {
            register = counted(&register, report, tally)?;
            calls += 1;
        }
    }
    Ok(calls)
}

fn stream(
    source: &mut Source,
    mut register: Vec<u8>,
    reports: u64,
    random: &mut Random,
    tally: &mut Tally,
) -> Outcome {
    let mut calls = 0;
    for _ in 0..reports {
        let report = source.report();
        if random.percent(BROKEN) {
            let broken = broken_report(random, &report);
            counted(&register, &broken, tally)?;
            calls += 1;
        }
        register = counted(&register, &report, tally)?;
        calls += 1;
    }
    Ok(calls)
}

fn fresh_streams(random: &mut Random, tally: &mut Tally) -> Outcome {
    const STREAMS: u64 = 2_000;
    const REPORTS: u64 = 155;
    let mut calls = 0;
    for index in 0..STREAMS {
        let mut source = Source::new(random.bits(), most_units(index));
        let register = fresh(source.roster(), tally)?;
        calls += stream(&mut source, register, REPORTS, random, tally)?;
    }
    Ok(calls)
}

fn given_streams(random: &mut Random, tally: &mut Tally) -> Outcome {
    const STREAMS: u64 = 1_000;
    const REPORTS: u64 = 50;
    let mut calls = 0;
    for index in 0..STREAMS {
        let mut source = Source::on_given_register(random.bits(), most_units(index));
        let register = source.register().to_vec();
        calls += stream(&mut source, register, REPORTS, random, tally)?;
    }
    Ok(calls)
}

/// Each byte of a whole register, free slots included, one more and with its top bit changed.
fn every_byte(_: &mut Random, tally: &mut Tally) -> Outcome {
    let mut register = base();
    for at in 0..register.len() {
        let byte = register[at];
        for changed in [byte.wrapping_add(1), byte ^ 0x80] {
            register[at] = changed;
            counted(&register, &[], tally)?;
        }
        register[at] = byte;
    }
    Ok(2 * register.len() as u64)
}

/// Every clause of question 1 broken alone, then random damage.
fn damaged_registers(random: &mut Random, tally: &mut Tally) -> Outcome {
    const REGISTERS: u64 = 1_100;
    const DAMAGES: u64 = 50;
    let mut calls = 0;
    for variant in variants() {
        counted(&variant.register(), &[], tally)?;
        calls += 1;
    }
    for index in 0..REGISTERS {
        let mut source = Source::on_given_register(random.bits(), most_units(index));
        let whole = source.register().to_vec();
        let report = source.report();
        for _ in 0..DAMAGES {
            let register = damaged::register(random, &whole);
            counted(&register, &report, tally)?;
        }
        calls += DAMAGES;
    }
    Ok(calls)
}

fn damaged_reports(random: &mut Random, tally: &mut Tally) -> Outcome {
    const STREAMS: u64 = 500;
    const REPORTS: u64 = 50;
    let mut calls = 0;
    for index in 0..STREAMS {
        let mut source = Source::new(random.bits(), most_units(index));
        for _ in 0..REPORTS {
            let register = source.register().to_vec();
            let report = damaged::report(random, &source.report());
            counted(&register, &report, tally)?;
        }
        calls += REPORTS;
    }
    Ok(calls)
}

fn damaged_rosters(random: &mut Random, tally: &mut Tally) -> Outcome {
    const ROSTERS: u64 = 25_000;
    for _ in 0..ROSTERS {
        let most = random.pick(&[2, 2, 2, 4, 4, 66]);
        let good = roster(random, most);
        let roster = damaged::roster(random, &good);
        let before = damaged::buffer(random, roster.len() / ENTRY_SIZE);
        tally.count_set_up(set_up(&roster, &before)?.0);
    }
    Ok(ROSTERS)
}

/// Every length of text, then random texts in whole and damaged reports.
fn remarks(random: &mut Random, tally: &mut Tally) -> Outcome {
    const STREAMS: u64 = 200;
    const REPORTS: u64 = 50;
    let mut calls = every_text_length(random, tally)?;
    for index in 0..STREAMS {
        let mut source = Source::new(random.bits(), most_units(index));
        for _ in 0..REPORTS {
            let mut report = with_random_text(random, &source.report());
            if random.percent(30) {
                report = damaged::report(random, &report);
            }
            let standing = random_standing(random, &report);
            tally.count_remark(compare(&report, &standing)?);
        }
        calls += REPORTS;
    }
    Ok(calls)
}

/// t from 0 to 201, the last one being too much.
fn every_text_length(random: &mut Random, tally: &mut Tally) -> Outcome {
    const LENGTHS: usize = MAX_TEXT + 2;
    let reports = roster_a_reports();
    let mut text = [0; LENGTHS];
    for length in 0..LENGTHS {
        random.fill(&mut text);
        let text = &text[..length];
        let report = with_text(&reports[length % reports.len()], text);
        for standing in [&[], text, b"no remark"] {
            tally.count_remark(compare(&report, standing)?);
        }
    }
    Ok(3 * LENGTHS as u64)
}
