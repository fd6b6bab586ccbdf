//! Compares the proved desk with the reference: numbers, warnings, parts, dates, forms and every byte.

mod case;
mod damaged;
mod date_kinds;
mod dates;
mod form_kinds;
mod forms;
mod remarks;
mod stages;
mod tally;

use case::Difference;
use reference::random::Random;
use stages::{Stage, STAGES};
use std::path::PathBuf;
use std::process::ExitCode;
use std::time::Instant;
use tally::Tally;

const DEFAULT_SEED: u64 = 20_260_301;

fn main() -> ExitCode {
    let Some(seed) = seed() else {
        eprintln!("usage: compare [seed [part of a stage's name]]");
        return ExitCode::from(2);
    };
    println!("seed {seed}");
    let asked = std::env::args().nth(2);
    let mut tally = Tally::default();
    let (mut passed, mut failed) = (0, 0);
    let mut count = |right: bool| *if right { &mut passed } else { &mut failed } += 1;
    for (stage, number) in STAGES.iter().zip(1..) {
        if asked
            .as_ref()
            .is_none_or(|asked| stage.name.contains(asked))
        {
            count(run(stage, number, seed, &mut tally));
        }
    }
    if asked.is_none() {
        count(all_occurred(&tally));
    }
    finish(passed, failed)
}

fn seed() -> Option<u64> {
    match std::env::args().nth(1) {
        None => Some(DEFAULT_SEED),
        Some(text) => text.parse().ok(),
    }
}

fn run(stage: &Stage, number: u64, seed: u64, tally: &mut Tally) -> bool {
    let mut random = Random::new(seed ^ (number << 56));
    let start = Instant::now();
    let outcome = (stage.run)(&mut random, tally);
    let seconds = start.elapsed().as_secs_f64();
    match outcome {
        Ok(calls) => println!("{}: {calls} calls agree, {seconds:.1} s", stage.name),
        Err(ref difference) => {
            let path = write_out(number, difference);
            println!("{}: DIFFERS, {seconds:.1} s, {path}", stage.name);
        }
    }
    outcome.is_ok()
}

/// The path of the written case.
fn write_out(number: u64, difference: &Difference) -> String {
    let folder = PathBuf::from(env!("CARGO_MANIFEST_DIR")).join("target");
    let path = folder.join(format!("difference-{number}.txt"));
    let written =
        std::fs::create_dir_all(&folder).and_then(|()| std::fs::write(&path, &difference.lines));
    match written {
        Ok(()) => path.display().to_string(),
        Err(error) => format!("not written: {error}\n{}", difference.lines),
    }
}

fn all_occurred(tally: &Tally) -> bool {
    tally.print();
    let (missing, impossible) = (tally.missing(), tally.impossible());
    if !missing.is_empty() {
        println!("never occurred: {}", missing.join(", "));
    }
    if !impossible.is_empty() {
        println!("occurred and can't: {}", impossible.join(", "));
    }
    missing.is_empty() && impossible.is_empty()
}

fn finish(passed: u32, failed: u32) -> ExitCode {
    let verdict = if failed == 0 { "ok" } else { "FAILED" };
    println!("test result: {verdict}. {passed} passed; {failed} failed");
    ExitCode::from(u8::from(failed > 0))
}
