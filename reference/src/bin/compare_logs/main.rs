//! Compares the log that a program writes with the reference's, byte for byte, on many streams, and
//! then the log with the remarks.

mod comparison;
mod ending;
mod program;
mod stages;
mod streams;
mod tally;

use comparison::{Comparison, Fault};
use program::{Asked, Program};
use reference::random::Random;
use stages::{Stage, STAGES};
use std::process::ExitCode;
use std::time::Instant;

const DEFAULT_SEED: u64 = 20_260_301;

fn main() -> ExitCode {
    let outcome = arguments().and_then(|(program, seed)| run_all(program, seed));
    match outcome {
        Ok(failed) => ExitCode::from(u8::from(failed > 0)),
        Err(message) => {
            eprintln!("compare_logs: {message}");
            ExitCode::FAILURE
        }
    }
}

fn arguments() -> Result<(Program, u64), String> {
    let arguments: Vec<_> = std::env::args_os().skip(1).collect();
    let (path, seed) = match arguments.as_slice() {
        [path] => (path, DEFAULT_SEED),
        [path, seed] => {
            let seed = seed.to_string_lossy();
            let number = seed.parse();
            (
                path,
                number.map_err(|_| format!("SEED is to be a whole number, not {seed:?}"))?,
            )
        }
        _ => return Err("use: compare_logs PROGRAM [SEED]".to_string()),
    };
    Ok((Program::at(path)?, seed))
}

/// What is compared, on the same streams.
const ASKED: [Asked; 2] = [Asked::Log, Asked::Remarks];

/// How many tests failed: one to a stage, and one that every kind of ending, answer and remark
/// occurred.
fn run_all(program: Program, seed: u64) -> Result<usize, String> {
    println!("seed {seed}");
    let mut comparison = Comparison::with(program);
    let mut passed = 0;
    for asked in ASKED {
        for (stage, number) in STAGES.iter().zip(1..) {
            comparison.start_stage(asked);
            let mut random = Random::new(seed ^ (number << 56));
            passed += usize::from(run(stage, number, &mut random, &mut comparison)?);
        }
    }
    passed += usize::from(all_occurred(&comparison));
    let failed = ASKED.len() * STAGES.len() + 1 - passed;
    let verdict = if failed == 0 { "ok" } else { "FAILED" };
    println!("test result: {verdict}. {passed} passed; {failed} failed");
    Ok(failed)
}

/// Whether all logs of a stage agree.
fn run(
    stage: &Stage,
    number: u64,
    random: &mut Random,
    comparison: &mut Comparison,
) -> Result<bool, String> {
    let start = Instant::now();
    let outcome = (stage.run)(random, comparison);
    let seconds = start.elapsed().as_secs_f64();
    let name = format!("{}, {}", comparison.asked(), stage.name);
    match outcome {
        Ok(()) => println!("{name}: {} agree, {seconds:.1} s", comparison.counts()),
        Err(Fault::CannotRun(message)) => return Err(message),
        Err(Fault::Differs(ref difference)) => {
            let counts = comparison.counts();
            println!("{name}: DIFFERS after {counts}, {seconds:.1} s");
            println!("{}", difference.write_out(number));
        }
    }
    Ok(outcome.is_ok())
}

fn all_occurred(comparison: &Comparison) -> bool {
    let tally = comparison.tally();
    tally.print();
    let missing = tally.missing();
    if !missing.is_empty() {
        println!("never occurred: {}", missing.join(", "));
    }
    missing.is_empty()
}
