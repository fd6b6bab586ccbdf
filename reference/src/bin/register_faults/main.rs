//! Tries the register on disk: the program is killed, loses power and meets failing calls, and each time the register is compared
//! with the reference's after the printed lines.

mod bad_files;
mod crashes;
mod failures;
mod fault;
mod kills;
mod plain;
mod room;
mod run;
mod scenario;
mod set_up;
mod tally;
mod together;
mod trial;

use reference::random::Random;
use std::process::ExitCode;
use std::time::Instant;
use trial::Trial;

const USE: &str = "use: register_faults DESK PROGRAM [ROUNDS [SEED [STAGE]]]";

/// A stage: its name and what it does.
type Stage = (&'static str, fn(&mut Trial) -> Result<(), String>);

/// All stages.
const STAGES: [Stage; 13] = [
    ("without faults", plain::without_faults),
    ("refused reports write nothing", plain::refused_only),
    ("killed at every call", crashes::every_call),
    ("killed at some call of a longer run", crashes::some_call),
    ("killed at some time", kills::some_time),
    ("every call fails", failures::every_call),
    ("some call of a longer run fails", failures::some_call),
    ("two writers at once", together::writers),
    ("copied during writes", together::reader),
    ("bad registers", bad_files::registers),
    ("links, modes and what lies beside", bad_files::surroundings),
    ("bad rosters and existing registers", set_up::refusals),
    ("set-up killed and failing at every call", set_up::faults),
];

fn main() -> ExitCode {
    match arguments().and_then(run_all) {
        Ok(failed) => ExitCode::from(u8::from(failed > 0)),
        Err(message) => {
            eprintln!("register_faults: {message}");
            ExitCode::FAILURE
        }
    }
}

fn arguments() -> Result<(Trial, Vec<Stage>), String> {
    let words: Vec<String> = std::env::args().skip(1).collect();
    let number = |place: usize, default: u64| match words.get(place) {
        Some(word) => word.parse().map_err(|_| USE.to_string()),
        None => Ok(default),
    };
    let (rounds, seed) = (number(2, 1)?, number(3, 20_260_301)?);
    match words.as_slice() {
        [desk, program, ..] if words.len() <= 5 => {
            println!("seed {seed}, rounds {rounds}");
            let trial = Trial::of(desk, program, rounds as u32, Random::new(seed))?;
            Ok((trial, stages(words.get(4))?))
        }
        _ => Err(USE.to_string()),
    }
}

/// All stages, or the one of a name.
fn stages(name: Option<&String>) -> Result<Vec<Stage>, String> {
    let wanted = |stage: &Stage| name.is_none_or(|name| stage.0 == name);
    let stages: Vec<Stage> = STAGES.into_iter().filter(wanted).collect();
    if stages.is_empty() {
        let names = STAGES.map(|(name, _)| name).join("\n  ");
        return Err(format!("the stages are\n  {names}"));
    }
    Ok(stages)
}

/// How many stages failed.
fn run_all((mut trial, stages): (Trial, Vec<Stage>)) -> Result<usize, String> {
    let mut failed = 0;
    for &(name, stage) in &stages {
        trial.tally.start_stage();
        let (start, before) = (Instant::now(), trial.tally.tried());
        stage(&mut trial)?;
        let cases = trial.tally.tried() - before;
        let seconds = start.elapsed().as_secs_f64();
        let verdict = match trial.tally.complaints() {
            0 => "ok",
            _ => "FAILED",
        };
        println!("{name}: {verdict}, {cases} cases, {seconds:.1} s");
        failed += usize::from(verdict != "ok" || cases == 0);
    }
    trial.tally.print();
    let passed = stages.len() - failed;
    let verdict = if failed == 0 { "ok" } else { "FAILED" };
    println!("test result: {verdict}. {passed} passed; {failed} failed");
    Ok(failed)
}
