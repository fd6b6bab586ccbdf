//! Runs without faults.

use crate::fault::{counted, counting};
use crate::run::{run, Input};
use crate::scenario::{Complaint, Scenario};
use crate::trial::{agrees, other, Trial, UNITS};
use std::os::unix::fs::MetadataExt;
use std::path::Path;

/// How a stream reaches the register.
#[derive(Clone, Copy, Debug)]
enum Way {
    Program,
    ProgramInPieces(usize),
    ProgramReadingShort(usize),
    Desk,
    DeskWithFile,
    DeskInPieces(usize),
}

/// Logs and registers are the reference's, however the stream comes.
pub fn without_faults(trial: &mut Trial) -> Result<(), String> {
    for round in 0..4 * trial.rounds {
        for units in UNITS {
            let most = if round == 0 { 400 } else { 30 };
            let reports = trial.random.between(0..=most) as usize;
            let scenario = Scenario::random(&mut trial.random, units, reports);
            let scenario = scenario.perhaps_broken(&mut trial.random);
            all_ways(trial, &scenario)?;
            if trial.tally.enough() {
                return Ok(());
            }
        }
    }
    Ok(())
}

fn all_ways(trial: &mut Trial, scenario: &Scenario) -> Result<(), String> {
    let size = trial.random.between(1..=2_000) as usize;
    let mut ways = vec![
        Way::Program,
        Way::ProgramInPieces(size.max(scenario.stream().len() / 200)),
        Way::ProgramReadingShort(size),
        Way::Desk,
        Way::DeskWithFile,
        Way::DeskInPieces(size.max(scenario.stream().len() / 200)),
    ];
    if scenario.reports.len() < 12 {
        ways.push(Way::ProgramInPieces(1));
    }
    for way in ways {
        let path = trial.register(&scenario.register)?;
        let found = one_way(trial, scenario, way, &path)?;
        let case = format!(
            "{way:?}, {} units, {} reports",
            scenario.units(),
            scenario.reports.len()
        );
        trial.tally.count("without faults", &case, found);
    }
    Ok(())
}

fn one_way(
    trial: &Trial,
    scenario: &Scenario,
    way: Way,
    path: &Path,
) -> Result<Result<(), Complaint>, String> {
    let stream = scenario.stream();
    let (mut program, mut desk) = (trial.program("answer", path), trial.desk_answer(path));
    let run = match way {
        Way::Program => run(&mut program, Input::File(&stream)),
        Way::ProgramInPieces(size) => run(&mut program, Input::Pieces(&stream, size)),
        Way::ProgramReadingShort(size) => {
            counting(&mut program, &trial.room, &trial.program, size);
            run(&mut program, Input::File(&stream))
        }
        Way::Desk => run(&mut desk, Input::File(&stream)),
        Way::DeskWithFile => {
            let file = trial.room.file("stream");
            let written = std::fs::write(&file, &stream);
            written.map_err(|error| format!("no stream at {}: {error}", file.display()))?;
            run(desk.arg(file), Input::File(&[]))
        }
        Way::DeskInPieces(size) => run(&mut desk, Input::Pieces(&stream, size)),
    }?;
    Ok(agrees(scenario, &run, path).and_then(|()| nothing_beside(path)))
}

/// A run that ended well leaves the register and perhaps its lock.
fn nothing_beside(path: &Path) -> Result<(), Complaint> {
    let folder = path.parent().unwrap_or(path);
    let entries = std::fs::read_dir(folder).map_err(|error| other(error.to_string()))?;
    for entry in entries.flatten() {
        let name = entry.file_name().to_string_lossy().into_owned();
        if name != "register" && name != "register.lock" {
            return Err(other(format!("{name} was left")));
        }
    }
    Ok(())
}

/// A stream of refused reports calls nothing that changes a file, and the register is the same file as before.
pub fn refused_only(trial: &mut Trial) -> Result<(), String> {
    for _ in 0..5 * trial.rounds {
        for units in UNITS {
            let scenario = Scenario::random(&mut trial.random, units, 60).refused_only();
            let path = trial.register(&scenario.register)?;
            let read = trial.random.between(50..=3_000) as usize;
            let found = refused_case(trial, &scenario, read, &path);
            let case = format!("{units} units, {} reports", scenario.reports.len());
            trial.tally.count("refused reports only", &case, found);
        }
    }
    Ok(())
}

fn refused_case(
    trial: &Trial,
    scenario: &Scenario,
    read: usize,
    path: &Path,
) -> Result<(), Complaint> {
    let before = identity(path)?;
    let mut command = trial.program("answer", path);
    counting(&mut command, &trial.room, &trial.program, read);
    let run = run(&mut command, Input::File(&scenario.stream())).map_err(other)?;
    agrees(scenario, &run, path)?;
    if let Some(call) = counted(&trial.room).iter().find(|call| call.changes()) {
        return Err(other(format!("it called {call:?}")));
    }
    if identity(path)? != before {
        return Err(other("another file, or a later time"));
    }
    Ok(())
}

/// Inode and time.
fn identity(path: &Path) -> Result<(u64, i64, i64), Complaint> {
    let status = path.metadata().map_err(|error| other(error.to_string()))?;
    Ok((status.ino(), status.mtime(), status.mtime_nsec()))
}
