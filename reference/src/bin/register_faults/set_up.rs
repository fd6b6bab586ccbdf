//! Set-up: rosters that are none, registers that are there, and faults at every call.

use crate::failures::{kinds, may_pass, name};
use crate::fault::{came_about, counted, counting, with_fault, Call, Fault, Kind};
use crate::run::{run, Input, Run};
use crate::scenario::{Complaint, Scenario};
use crate::trial::{other, Trial, UNITS};
use reference::register::{BLOCK_SIZE, MAX_UNITS};
use reference::roster::{question_20_roster_good, ENTRY_SIZE};
use reference::set_up as reference_set_up;
use reference::source::{damaged_roster, roster};
use std::fs;
use std::os::unix::fs::symlink;
use std::path::{Path, PathBuf};
use std::thread;

/// ./desk set-up on a file with this roster.
fn set_up(trial: &Trial, roster: &[u8], path: &Path) -> Result<Run, Complaint> {
    let file = trial.room.file("roster");
    fs::write(&file, roster).map_err(|error| other(error.to_string()))?;
    run(trial.desk("set-up").arg(file).arg(path), Input::File(&[])).map_err(other)
}

/// The register that the reference sets up.
fn register_of(roster: &[u8]) -> Vec<u8> {
    let mut register = vec![0; roster.len() / ENTRY_SIZE * BLOCK_SIZE];
    reference_set_up(roster, &mut register);
    register
}

fn said(units: usize) -> String {
    format!("units set up: {units}\n")
}

/// What ./desk prints of a good one, and the register.
fn made(run: &Run, roster: &[u8], path: &Path) -> Result<(), Complaint> {
    let line = said(roster.len() / ENTRY_SIZE);
    if !run.good() || run.out != line.as_bytes() {
        let out = String::from_utf8_lossy(&run.out);
        return Err(other(format!("it printed {out:?} and said {:?}", run.err)));
    }
    match fs::read(path) {
        Ok(file) if file == register_of(roster) => Ok(()),
        _ => Err(Complaint::Torn),
    }
}

/// One line, a status, nothing printed, no register.
fn not_made(run: &Run, path: &Path) -> Result<(), Complaint> {
    run.refused().map_err(other)?;
    if !run.out.is_empty() || path.symlink_metadata().is_ok() {
        return Err(other("something was printed or made"));
    }
    Ok(())
}

/// Good and bad rosters, and registers that are there.
pub fn refusals(trial: &mut Trial) -> Result<(), String> {
    for _ in 0..20 * trial.rounds {
        let good = roster(&mut trial.random, MAX_UNITS);
        let damaged = damaged_roster(&mut trial.random, &good);
        for bytes in [good, damaged] {
            one_roster(trial, "random, or damaged", &bytes);
        }
    }
    let good = Scenario::random(&mut trial.random, 2, 0).roster;
    let bad = [
        ("no entry", Vec::new()),
        ("an entry cut short", good[..ENTRY_SIZE + 1].to_vec()),
        ("65 entries", good[..ENTRY_SIZE].repeat(MAX_UNITS + 1)),
        ("entries and a byte", [&good[..], &[0]].concat()),
        (
            "reports",
            reference::worked_examples::roster_a_reports().concat(),
        ),
        ("64 entries", good[..ENTRY_SIZE].repeat(MAX_UNITS)),
        ("a million bytes", vec![0x4A; 1_000_000]),
    ];
    for (name, bytes) in bad {
        one_roster(trial, name, &bytes);
    }
    existing(trial, &good);
    both_at_once(trial);
    no_roster_file(trial, &good);
    Ok(())
}

fn one_roster(trial: &mut Trial, name: &str, roster: &[u8]) {
    let path = trial.room.case().join("register");
    let good = question_20_roster_good(roster).is_some();
    let found = set_up(trial, roster, &path).and_then(|run| {
        if good {
            return made(&run, roster, &path);
        }
        not_made(&run, &path)?;
        match run.err.contains("roster 20: ") {
            true => Ok(()),
            false => Err(other(format!("it said {:?}", run.err))),
        }
    });
    let kind = if good {
        "set-up of a good roster"
    } else {
        "set-up of a bad roster"
    };
    trial.tally.count(kind, name, found);
}

/// Whatever is there stays.
fn existing(trial: &mut Trial, roster: &[u8]) {
    for bytes in [&b""[..], b"something else", &register_of(roster)] {
        let path = trial.room.case().join("register");
        let found = fs::write(&path, bytes).map_err(|error| other(error.to_string()));
        let found = found.and_then(|()| set_up(trial, roster, &path)?.refused().map_err(other));
        let found = found.and_then(|()| match fs::read(&path) {
            Ok(file) if file == bytes => Ok(()),
            _ => Err(other("it was overwritten")),
        });
        let case = format!("{} bytes", bytes.len());
        trial.tally.count("set-up where a file is", &case, found);
    }
    let path = trial.room.case().join("register");
    let _ = fs::create_dir(&path);
    let found = set_up(trial, roster, &path).and_then(|run| run.refused().map_err(other));
    trial
        .tally
        .count("set-up where a file is", "a folder", found);
    let found = link_to_nothing(trial, roster);
    trial
        .tally
        .count("set-up where a file is", "a link to nothing", found);
}

/// It is refused, or followed: the link stays, and the register is where it leads.
fn link_to_nothing(trial: &Trial, roster: &[u8]) -> Result<(), Complaint> {
    let path = trial.room.case().join("register");
    let target = path.with_file_name("target");
    let _ = symlink("target", &path);
    let run = set_up(trial, roster, &path)?;
    let is_link = path.is_symlink();
    if run.good() && is_link {
        return made(&run, roster, &target);
    }
    run.refused().map_err(other)?;
    if is_link && !target.exists() {
        Ok(())
    } else {
        Err(other("the link or its target was changed"))
    }
}

fn no_roster_file(trial: &mut Trial, roster: &[u8]) {
    let case = trial.room.case();
    let _ = fs::write(case.join("roster"), roster);
    let paths: [(&str, PathBuf, PathBuf); 4] = [
        ("no roster", case.join("missing"), case.join("register")),
        ("a folder as roster", case.clone(), case.join("register")),
        (
            "no folder",
            case.join("roster"),
            case.join("missing/register"),
        ),
        ("an empty name", case.join("roster"), PathBuf::new()),
    ];
    for (name, roster, path) in paths {
        let run = run(
            trial.desk("set-up").arg(roster).arg(&path),
            Input::File(&[]),
        );
        let found = run.map_err(other).and_then(|run| not_made(&run, &path));
        trial
            .tally
            .count("set-up without a roster or a folder", name, found);
    }
}

/// Of two at once one makes the register, and the other one is told.
fn both_at_once(trial: &mut Trial) {
    for _ in 0..10 * trial.rounds {
        let rosters = [1, 8].map(|units| Scenario::random(&mut trial.random, units, 0).roster);
        let path = trial.room.case().join("register");
        let files = [trial.room.file("roster-1"), trial.room.file("roster-2")];
        for (file, roster) in files.iter().zip(&rosters) {
            let _ = fs::write(file, roster);
        }
        let one = |file: &Path| run(trial.desk("set-up").arg(file).arg(&path), Input::File(&[]));
        let runs = thread::scope(|scope| {
            let first = scope.spawn(|| one(&files[0]));
            let second = one(&files[1]);
            [
                first.join().unwrap_or(Err("a run was lost".to_string())),
                second,
            ]
        });
        let found = one_won(&runs, &rosters, &path);
        trial
            .tally
            .count("two set-ups at once", "1 and 8 units", found);
    }
}

fn one_won(
    runs: &[Result<Run, String>; 2],
    rosters: &[Vec<u8>; 2],
    path: &Path,
) -> Result<(), Complaint> {
    let [Ok(one), Ok(two)] = runs else {
        return Err(other("a run was lost"));
    };
    let [first, second] = rosters;
    let (won, lost, roster) = if one.good() {
        (one, two, first)
    } else {
        (two, one, second)
    };
    lost.refused().map_err(other)?;
    made(won, roster, path)
}

/// Killed, without power and failing at every call: no register or the whole one, and then a new set-up or none.
pub fn faults(trial: &mut Trial) -> Result<(), String> {
    for units in UNITS {
        let roster = Scenario::random(&mut trial.random, units, 0).roster;
        let calls = calls(trial, &roster)?;
        for at in 1..=calls.len() + 1 {
            killed_at(trial, &roster, &calls, at)?;
            if let Some(call) = calls.get(at - 1) {
                for &kind in kinds(call) {
                    failing(
                        trial,
                        &roster,
                        call,
                        Fault {
                            kind,
                            at,
                            power: None,
                        },
                    )?;
                }
            }
            if trial.tally.enough() {
                return Ok(());
            }
        }
    }
    Ok(())
}

fn calls(trial: &Trial, roster: &[u8]) -> Result<Vec<Call>, String> {
    let path = trial.room.case().join("register");
    let mut command = trial.program("set-up", &path);
    counting(&mut command, &trial.room, &trial.program, 0);
    run(&mut command, Input::File(roster))?;
    Ok(counted(&trial.room))
}

fn killed_at(trial: &mut Trial, roster: &[u8], calls: &[Call], at: usize) -> Result<(), String> {
    let changes = calls
        .get(at - 1)
        .is_none_or(|call| call.changes() || call.name == "fsync");
    let writes = calls.get(at - 1).is_some_and(Call::writes);
    for kind in [Kind::Before, Kind::Half, Kind::After] {
        if !writes && (!changes || kind == Kind::Half) {
            continue;
        }
        let power = Some(trial.random.bits() as u32);
        for power in [None, power] {
            let fault = Fault { kind, at, power };
            let path = trial.room.case().join("register");
            let mut command = trial.program("set-up", &path);
            counting(&mut command, &trial.room, &trial.program, 0);
            with_fault(&mut command, fault);
            let run = run(&mut command, Input::File(roster))?;
            let found = match run.killed() || at > calls.len() {
                true => all_or_nothing(trial, &run, roster, &path),
                false => Err(other("it was not killed")),
            };
            let name = match power {
                None => "set-up killed",
                Some(_) => "set-up without power",
            };
            trial.tally.count(name, &fault.to_string(), found);
        }
    }
    Ok(())
}

/// A line that was printed means a register; without one set-up is tried again.
fn all_or_nothing(trial: &Trial, run: &Run, roster: &[u8], path: &Path) -> Result<(), Complaint> {
    let line = said(roster.len() / ENTRY_SIZE);
    if !line.as_bytes().starts_with(&run.out) {
        return Err(other("it printed something else"));
    }
    match fs::read(path) {
        Ok(file) if file == register_of(roster) => Ok(()),
        Ok(_) => Err(Complaint::Torn),
        Err(_) if run.out == line.as_bytes() => Err(Complaint::Lost(1)),
        Err(_) => set_up(trial, roster, path).and_then(|run| made(&run, roster, path)),
    }
}

fn failing(trial: &mut Trial, roster: &[u8], call: &Call, fault: Fault) -> Result<(), String> {
    let path = trial.room.case().join("register");
    let file = trial.room.file("roster");
    fs::write(&file, roster).map_err(|error| error.to_string())?;
    let mut command = trial.desk("set-up");
    counting(command.arg(file).arg(&path), &trial.room, &trial.program, 0);
    with_fault(&mut command, fault);
    let run = run(&mut command, Input::File(&[]))?;
    let found = if !came_about(&trial.room, fault, call) {
        Err(other(format!(
            "the call was not reached; it said {:?}",
            run.err
        )))
    } else if run.good() && may_pass(call, fault.kind) {
        made(&run, roster, &path)
    } else {
        let refused = run.refused().map_err(other);
        refused.and_then(|()| all_or_nothing(trial, &run, roster, &path))
    };
    let case = format!("{fault} ({call:?})");
    trial
        .tally
        .count(&format!("set-up: {}", name(call, fault.kind)), &case, found);
    Ok(())
}
