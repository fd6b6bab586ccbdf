//! Two writers at once, and a reader during writes.

use crate::run::{collect, run, start, Input, Run};
use crate::scenario::{Complaint, Scenario};
use crate::trial::{agrees, other, Trial, UNITS};
use reference::answer;
use std::io::Write;
use std::path::{Path, PathBuf};
use std::process::ChildStdin;
use std::sync::atomic::{AtomicBool, Ordering};
use std::thread;
use std::time::{Duration, Instant};

/// ./desk waits so long for another one.
const WAITS: Duration = Duration::from_secs(2);

/// Longer than that by far.
const LONG: Duration = Duration::from_secs(8);

/// Writers whose streams come at once, and one that waits for the other.
pub fn writers(trial: &mut Trial) -> Result<(), String> {
    for _ in 0..4 * trial.rounds {
        for units in UNITS {
            let (one, other) = two_streams(trial, units);
            let path = trial.register(&one.register)?;
            let found = at_once(trial, &one, &other, &path);
            let case = format!("{units} units");
            trial.tally.count("two writers at once", &case, found);
            if trial.tally.enough() {
                return Ok(());
            }
        }
    }
    for (held, kind) in [
        (300, "a writer waits for another"),
        (4_000, "a writer is told of another"),
    ] {
        let (one, other) = two_streams(trial, 2);
        let path = trial.register(&one.register)?;
        let found = behind(trial, &one, &other, Duration::from_millis(held), &path);
        trial.tally.count(kind, "2 units", found);
    }
    Ok(())
}

/// Two streams on one register.
fn two_streams(trial: &mut Trial, units: usize) -> (Scenario, Scenario) {
    let one = Scenario::random(&mut trial.random, units, 50);
    let mut other = one.clone();
    other.reports = one.reports.iter().rev().step_by(2).cloned().collect();
    (one, other)
}

fn in_pieces(trial: &Trial, scenario: &Scenario, path: &Path) -> Result<Run, String> {
    let stream = scenario.stream();
    run(&mut trial.desk_answer(path), Input::Pieces(&stream, 300))
}

/// One after the other, in either order, or one alone and a line for the other one.
fn at_once(trial: &Trial, one: &Scenario, other: &Scenario, path: &Path) -> Result<(), Complaint> {
    let (first, second) = thread::scope(|scope| {
        let first = scope.spawn(|| in_pieces(trial, one, path));
        let second = in_pieces(trial, other, path);
        (first.join(), second)
    });
    let first = first.map_err(|_| crate::trial::other("a run was lost"))?;
    let (first, second) = (
        first.map_err(crate::trial::other)?,
        second.map_err(crate::trial::other)?,
    );
    let file = std::fs::read(path).map_err(|_| Complaint::Torn)?;
    in_turn((one, &first), (other, &second), &file)
        .or_else(|_| in_turn((other, &second), (one, &first), &file))
}

/// The first stream from the register on, the second from where that ends.
fn in_turn(
    (one, first): (&Scenario, &Run),
    (second, run): (&Scenario, &Run),
    file: &[u8],
) -> Result<(), Complaint> {
    let (log, register) = one.outcome();
    if !first.good() || first.out != log {
        return Err(other(format!(
            "not in turn: {:?} and {:?}",
            first.err, run.err
        )));
    }
    let then = Scenario {
        register: register.clone(),
        ..second.clone()
    };
    let (log, last) = then.outcome();
    if run.good() && run.out == log && file == last {
        return Ok(());
    }
    run.refused_silently().map_err(other)?;
    if file == register {
        Ok(())
    } else {
        Err(Complaint::Torn)
    }
}

/// A writer that holds the register for a while, and one that comes after it.
fn behind(
    trial: &Trial,
    one: &Scenario,
    later: &Scenario,
    held: Duration,
    path: &Path,
) -> Result<(), Complaint> {
    let mut child = start(&mut trial.desk_answer(path)).map_err(other)?;
    let mut stdin = child.stdin.take();
    let stream = one.stream();
    let (early, late) = stream.split_at(stream.len() / 2);
    let fed_early = fed(&mut stdin, early);
    thread::sleep(Duration::from_millis(400));
    let (second, took, fed_late) = thread::scope(|scope| {
        let second = scope.spawn(|| timed(|| in_pieces(trial, later, path)));
        thread::sleep(held);
        let fed_late = fed(&mut stdin, late);
        drop(stdin.take());
        let lost = (Err("a run was lost".to_string()), LONG);
        let (second, took) = second.join().unwrap_or(lost);
        (second, took, fed_late)
    });
    let (first, second) = (collect(child), second.map_err(other)?);
    let file = std::fs::read(path).map_err(|_| Complaint::Torn)?;
    if !fed_early || !fed_late || took >= LONG {
        return Err(other(format!("the second one took {took:?}")));
    }
    if held < WAITS && !second.good() {
        return Err(other(format!("it did not wait, it said {:?}", second.err)));
    }
    in_turn((one, &first), (later, &second), &file)
}

fn fed(stdin: &mut Option<ChildStdin>, bytes: &[u8]) -> bool {
    let written = stdin.as_mut().map(|stdin| stdin.write_all(bytes));
    matches!(written, Some(Ok(())))
}

fn timed<T>(work: impl FnOnce() -> T) -> (T, Duration) {
    let begun = Instant::now();
    let done = work();
    (done, begun.elapsed())
}

/// Copies made at any time during writes are registers that the reference reached, in their order.
pub fn reader(trial: &mut Trial) -> Result<(), String> {
    for _ in 0..2 * trial.rounds {
        for units in UNITS {
            let scenario = Scenario::random(&mut trial.random, units, 120);
            let path = trial.register(&scenario.register)?;
            let (written, copies) = copied_during(trial, &scenario, &path);
            let found = written.and_then(|run| agrees(&scenario, &run, &path));
            trial
                .tally
                .count("read during writes", &format!("{units} units"), found);
            in_order(trial, &scenario, &copies);
        }
    }
    Ok(())
}

fn copied_during(
    trial: &Trial,
    scenario: &Scenario,
    path: &Path,
) -> (Result<Run, Complaint>, Vec<Vec<u8>>) {
    let ended = AtomicBool::new(false);
    thread::scope(|scope| {
        let copier = scope.spawn(|| copies(path.to_path_buf(), &ended));
        let stream = scenario.stream();
        let mut command = trial.program("answer", path);
        let run = run(&mut command, Input::Pieces(&stream, 200));
        ended.store(true, Ordering::SeqCst);
        (run.map_err(other), copier.join().unwrap_or_default())
    })
}

/// Copies that differ from the one before; one that can't be made is empty.
fn copies(path: PathBuf, ended: &AtomicBool) -> Vec<Vec<u8>> {
    let mut copies: Vec<Vec<u8>> = Vec::new();
    while !ended.load(Ordering::SeqCst) {
        let copy = std::fs::read(&path).unwrap_or_default();
        if copies.last() != Some(&copy) {
            copies.push(copy);
        }
    }
    copies
}

fn in_order(trial: &mut Trial, scenario: &Scenario, copies: &[Vec<u8>]) {
    let mut register = scenario.register.clone();
    let mut reports = scenario.reports.iter();
    for (copy, number) in copies.iter().zip(1..) {
        let mut found = Ok(());
        while register != *copy && found.is_ok() {
            match reports.next() {
                Some(report) => drop(answer(&mut register, report)),
                None => found = Err(Complaint::Torn),
            }
        }
        let torn = found.is_err();
        let case = format!("copy {number}, {} units", scenario.units());
        trial.tally.count("copies made during writes", &case, found);
        if torn {
            return;
        }
    }
}
