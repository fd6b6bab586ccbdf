//! The program killed at a call, with and without a loss of power.

use crate::fault::{counting, with_fault, Call, Fault, Kind};
use crate::run::{run, Input};
use crate::scenario::{Complaint, Scenario};
use crate::trial::{other, Trial, UNITS};

/// Power is lost so often at each call, each time differently.
const LOSSES: u32 = 2;

/// Every call of a short run.
pub fn every_call(trial: &mut Trial) -> Result<(), String> {
    for units in UNITS {
        let scenario = Scenario::random(&mut trial.random, units, 7);
        let read = trial.random.between(60..=400) as usize;
        let calls = trial.calls(&scenario, read)?;
        for at in 1..=calls.len() + 1 {
            for fault in faults_at(trial, &calls, at) {
                crash(trial, &scenario, fault, at > calls.len(), read)?;
            }
            if trial.tally.enough() {
                return Ok(());
            }
        }
    }
    Ok(())
}

/// Whether it matters on which side of the call the end comes.
fn leaves_traces(call: &Call) -> bool {
    call.prints() || call.changes() || call.name == "fsync"
}

/// The ways to end at a call; beyond the last one, a loss of power when all is done.
fn faults_at(trial: &mut Trial, calls: &[Call], at: usize) -> Vec<Fault> {
    let kinds: &[Kind] = match calls.get(at - 1) {
        None => &[Kind::Before],
        Some(call) if call.writes() => &[Kind::Before, Kind::Half, Kind::After],
        Some(call) if leaves_traces(call) => &[Kind::Before, Kind::After],
        Some(_) => &[],
    };
    let mut faults = Vec::new();
    for &kind in kinds {
        if at <= calls.len() {
            faults.push(Fault {
                kind,
                at,
                power: None,
            });
        }
        for _ in 0..LOSSES {
            let power = Some(trial.random.bits() as u32);
            faults.push(Fault { kind, at, power });
        }
    }
    faults
}

/// Calls here and there in longer runs.
pub fn some_call(trial: &mut Trial) -> Result<(), String> {
    for _ in 0..5 * trial.rounds {
        for units in UNITS {
            let reports = trial.random.between(20..=80) as usize;
            let scenario = Scenario::random(&mut trial.random, units, reports);
            let scenario = scenario.perhaps_broken(&mut trial.random);
            let read = trial.random.between(60..=5_000) as usize;
            let calls = trial.calls(&scenario, read)?;
            let telling = |at: &usize| calls.get(at - 1).is_none_or(leaves_traces);
            let places: Vec<usize> = (1..=calls.len() + 1).filter(telling).collect();
            for _ in 0..8 {
                let at = trial.random.pick(&places);
                let faults = faults_at(trial, &calls, at);
                let fault = trial.random.pick(&faults);
                crash(trial, &scenario, fault, at > calls.len(), read)?;
            }
            if trial.tally.enough() {
                return Ok(());
            }
        }
    }
    Ok(())
}

fn name(fault: Fault) -> &'static str {
    match (fault.kind, fault.power) {
        (Kind::Half, None) => "killed half way in a write",
        (Kind::Before, None) => "killed before a call",
        (_, None) => "killed after a call",
        (Kind::Half, Some(_)) => "power lost half way in a write",
        (Kind::Before, Some(_)) => "power lost before a call, or at the end",
        (_, Some(_)) => "power lost after a call",
    }
}

/// The program alone or, one time in five, beneath ./desk, which then has a status that is not 0.
fn crash(
    trial: &mut Trial,
    scenario: &Scenario,
    fault: Fault,
    at_the_end: bool,
    read: usize,
) -> Result<(), String> {
    let path = trial.register(&scenario.register)?;
    let through_desk = trial.random.percent(20);
    let mut command = if through_desk {
        trial.desk_answer(&path)
    } else {
        trial.program("answer", &path)
    };
    counting(&mut command, &trial.room, &trial.program, read);
    with_fault(&mut command, fault);
    let run = run(&mut command, Input::File(&scenario.stream()))?;
    let ended = at_the_end || run.killed() || (through_desk && !run.succeeded());
    let found = match std::fs::read(&path) {
        _ if !ended || !run.err.is_empty() => Err(other(format!(
            "status {:?}, it said {:?}",
            run.status, run.err
        ))),
        Ok(file) => scenario.reached(&run.out, scenario.reports.len(), &file),
        Err(_) => Err(Complaint::Torn),
    };
    let found = found.and_then(|done| trial.goes_on(scenario, done, &path));
    let case = format!(
        "{fault}, {} units, {read} bytes at a time",
        scenario.units()
    );
    trial.tally.count(name(fault), &case, found);
    Ok(())
}
