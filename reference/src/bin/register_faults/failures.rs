//! Calls that fail: a full disk, a limit on a file's size, a broken device, an interrupted call.

use crate::fault::{came_about, counting, with_fault, Call, Error, Fault, Kind};
use crate::run::{run, Input, Run};
use crate::scenario::{Complaint, Scenario};
use crate::trial::{agrees, other, Trial, UNITS};
use std::path::Path;

/// Every call of a short run.
pub fn every_call(trial: &mut Trial) -> Result<(), String> {
    for units in [1, 64] {
        let scenario = Scenario::random(&mut trial.random, units, 4);
        let read = trial.random.between(60..=400) as usize;
        let calls = trial.calls(&scenario, read)?;
        for (call, at) in calls.iter().zip(1..) {
            for &kind in kinds(call) {
                failure(
                    trial,
                    &scenario,
                    call,
                    Fault {
                        kind,
                        at,
                        power: None,
                    },
                    read,
                )?;
            }
            if trial.tally.enough() {
                return Ok(());
            }
        }
    }
    Ok(())
}

/// Calls here and there in longer runs.
pub fn some_call(trial: &mut Trial) -> Result<(), String> {
    for _ in 0..5 * trial.rounds {
        for units in UNITS {
            let reports = trial.random.between(20..=80) as usize;
            let scenario = Scenario::random(&mut trial.random, units, reports);
            let scenario = scenario.perhaps_broken(&mut trial.random);
            let read = trial.random.between(60..=5_000) as usize;
            let calls = trial.calls(&scenario, read)?;
            for _ in 0..5 {
                let at = trial.random.between(1..=calls.len() as u32) as usize;
                let call = &calls[at - 1];
                let kind = trial.random.pick(kinds(call));
                failure(
                    trial,
                    &scenario,
                    call,
                    Fault {
                        kind,
                        at,
                        power: None,
                    },
                    read,
                )?;
            }
            if trial.tally.enough() {
                return Ok(());
            }
        }
    }
    Ok(())
}

/// How a call can fail.
pub fn kinds(call: &Call) -> &'static [Kind] {
    use Error::{Device, Interrupted, NoSpace, TooLarge};
    use Kind::{Fail, Lasting, Short};
    match call.name.as_str() {
        "print" => &[Fail(NoSpace), Fail(Interrupted)],
        "write" => &[
            Fail(NoSpace),
            Fail(Device),
            Short(NoSpace),
            Short(TooLarge),
            Lasting(NoSpace),
            Fail(Interrupted),
        ],
        "create" | "rename" | "link" => &[Fail(NoSpace), Fail(Device), Fail(Interrupted)],
        "fsync" => &[
            Fail(NoSpace),
            Fail(Device),
            Lasting(Device),
            Fail(Interrupted),
        ],
        _ => &[Fail(Device), Fail(Interrupted)],
    }
}

/// The row of the table.
pub fn name(call: &Call, kind: Kind) -> &'static str {
    match kind {
        Kind::Fail(Error::Interrupted) => "interrupted call",
        _ if call.prints() => "standard output can't be written",
        Kind::Short(Error::TooLarge) => "write cut short, then EFBIG",
        Kind::Short(_) => "write cut short, then ENOSPC",
        Kind::Fail(Error::NoSpace) | Kind::Lasting(Error::NoSpace) => "call fails with ENOSPC",
        _ => "call fails with EIO",
    }
}

/// Whether a run in spite of the failure is as good as any: an interrupted call, or one that nothing hangs on.
pub fn may_pass(call: &Call, kind: Kind) -> bool {
    kind == Kind::Fail(Error::Interrupted) || !call.carries_the_register()
}

fn failure(
    trial: &mut Trial,
    scenario: &Scenario,
    call: &Call,
    fault: Fault,
    read: usize,
) -> Result<(), String> {
    let path = trial.register(&scenario.register)?;
    let mut command = trial.desk_answer(&path);
    counting(&mut command, &trial.room, &trial.program, read);
    with_fault(&mut command, fault);
    let run = run(&mut command, Input::File(&scenario.stream()))?;
    let found = if came_about(&trial.room, fault, call) {
        judge(trial, scenario, &run, may_pass(call, fault.kind), &path)
    } else {
        Err(other(format!(
            "the call was not reached; it said {:?}",
            run.err
        )))
    };
    let case = format!(
        "{fault} ({call:?}), {} units, {read} bytes at a time",
        scenario.units()
    );
    trial.tally.count(name(call, fault.kind), &case, found);
    Ok(())
}

fn judge(
    trial: &Trial,
    scenario: &Scenario,
    run: &Run,
    may_pass: bool,
    path: &Path,
) -> Result<(), Complaint> {
    let file = std::fs::read(path).map_err(|_| Complaint::Torn)?;
    let done = scenario.reached(&run.out, scenario.reports.len(), &file)?;
    if run.good() && may_pass {
        agrees(scenario, run, path)?;
    } else {
        run.refused().map_err(other)?;
    }
    trial.goes_on(scenario, done, path)
}
