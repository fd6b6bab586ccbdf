//! ./desk killed at some time, while a stream comes in bits.

use crate::run::{collect, kill, start, Run};
use crate::scenario::{Complaint, Scenario};
use crate::trial::{other, Trial, UNITS};
use std::io::Write;
use std::path::Path;
use std::process::{Child, ChildStdin};
use std::sync::atomic::{AtomicBool, AtomicUsize, Ordering};
use std::sync::mpsc::channel;
use std::thread;
use std::time::{Duration, Instant};

/// Between two pieces.
const PAUSE: Duration = Duration::from_micros(300);

/// What dies with ./desk is gone by then.
const SOON: Duration = Duration::from_secs(2);

/// What came of a kill: how many bytes were fed, whether the program ran by then, and whether it was gone soon after.
struct Killed {
    run: Run,
    fed: usize,
    running: bool,
    gone_soon: bool,
}

/// Kills of the whole group and of ./desk alone.
pub fn some_time(trial: &mut Trial) -> Result<(), String> {
    let mut with_lines = 0;
    for units in UNITS {
        let scenario = Scenario::random(&mut trial.random, units, 40);
        let whole = whole_run(trial, &scenario)?;
        for number in 0..30 * trial.rounds {
            let after = whole.mul_f64(f64::from(trial.random.below(1_000)) / 1_000.0);
            let group = number % 2 == 0;
            let lines = kill_after(trial, &scenario, after, group)?;
            with_lines += u32::from(lines > 0);
            if trial.tally.enough() {
                return Ok(());
            }
        }
    }
    let found = match with_lines {
        0 => Err(other("no kill came after a line")),
        _ => Ok(()),
    };
    trial
        .tally
        .count("some kills came after a line", "all", found);
    Ok(())
}

/// How long a run takes that nobody disturbs.
fn whole_run(trial: &Trial, scenario: &Scenario) -> Result<Duration, String> {
    let path = trial.register(&scenario.register)?;
    let begun = Instant::now();
    let mut child = start(&mut trial.desk_answer(&path))?;
    let stdin = child.stdin.take();
    let (fed, stop) = (AtomicUsize::new(0), AtomicBool::new(false));
    feed(stdin, &scenario.stream(), &fed, &stop);
    collect(child);
    Ok(begun.elapsed())
}

/// Pieces of about half a report; the pipe, so that it is closed when the caller says.
fn feed(
    mut stdin: Option<ChildStdin>,
    stream: &[u8],
    fed: &AtomicUsize,
    stop: &AtomicBool,
) -> Option<ChildStdin> {
    for piece in stream.chunks(45) {
        if stop.load(Ordering::SeqCst) {
            break;
        }
        fed.fetch_add(piece.len(), Ordering::SeqCst);
        let written = stdin.as_mut().map(|stdin| stdin.write_all(piece));
        if !matches!(written, Some(Ok(()))) {
            break;
        }
        thread::sleep(PAUSE);
    }
    stdin
}

/// How many lines were printed by then.
fn kill_after(
    trial: &mut Trial,
    scenario: &Scenario,
    after: Duration,
    group: bool,
) -> Result<usize, String> {
    let path = trial.register(&scenario.register)?;
    let child = start(&mut trial.desk_answer(&path))?;
    let name = trial
        .program
        .file_name()
        .unwrap_or_default()
        .to_string_lossy();
    let killed = killed(child, &scenario.stream(), after, group, &name);
    let found = judge(trial, scenario, &killed, &path);
    let case = format!("after {after:?}, {} units", scenario.units());
    let kind = match (group, killed.running) {
        (true, _) => "process group killed at some time",
        (false, true) => "./desk alone killed while the program runs",
        (false, false) => "./desk alone killed while it starts",
    };
    trial.tally.count(kind, &case, found);
    Ok(scenario.printed_lines(&killed.run.out).unwrap_or(0))
}

/// Standard input stays open until the program is gone, so that its end does not end the program.
fn killed(mut child: Child, stream: &[u8], after: Duration, group: bool, name: &str) -> Killed {
    let (fed, stop) = (AtomicUsize::new(0), AtomicBool::new(false));
    let (id, stdin) = (child.id(), child.stdin.take());
    thread::scope(|scope| {
        let feeder = scope.spawn(|| feed(stdin, stream, &fed, &stop));
        thread::sleep(after);
        let running = runs(id, name);
        kill(id, group);
        stop.store(true, Ordering::SeqCst);
        let (gone, waiting) = channel();
        let collector = scope.spawn(move || {
            let run = collect(child);
            let _ = gone.send(());
            run
        });
        let gone_soon = waiting.recv_timeout(SOON).is_ok();
        kill(id, true);
        drop(feeder.join());
        let run = collector.join().unwrap_or(Run {
            out: Vec::new(),
            err: String::new(),
            status: None,
        });
        Killed {
            run,
            fed: fed.load(Ordering::SeqCst),
            running,
            gone_soon,
        }
    })
}

/// Whether the program is among the processes of a group by now.
fn runs(group: u32, name: &str) -> bool {
    // The kernel keeps 15 bytes of a name.
    let name = &name[..name.len().min(15)];
    let processes = std::fs::read_dir("/proc").into_iter().flatten().flatten();
    let mut states =
        processes.filter_map(|process| std::fs::read_to_string(process.path().join("stat")).ok());
    states.any(|state| is_program(&state, group, name))
}

/// "id (name) state parent group ..".
fn is_program(state: &str, group: u32, name: &str) -> bool {
    let Some((start, rest)) = state.rsplit_once(')') else {
        return false;
    };
    let in_group = rest.split_whitespace().nth(2) == Some(&group.to_string());
    in_group && start.split_once('(').is_some_and(|(_, comm)| comm == name)
}

fn judge(
    trial: &Trial,
    scenario: &Scenario,
    killed: &Killed,
    path: &Path,
) -> Result<(), Complaint> {
    let file = std::fs::read(path).map_err(|_| Complaint::Torn)?;
    let fed = scenario.fed(killed.fed);
    let done = scenario.reached(&killed.run.out, fed, &file)?;
    // Killed between its fork and the word that its end is to kill the program, ./desk can leave one behind, which has the lock.
    if !killed.gone_soon && killed.running {
        return Err(other("the program lives on without ./desk"));
    }
    trial.goes_on(scenario, done, path)
}
