//! The program and ./desk, and what a case of any stage does with them.

use crate::fault::{counted, counting, Call};
use crate::room::Room;
use crate::run::{run, Input, Run};
use crate::scenario::{Complaint, Scenario};
use crate::tally::Tally;
use reference::random::Random;
use std::path::{Path, PathBuf};
use std::process::Command;

/// Registers of so many units are tried.
pub const UNITS: [usize; 4] = [1, 2, 8, 64];

/// What is tried, and what was found so far.
pub struct Trial {
    desk: PathBuf,
    /// The program beneath ./desk.
    pub program: PathBuf,
    /// The folder for the cases.
    pub room: Room,
    /// Where chances come from.
    pub random: Random,
    /// What was found.
    pub tally: Tally,
    /// How often random cases are tried.
    pub rounds: u32,
}

/// A complaint in words.
pub fn other(text: impl Into<String>) -> Complaint {
    Complaint::Other(text.into())
}

fn found(path: &str) -> Result<PathBuf, String> {
    let full = Path::new(path).canonicalize();
    full.map_err(|error| format!("no program {path}: {error}"))
}

impl Trial {
    /// Of ./desk and the program beneath it.
    pub fn of(desk: &str, program: &str, rounds: u32, random: Random) -> Result<Trial, String> {
        Ok(Trial {
            desk: found(desk)?,
            program: found(program)?,
            room: Room::new()?,
            random,
            tally: Tally::default(),
            rounds,
        })
    }

    /// The program with a word and a register.
    pub fn program(&self, word: &str, register: &Path) -> Command {
        let mut command = Command::new(&self.program);
        command.arg(word).arg(register);
        command
    }

    /// ./desk with a word.
    pub fn desk(&self, word: &str) -> Command {
        let mut command = Command::new(&self.desk);
        command.arg(word);
        command
    }

    /// ./desk answers standard input.
    pub fn desk_answer(&self, register: &Path) -> Command {
        let mut command = self.desk("answer");
        command.arg(register);
        command
    }

    /// An empty folder with a register.
    pub fn register(&self, bytes: &[u8]) -> Result<PathBuf, String> {
        let path = self.room.case().join("register");
        let written = std::fs::write(&path, bytes);
        written.map_err(|error| format!("no register at {}: {error}", path.display()))?;
        Ok(path)
    }

    /// The calls of a run without faults; from the start again, so that they come in the same order.
    pub fn calls(&self, scenario: &Scenario, read: usize) -> Result<Vec<Call>, String> {
        let path = self.register(&scenario.register)?;
        let mut command = self.program("answer", &path);
        counting(&mut command, &self.room, &self.program, read);
        run(&mut command, Input::File(&scenario.stream()))?;
        let calls = counted(&self.room);
        if calls.is_empty() {
            return Err("no call was counted: is the program linked to the C library?".to_string());
        }
        Ok(calls)
    }

    /// The rest of a scenario, as if nothing had happened.
    pub fn goes_on(&self, scenario: &Scenario, from: usize, path: &Path) -> Result<(), Complaint> {
        let rest = scenario.rest(from);
        let mut command = self.program("answer", path);
        let run = run(&mut command, Input::File(&rest.stream())).map_err(other)?;
        let went_on = agrees(&rest, &run, path);
        went_on.map_err(|complaint| match complaint {
            Complaint::Other(text) => other(format!("afterwards, from report {from}: {text}")),
            complaint => complaint,
        })
    }
}

/// The log and the register are the reference's.
pub fn agrees(scenario: &Scenario, run: &Run, path: &Path) -> Result<(), Complaint> {
    let (log, register) = scenario.outcome();
    if !run.good() {
        return Err(other(format!(
            "status {:?}, it said {:?}",
            run.status, run.err
        )));
    }
    if run.out != log {
        let shown = String::from_utf8_lossy(&run.out).into_owned();
        return Err(other(format!("another log: {shown}")));
    }
    match std::fs::read(path) {
        Ok(file) if file == register => Ok(()),
        Ok(_) => Err(Complaint::Torn),
        Err(error) => Err(other(format!("no register afterwards: {error}"))),
    }
}
