//! A fault, as the library in tests/crash.c takes it, and the calls that it has counted.

use crate::room::Room;
use std::fmt;
use std::path::Path;
use std::process::Command;

/// What happens at a call.
#[derive(Clone, Copy, Debug, PartialEq, Eq)]
pub enum Kind {
    /// The process ends before it.
    Before,
    /// The process ends after it.
    After,
    /// The process ends when half of the bytes are written.
    Half,
    /// It fails.
    Fail(Error),
    /// Half of the bytes are written; the file takes no more.
    Short(Error),
    /// It fails, and every later one of its name.
    Lasting(Error),
}

/// Why a call fails.
#[derive(Clone, Copy, Debug, PartialEq, Eq)]
pub enum Error {
    /// EINTR.
    Interrupted = 4,
    /// EIO.
    Device = 5,
    /// EFBIG.
    TooLarge = 27,
    /// ENOSPC.
    NoSpace = 28,
}

/// A fault at a call.
#[derive(Clone, Copy, Debug)]
pub struct Fault {
    /// What happens.
    pub kind: Kind,
    /// At which call, from 1; one more than there are is the end of the program.
    pub at: usize,
    /// With a power loss, by this seed.
    pub power: Option<u32>,
}

/// A call that was counted.
#[derive(Clone, Debug, PartialEq, Eq)]
pub struct Call {
    /// write, fsync, rename and so on.
    pub name: String,
    /// Its descriptor or path.
    pub what: String,
}

impl Call {
    /// Whether it writes to standard output or standard error.
    pub fn prints(&self) -> bool {
        self.name == "print"
    }

    /// Whether it can change a file or a folder.
    pub fn changes(&self) -> bool {
        let reads = ["read", "open", "fstat", "fsync"];
        !self.prints() && !reads.contains(&self.name.as_str())
    }

    /// Whether it is a write, wherever to.
    pub fn writes(&self) -> bool {
        self.prints() || self.name == "write"
    }

    /// Whether the register may be lost or old if it fails, so that the failure must be told.
    pub fn carries_the_register(&self) -> bool {
        let carriers = [
            "write",
            "print",
            "create",
            "fsync",
            "rename",
            "link",
            "ftruncate",
        ];
        carriers.contains(&self.name.as_str())
    }
}

impl Kind {
    fn word(self) -> &'static str {
        match self {
            Kind::Before => "before",
            Kind::After => "after",
            Kind::Half => "half",
            Kind::Fail(_) => "fail",
            Kind::Short(_) => "short",
            Kind::Lasting(_) => "lasting",
        }
    }

    fn error(self) -> i32 {
        match self {
            Kind::Fail(error) | Kind::Short(error) | Kind::Lasting(error) => error as i32,
            _ => 0,
        }
    }
}

impl fmt::Display for Fault {
    fn fmt(&self, f: &mut fmt::Formatter) -> fmt::Result {
        write!(f, "{:?} at call {}", self.kind, self.at)?;
        match self.power {
            Some(seed) => write!(f, ", power lost by seed {seed}"),
            None => Ok(()),
        }
    }
}

/// Has the library count the calls of a program, at most so many bytes at a time being read from standard input.
pub fn counting(command: &mut Command, room: &Room, program: &Path, read: usize) {
    let name = program.file_name().unwrap_or_default();
    let _ = std::fs::remove_file(room.file("trace"));
    command
        .env("LD_PRELOAD", room.library())
        .env("FAULT_PROGRAM", name)
        .env("FAULT_TRACE", room.file("trace"))
        .env("FAULT_KEEP", room.kept())
        .env("FAULT_READ", read.to_string());
}

/// Has the library bring a fault about.
pub fn with_fault(command: &mut Command, fault: Fault) {
    command
        .env("FAULT_AT", fault.at.to_string())
        .env("FAULT_KIND", fault.kind.word())
        .env("FAULT_ERRNO", fault.kind.error().to_string());
    if let Some(seed) = fault.power {
        command.env("FAULT_POWER", seed.to_string());
    }
}

/// Whether the call of a fault was reached, and is the one that was meant.
pub fn came_about(room: &Room, fault: Fault, call: &Call) -> bool {
    let calls = counted(room);
    let reached = calls.get(fault.at - 1);
    reached.is_some_and(|reached| reached.name == call.name)
}

/// The calls that were counted last.
pub fn counted(room: &Room) -> Vec<Call> {
    let trace = std::fs::read_to_string(room.file("trace")).unwrap_or_default();
    let calls = trace.lines().filter_map(|line| {
        let mut words = line.splitn(3, ' ').skip(1).map(str::to_string);
        Some(Call {
            name: words.next()?,
            what: words.next()?,
        })
    });
    calls.collect()
}
