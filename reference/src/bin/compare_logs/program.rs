//! The program under comparison: a stream to its standard input, its answer from standard output.

use std::ffi::OsStr;
use std::fs::File;
use std::io::Write;
use std::path::{Path, PathBuf};
use std::process::{ChildStdin, Command, Output, Stdio};
use std::time::Duration;

/// How a stream reaches the program.
#[derive(Clone, Copy)]
pub enum HandOver {
    /// Through a pipe, at once.
    AtOnce,
    /// Through a pipe, so many bytes at a time, so that reads come back short.
    InPieces(usize),
    /// As a file.
    AsFile,
}

/// What the program is asked for.
#[derive(Clone, Copy, PartialEq, Eq)]
pub enum Asked {
    /// The log: called without arguments.
    Log,
    /// The log with the remarks.
    Remarks,
}

impl Asked {
    /// Its name.
    pub fn name(self) -> &'static str {
        match self {
            Asked::Log => "log",
            Asked::Remarks => "remarks",
        }
    }

    fn arguments(self) -> &'static [&'static str] {
        match self {
            Asked::Log => &[],
            Asked::Remarks => &["remarks"],
        }
    }
}

/// A program that is there.
pub struct Program {
    path: PathBuf,
}

impl Program {
    /// The program at a path.
    pub fn at(path: &OsStr) -> Result<Program, String> {
        let shown = Path::new(path).display();
        let full = Path::new(path).canonicalize();
        match full {
            Ok(full) if full.is_file() => Ok(Program { path: full }),
            Ok(_) => Err(format!("{shown} is no program")),
            Err(error) => Err(format!("no program {shown}: {error}")),
        }
    }

    /// What the program gives for a stream.
    pub fn run(&self, asked: Asked, input: &[u8], by: HandOver) -> Result<Output, String> {
        let mut command = Command::new(&self.path);
        command.args(asked.arguments());
        let output = match by {
            HandOver::AtOnce => run_piped(&mut command, input, input.len().max(1)),
            HandOver::InPieces(size) => run_piped(&mut command, input, size),
            HandOver::AsFile => run_on_file(&mut command, input),
        };
        output.map_err(|error| format!("can't run {}: {error}", self.path.display()))
    }
}

fn run_on_file(command: &mut Command, input: &[u8]) -> std::io::Result<Output> {
    let name = format!("compare_logs-{}.stream", std::process::id());
    let path = std::env::temp_dir().join(name);
    std::fs::write(&path, input)?;
    let output = command.stdin(File::open(&path)?).output();
    std::fs::remove_file(&path)?;
    output
}

/// A thread writes while the output is read, so that neither pipe fills up for good.
fn run_piped(command: &mut Command, input: &[u8], size: usize) -> std::io::Result<Output> {
    let mut child = command
        .stdin(Stdio::piped())
        .stdout(Stdio::piped())
        .stderr(Stdio::piped())
        .spawn()?;
    let stdin = child.stdin.take();
    std::thread::scope(|scope| {
        scope.spawn(move || stdin.map(|stdin| write_in_pieces(stdin, input, size)));
        child.wait_with_output()
    })
}

/// A program may end before it has read all, so the first fault is the end.
fn write_in_pieces(mut stdin: ChildStdin, input: &[u8], size: usize) {
    const PAUSE: Duration = Duration::from_micros(20);
    let mut pieces = input.chunks(size).peekable();
    while let Some(piece) = pieces.next() {
        if stdin.write_all(piece).is_err() {
            return;
        }
        if pieces.peek().is_some() {
            std::thread::sleep(PAUSE);
        }
    }
}
