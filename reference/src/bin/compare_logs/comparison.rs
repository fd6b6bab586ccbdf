//! One stream given to both sides, and a difference in readable lines.

use crate::program::{Asked, HandOver, Program};
use crate::tally::Tally;
use reference::show::show;
use reference::{remarks, shift_log};
use std::fmt::Write;
use std::path::PathBuf;
use std::process::Output;

/// Why a stage ends early.
pub enum Fault {
    /// The logs differ.
    Differs(Box<Difference>),
    /// The program could not be run.
    CannotRun(String),
}

/// A stream for which the program did not give the reference's log.
pub struct Difference {
    asked: Asked,
    input: Vec<u8>,
    reference: Vec<u8>,
    program: Output,
}

/// The program beside the reference, and what was compared so far.
pub struct Comparison {
    program: Program,
    asked: Asked,
    tally: Tally,
    streams: u64,
    lines: u64,
}

impl Comparison {
    /// With nothing compared.
    pub fn with(program: Program) -> Comparison {
        Comparison {
            program,
            asked: Asked::Log,
            tally: Tally::default(),
            streams: 0,
            lines: 0,
        }
    }

    /// Streams and lines count from 0 again.
    pub fn start_stage(&mut self, asked: Asked) {
        self.asked = asked;
        (self.streams, self.lines) = (0, 0);
    }

    /// What the program is asked for.
    pub fn asked(&self) -> &'static str {
        self.asked.name()
    }

    /// What the stage compared.
    pub fn counts(&self) -> String {
        format!("{} streams, {} lines", self.streams, self.lines)
    }

    /// What occurred in all stages.
    pub fn tally(&self) -> &Tally {
        &self.tally
    }

    /// A stream handed over at once.
    pub fn stream(&mut self, input: &[u8]) -> Result<(), Fault> {
        self.stream_by(HandOver::AtOnce, input)
    }

    /// A stream handed over in some way.
    pub fn stream_by(&mut self, hand_over: HandOver, input: &[u8]) -> Result<(), Fault> {
        let program = self.program.run(self.asked, input, hand_over);
        let program = program.map_err(Fault::CannotRun)?;
        let reference = match self.asked {
            Asked::Log => shift_log(input),
            Asked::Remarks => remarks(input),
        };
        if program.stdout != reference || !program.status.success() {
            return Err(Fault::Differs(Box::new(Difference {
                asked: self.asked,
                input: input.to_vec(),
                reference,
                program,
            })));
        }
        self.streams += 1;
        self.lines += match self.asked {
            Asked::Log => self.tally.count(input, &reference),
            Asked::Remarks => self.tally.count_remarks(&reference),
        };
        Ok(())
    }
}

impl Difference {
    /// Writes the stream and both logs to files in target/; lines that name them.
    pub fn write_out(&self, number: u64) -> String {
        let folder = PathBuf::from("target");
        let name = self.asked.name();
        let stream = folder.join(format!("{name}-difference-{number}.stream"));
        let logs = folder.join(format!("{name}-difference-{number}.txt"));
        let written = std::fs::create_dir_all(&folder)
            .and_then(|()| std::fs::write(&stream, &self.input))
            .and_then(|()| std::fs::write(&logs, self.lines()));
        match written {
            Ok(()) => format!(
                "  the stream: {}\n  both logs: {}",
                stream.display(),
                logs.display()
            ),
            Err(error) => format!("  files not written: {error}\n{}", self.lines()),
        }
    }

    fn lines(&self) -> String {
        let mut text = format!("the program's status: {}\n", self.program.status);
        let reference = String::from_utf8_lossy(&self.reference);
        let program = self.program.stdout.escape_ascii().to_string();
        let program = program.replace("\\n", "\n");
        put_first_difference(&mut text, &reference, &program);
        let stream = show(&self.input).unwrap_or_else(|| "no known mark\n".to_string());
        let errors = String::from_utf8_lossy(&self.program.stderr);
        for (name, lines) in [
            ("the reference's log", &*reference),
            ("the program's log", &program),
            ("the program's standard error", &errors),
            ("the stream", &stream),
        ] {
            let _ = write!(text, "\n{name}\n{lines}");
        }
        text
    }
}

fn put_first_difference(text: &mut String, reference: &str, program: &str) {
    let one = reference.split('\n').map(Some).chain([None]);
    let other = program.split('\n').map(Some).chain([None]);
    let first = one
        .zip(other)
        .zip(1..)
        .find(|((one, other), _)| one != other);
    if let Some(((one, other), line)) = first {
        let shown =
            |line: Option<&str>| line.map_or("the end".to_string(), |line| format!("{line:?}"));
        let (one, other) = (shown(one), shown(other));
        let _ = writeln!(
            text,
            "line {line}: {one} in the reference, {other} in the program"
        );
    }
}
