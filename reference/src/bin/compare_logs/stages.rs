//! The stages: which streams are compared.

use crate::comparison::{Comparison, Fault};
use crate::program::HandOver;
use crate::streams::{cut, few, Stream, DAMAGES};
use reference::random::Random;
use reference::roster::ENTRY_MARK;
use reference::sample::{sample, samples};
use reference::source::{damaged_roster, roster};

/// A stage.
pub struct Stage {
    /// Its name.
    pub name: &'static str,
    /// Runs it.
    pub run: fn(&mut Random, &mut Comparison) -> Result<(), Fault>,
}

/// All stages.
pub const STAGES: [Stage; 9] = [
    Stage {
        name: "named samples",
        run: named_samples,
    },
    Stage {
        name: "whole streams",
        run: whole_streams,
    },
    Stage {
        name: "long streams",
        run: long_streams,
    },
    Stage {
        name: "every start of a stream",
        run: every_start,
    },
    Stage {
        name: "every byte of a stream changed",
        run: every_byte,
    },
    Stage {
        name: "streams cut short",
        run: cut_streams,
    },
    Stage {
        name: "damaged streams",
        run: damaged_streams,
    },
    Stage {
        name: "damaged rosters",
        run: damaged_rosters,
    },
    Stage {
        name: "in pieces and as files",
        run: handed_over,
    },
];

/// The registers among them are input like any other: "roster 20".
fn named_samples(_: &mut Random, comparison: &mut Comparison) -> Result<(), Fault> {
    for sample in samples() {
        comparison.stream(&sample.bytes)?;
    }
    Ok(())
}

fn whole_streams(random: &mut Random, comparison: &mut Comparison) -> Result<(), Fault> {
    const STREAMS: u32 = 800;
    for _ in 0..STREAMS {
        let reports = few(random);
        comparison.stream(&Stream::random(random, reports).bytes())?;
    }
    Ok(())
}

/// Thousands of reports, the last stream ending early.
fn long_streams(random: &mut Random, comparison: &mut Comparison) -> Result<(), Fault> {
    const STREAMS: u32 = 6;
    for index in 1..=STREAMS {
        let mut stream = Stream::random(random, 1_000 * index);
        if index == STREAMS {
            stream.reports.push(vec![0; 70_000]);
        }
        comparison.stream(&stream.bytes())?;
    }
    Ok(())
}

/// Roster A's stream with the text "shift" in its first report.
fn small_stream() -> Vec<u8> {
    const TEXT: &[u8] = b"shift";
    const TEXT_LENGTH: usize = 2 * 28 + 44;
    const TEXT_START: usize = 2 * 28 + 48 + 16 + 2;
    let mut stream = sample("roster-a-log").unwrap_or_default();
    stream[TEXT_LENGTH] = TEXT.len() as u8;
    stream.splice(TEXT_START..TEXT_START, TEXT.iter().copied());
    stream
}

fn every_start(_: &mut Random, comparison: &mut Comparison) -> Result<(), Fault> {
    let stream = small_stream();
    for end in 0..=stream.len() {
        comparison.stream(&stream[..end])?;
    }
    Ok(())
}

fn every_byte(_: &mut Random, comparison: &mut Comparison) -> Result<(), Fault> {
    let mut stream = small_stream();
    for at in 0..stream.len() {
        let byte = stream[at];
        for changed in [byte.wrapping_add(1), byte ^ 0x80] {
            stream[at] = changed;
            comparison.stream(&stream)?;
        }
        stream[at] = byte;
    }
    Ok(())
}

fn cut_streams(random: &mut Random, comparison: &mut Comparison) -> Result<(), Fault> {
    const STREAMS: u32 = 600;
    for _ in 0..STREAMS {
        let reports = few(random);
        let stream = Stream::random(random, reports);
        comparison.stream(&cut(random, &stream))?;
    }
    Ok(())
}

/// Each kind of damage equally often.
fn damaged_streams(random: &mut Random, comparison: &mut Comparison) -> Result<(), Fault> {
    const STREAMS_EACH: u32 = 70;
    for damage in DAMAGES {
        for _ in 0..STREAMS_EACH {
            let reports = few(random);
            let mut stream = Stream::random(random, reports);
            damage(random, &mut stream);
            comparison.stream(&stream.bytes())?;
        }
    }
    Ok(())
}

fn damaged_rosters(random: &mut Random, comparison: &mut Comparison) -> Result<(), Fault> {
    const STREAMS: u32 = 300;
    let [first, second] = ENTRY_MARK;
    for input in [&[][..], &[first], &[first, second], &[first, 0], &[0]] {
        comparison.stream(input)?;
    }
    for _ in 0..STREAMS {
        let good = roster(random, 9);
        let reports = random.below(3);
        let stream = Stream {
            roster: damaged_roster(random, &good),
            ..Stream::random(random, reports)
        };
        comparison.stream(&stream.bytes())?;
    }
    Ok(())
}

/// Streams that reach the program in other ways than at once through a pipe.
fn handed_over(random: &mut Random, comparison: &mut Comparison) -> Result<(), Fault> {
    const STREAMS: u32 = 60;
    for _ in 0..STREAMS {
        let reports = random.below(12);
        let stream = Stream::random(random, reports);
        let input = match random.below(3) {
            0 => cut(random, &stream),
            _ => stream.bytes(),
        };
        let size = random.pick(&[1, 7, 28, 48, 50, 63, 1_000]);
        comparison.stream_by(HandOver::InPieces(size), &input)?;
        comparison.stream_by(HandOver::AsFile, &input)?;
    }
    Ok(())
}
