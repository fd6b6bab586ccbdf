//! The command line: `log`, `remarks`, `sample NAME`, `random SEED COUNT`, `show`, `forms`,
//! `form NUMBER`, `report`.

use reference::forms::{form_of, report_of};
use reference::random::Random;
use reference::sample::{sample, samples};
use reference::shift_log::{reports, LOG_ENTRIES};
use reference::show::show;
use reference::source::{broken_report, Source};
use std::io::{BufWriter, Read, Write};
use std::process::ExitCode;

const USAGE: &str = "use: reference log | reference remarks | reference sample NAME | \
                     reference random SEED COUNT | reference show | reference forms | \
                     reference form NUMBER | reference report";

fn main() -> ExitCode {
    let arguments: Vec<String> = std::env::args_os()
        .skip(1)
        .map(|argument| argument.to_string_lossy().into_owned())
        .collect();
    match run(&arguments.iter().map(String::as_str).collect::<Vec<_>>()) {
        Ok(()) => ExitCode::SUCCESS,
        Err(message) => {
            // One line; nothing is left to do if it can't be written.
            let _ = writeln!(std::io::stderr(), "reference: {message}");
            ExitCode::FAILURE
        }
    }
}

fn run(arguments: &[&str]) -> Result<(), String> {
    match arguments {
        ["log"] => write_all(&reference::shift_log(&read_all()?)),
        ["remarks"] => write_all(&reference::remarks(&read_all()?)),
        ["sample", rest @ ..] => write_sample(rest),
        ["random", seed, count] => write_random(number("SEED", seed)?, number("COUNT", count)?),
        ["show"] => match show(&read_all()?) {
            Some(text) => write_all(text.as_bytes()),
            None => Err("the input is neither a register nor a stream".to_string()),
        },
        ["forms"] => write_forms(&read_all()?),
        ["form", number] => write_form(&read_all()?, self::number("NUMBER", number)?),
        ["report"] => match report_of(&read_all()?) {
            Ok(report) => write_all(&report),
            Err(number) => Err(format!("the input is no form: {number}")),
        },
        _ => Err(USAGE.to_string()),
    }
}

fn write_sample(arguments: &[&str]) -> Result<(), String> {
    let names = || {
        let names: Vec<String> = samples().into_iter().map(|sample| sample.name).collect();
        names.join(", ")
    };
    match arguments {
        [name] => match sample(name) {
            Some(bytes) => write_all(&bytes),
            None => Err(format!("no sample {name:?}; the samples are {}", names())),
        },
        _ => Err(format!(
            "sample takes one name; the samples are {}",
            names()
        )),
    }
}

/// A roster of at most 8 entries and so many reports; in one seed of eight the last report is
/// broken, as the log's run may end.
fn write_random(seed: u64, count: u64) -> Result<(), String> {
    let mut output = BufWriter::new(std::io::stdout().lock());
    let mut source = Source::new(seed, LOG_ENTRIES);
    let mut put = |bytes: &[u8]| {
        output
            .write_all(bytes)
            .map_err(|error| cannot_write(&error))
    };
    put(source.roster())?;
    for place in 1..=count {
        let report = source.report();
        if place == count && seed % 8 == 7 {
            put(&broken_report(&mut Random::new(seed), &report))?;
        } else {
            put(&report)?;
        }
    }
    output.flush().map_err(|error| cannot_write(&error))
}

/// The forms of the stream's reports that have one, an empty line between two of them.
fn write_forms(stream: &[u8]) -> Result<(), String> {
    let reports = reports(stream).into_iter();
    let forms: Vec<Vec<u8>> = reports.filter_map(|report| form_of(report).ok()).collect();
    write_all(&forms.join(&b'\n'))
}

/// The form of one report of a stream, by its place from 1.
fn write_form(stream: &[u8], place: u64) -> Result<(), String> {
    let place = usize::try_from(place).unwrap_or(usize::MAX);
    let report = place
        .checked_sub(1)
        .and_then(|index| reports(stream).get(index).copied());
    match report.map(form_of) {
        Some(Ok(form)) => write_all(&form),
        Some(Err(number)) => Err(format!("report {place} has no form: {number}")),
        None => Err(format!("the input has no report {place}")),
    }
}

fn number(name: &str, text: &str) -> Result<u64, String> {
    text.parse()
        .map_err(|_| format!("{name} is to be a whole number, not {text:?}"))
}

fn read_all() -> Result<Vec<u8>, String> {
    let mut bytes = Vec::new();
    std::io::stdin()
        .lock()
        .read_to_end(&mut bytes)
        .map_err(|error| format!("can't read standard input: {error}"))?;
    Ok(bytes)
}

fn write_all(bytes: &[u8]) -> Result<(), String> {
    let mut output = std::io::stdout().lock();
    output
        .write_all(bytes)
        .and_then(|()| output.flush())
        .map_err(|error| cannot_write(&error))
}

fn cannot_write(error: &std::io::Error) -> String {
    format!("can't write standard output: {error}")
}
