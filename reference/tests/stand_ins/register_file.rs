//! A register on disk as `register_file` keeps it, in Rust, and some that are wrong on purpose: STAND_IN says which.

use reference::fields::u16_at;
use reference::register::{question_1_register_whole, BLOCK_SIZE, MAX_UNITS};
use reference::report::{head, stated_length, HEAD_SIZE};
use reference::roster::ENTRY_SIZE;
use reference::{register_log, set_up};
use std::fs::{self, File};
use std::io::{stdin, stdout, Error, Read, Write};
use std::path::{Path, PathBuf};

/// What is wrong with it, if anything.
fn wrong(how: &str) -> bool {
    std::env::var("STAND_IN").is_ok_and(|wrong| wrong == how)
}

fn main() {
    let words: Vec<_> = std::env::args().skip(1).collect();
    let told = match words.as_slice() {
        [word, register] if word == "set-up" => set_up_file(Path::new(register)),
        [word, register] if word == "answer" => answer_file(Path::new(register)),
        _ => Err("register_file: set-up REGISTER or answer REGISTER".to_string()),
    };
    if let Err(line) = told {
        eprintln!("{line}");
    }
}

fn cannot(what: &str) -> impl Fn(Error) -> String + '_ {
    move |error| format!("register_file: {what}: {error}")
}

fn set_up_file(path: &Path) -> Result<(), String> {
    let mut roster = Vec::new();
    let most = (MAX_UNITS * ENTRY_SIZE + 1) as u64;
    let read = stdin().lock().take(most).read_to_end(&mut roster);
    read.map_err(cannot("standard input can't be read"))?;
    let mut register = vec![0; roster.len() / ENTRY_SIZE * BLOCK_SIZE];
    if set_up(&roster, &mut register) != 0 {
        return Err("roster 20: not 1 to 64 good entries".to_string());
    }
    if path.symlink_metadata().is_ok() && !wrong("overwrites") {
        return Err("register_file: the register is there already".to_string());
    }
    replace(path, &register, None)?;
    let units = register.len() / BLOCK_SIZE;
    print(format!("units set up: {units}\n").as_bytes())
}

fn print(lines: &[u8]) -> Result<(), String> {
    let printed = stdout().write_all(lines).and_then(|()| stdout().flush());
    printed.map_err(cannot("standard output can't be written"))
}

/// The register's own path, its bytes and its permissions.
fn read_register(path: &Path) -> Result<(PathBuf, Vec<u8>, fs::Permissions), String> {
    let cant_read = cannot("the register can't be read");
    let real = fs::canonicalize(path).map_err(&cant_read)?;
    let path = if wrong("replaces_link") {
        path.to_path_buf()
    } else {
        real
    };
    let status = path.metadata().map_err(&cant_read)?;
    if !status.is_file() {
        return Err("register_file: the register is no file".to_string());
    }
    let mut bytes = Vec::new();
    let most = (MAX_UNITS * BLOCK_SIZE + 1) as u64;
    let file = File::open(&path).map_err(&cant_read)?;
    file.take(most)
        .read_to_end(&mut bytes)
        .map_err(&cant_read)?;
    if !question_1_register_whole(&bytes) && !wrong("trusts") {
        return Err("register 1: the register is not whole".to_string());
    }
    Ok((path, bytes, status.permissions()))
}

/// What was answered so far.
#[derive(Default)]
struct Progress {
    lines: u64,
    totals: [u64; 3],
}

impl Progress {
    /// The report's line with its number in place of 1.
    fn answer(&mut self, register: &mut [u8], report: &[u8], log: &mut Vec<u8>) -> bool {
        let lines = register_log(register, report);
        let lines = String::from_utf8_lossy(&lines);
        let line = lines.lines().nth(1).unwrap_or_default();
        let totals = lines.lines().nth(2).unwrap_or_default().split(' ').skip(1);
        for (total, count) in self.totals.iter_mut().zip(totals) {
            *total += count.parse().unwrap_or(0);
        }
        self.lines += 1;
        let rest = line.strip_prefix('1').unwrap_or_default();
        log.extend_from_slice(format!("{}{rest}\n", self.lines).as_bytes());
        line.ends_with(" - 2 0 0 -")
    }

    /// Whether a report that is not whole ended the run.
    fn answer_pending(
        &mut self,
        register: &mut [u8],
        pending: &mut Vec<u8>,
        ended: bool,
        log: &mut Vec<u8>,
    ) -> bool {
        while let Some(length) = next_length(pending, ended) {
            let report: Vec<u8> = pending.drain(..length).collect();
            if self.answer(register, &report, log) {
                return true;
            }
        }
        ended
    }
}

/// Bytes of the next report, if they are there or the input has ended.
fn next_length(pending: &[u8], ended: bool) -> Option<usize> {
    let large = |at, most| u16_at(pending, at) > most;
    let stated = match stated_length(pending) {
        Some(_) if large(head::PART_COUNT, 100) || large(head::TEXT_LENGTH, 200) => Some(HEAD_SIZE),
        stated => stated,
    };
    let there = stated.filter(|&length| length <= pending.len());
    there.or((ended && !pending.is_empty()).then_some(pending.len()))
}

fn answer_file(path: &Path) -> Result<(), String> {
    let (path, mut register, mode) = read_register(path)?;
    let (mut pending, mut progress, mut ended) = (Vec::new(), Progress::default(), false);
    let mut lines = b"no unit answer warn part stamp\n".to_vec();
    while !ended {
        ended = read_more(&mut pending)? == 0;
        let before = register.clone();
        ended = progress.answer_pending(&mut register, &mut pending, ended, &mut lines);
        if ended {
            let [clean, warned, refused] = progress.totals;
            lines.extend_from_slice(format!("total {clean} {warned} {refused}\n").as_bytes());
        }
        if wrong("prints_first") {
            print(&lines)?;
        }
        if register != before || wrong("writes_refused") {
            replace(&path, &register, Some(mode.clone()))?;
        }
        if !wrong("prints_first") {
            print(&lines)?;
        }
        lines.clear();
    }
    Ok(())
}

fn read_more(pending: &mut Vec<u8>) -> Result<usize, String> {
    let mut bytes = vec![0; 65_536];
    let length = loop {
        match stdin().lock().read(&mut bytes) {
            Err(error) if error.kind() == std::io::ErrorKind::Interrupted => {}
            other => break other.map_err(cannot("standard input can't be read"))?,
        }
    };
    pending.extend_from_slice(&bytes[..length]);
    Ok(length)
}

/// A new file, synced, renamed, and the folder synced.
fn replace(path: &Path, bytes: &[u8], mode: Option<fs::Permissions>) -> Result<(), String> {
    let cant_write = cannot("the register can't be written");
    if wrong("writes_in_place") {
        let written = fs::OpenOptions::new()
            .write(true)
            .create(true)
            .truncate(false)
            .open(path);
        let written =
            written.and_then(|mut file| file.write_all(bytes).and_then(|()| file.sync_all()));
        return written.map_err(cant_write);
    }
    let new = PathBuf::from(format!("{}.new", path.display()));
    let written = write_new(&new, bytes, mode).and_then(|()| fs::rename(&new, path));
    if let Err(error) = written {
        let _ = fs::remove_file(&new);
        return Err(cant_write(error));
    }
    if wrong("no_folder_sync") {
        return Ok(());
    }
    let folder = path.parent().filter(|folder| *folder != Path::new(""));
    let folder = File::open(folder.unwrap_or(Path::new(".")));
    folder
        .and_then(|folder| folder.sync_all())
        .map_err(cant_write)
}

fn write_new(new: &Path, bytes: &[u8], mode: Option<fs::Permissions>) -> Result<(), Error> {
    if !wrong("leftover_stops_it") {
        let _ = fs::remove_file(new);
    }
    let mut file = File::create_new(new)?;
    if let Some(mode) = mode.filter(|_| !wrong("forgets_mode")) {
        file.set_permissions(mode)?;
    }
    let written = file.write_all(bytes);
    if !wrong("ignores_failed_write") {
        written?;
    }
    let synced = if wrong("no_file_sync") {
        Ok(())
    } else {
        file.sync_all()
    };
    if wrong("ignores_failed_sync") {
        return Ok(());
    }
    synced
}
