//! Registers that are none, and what lies around one.

use crate::run::{run, Input, Run};
use crate::scenario::{Complaint, Scenario};
use crate::trial::{agrees, other, Trial};
use reference::damage::variants;
use reference::register::{BLOCK_SIZE, MAX_UNITS};
use reference::source::damaged_register;
use std::fs;
use std::os::unix::fs::{symlink, FileTypeExt, PermissionsExt};
use std::path::{Path, PathBuf};
use std::process::Command;

/// A report that nobody gets to see.
fn a_report() -> Vec<u8> {
    reference::worked_examples::roster_a_reports().concat()
}

/// ./desk says one line, and the file is what it was.
pub fn registers(trial: &mut Trial) -> Result<(), String> {
    let whole = Scenario::random(&mut trial.random, 2, 20);
    let (_, whole) = whole.outcome();
    for (name, bytes) in contents(trial, &whole) {
        let path = trial.register(&bytes)?;
        let found = refused(trial, &path).and_then(|()| unchanged(&path, &bytes));
        trial.tally.count("bad contents", name, found);
    }
    damaged(trial)?;
    for (name, path) in no_files(trial) {
        let found = refused(trial, &path);
        trial.tally.count("no file", name, found);
    }
    Ok(())
}

fn contents(trial: &mut Trial, whole: &[u8]) -> Vec<(&'static str, Vec<u8>)> {
    let mut anything = vec![0; whole.len()];
    trial.random.fill(&mut anything);
    let one_more = [whole, &[0]].concat();
    let too_many = whole[..BLOCK_SIZE].repeat(MAX_UNITS + 1);
    vec![
        ("empty", Vec::new()),
        ("one byte", vec![0x55]),
        ("one byte short", whole[..whole.len() - 1].to_vec()),
        ("one byte more", one_more),
        ("half a block", whole[..BLOCK_SIZE / 2].to_vec()),
        (
            "a second block of zeros",
            [&whole[..BLOCK_SIZE], &[0; BLOCK_SIZE]].concat(),
        ),
        ("65 blocks", too_many),
        ("a million bytes", vec![0x55; 1_000_000]),
        ("random bytes", anything),
        ("zeros", vec![0; whole.len()]),
        ("a stream", a_report()),
    ]
}

/// Registers with one clause of question 1 broken, and their neighbours that are whole.
fn damaged(trial: &mut Trial) -> Result<(), String> {
    let variants = variants();
    for _ in 0..60 * trial.rounds {
        let place = trial.random.below(variants.len() as u32) as usize;
        let variant = &variants[place];
        one_damaged(trial, &variant.register(), variant.whole, variant.clause)?;
    }
    for _ in 0..10 * trial.rounds {
        let whole = Scenario::random(&mut trial.random, 8, 40);
        let bytes = damaged_register(&mut trial.random, &whole.outcome().1);
        let is_whole = reference::register::question_1_register_whole(&bytes);
        one_damaged(trial, &bytes, is_whole, "damaged_register")?;
    }
    Ok(())
}

fn one_damaged(trial: &mut Trial, bytes: &[u8], whole: bool, clause: &str) -> Result<(), String> {
    let path = trial.register(bytes)?;
    let found = if whole {
        let scenario = Scenario {
            roster: Vec::new(),
            register: bytes.to_vec(),
            reports: reference::worked_examples::roster_a_reports(),
        };
        let stream = scenario.stream();
        let run = run(&mut trial.desk_answer(&path), Input::File(&stream))?;
        agrees(&scenario, &run, &path)
    } else {
        told_1(trial, &path).and_then(|()| unchanged(&path, bytes))
    };
    trial
        .tally
        .count("damaged blocks, and nearly damaged ones", clause, found);
    Ok(())
}

fn told_1(trial: &Trial, path: &Path) -> Result<(), Complaint> {
    let run = run(&mut trial.desk_answer(path), Input::File(&a_report())).map_err(other)?;
    run.refused_silently().map_err(other)?;
    match run.err.contains("register 1: ") {
        true => Ok(()),
        false => Err(other(format!("it said {:?}", run.err))),
    }
}

fn refused(trial: &Trial, path: &Path) -> Result<(), Complaint> {
    let run = run(&mut trial.desk_answer(path), Input::File(&a_report())).map_err(other)?;
    run.refused_silently().map_err(other)
}

fn unchanged(path: &Path, bytes: &[u8]) -> Result<(), Complaint> {
    match fs::read(path) {
        Ok(file) if file == bytes => Ok(()),
        _ => Err(other("the file was changed")),
    }
}

/// Paths at which there is no file.
fn no_files(trial: &Trial) -> Vec<(&'static str, PathBuf)> {
    let case = trial.room.case();
    let (folder, pipe, link) = (case.join("folder"), case.join("pipe"), case.join("link"));
    let _ = fs::create_dir(&folder);
    let _ = Command::new("mkfifo").arg(&pipe).status();
    let _ = symlink("nothing", &link);
    let is_pipe = fs::metadata(&pipe).is_ok_and(|status| status.file_type().is_fifo());
    assert!(is_pipe, "mkfifo made no pipe");
    vec![
        ("missing", case.join("missing")),
        ("in a missing folder", case.join("missing/register")),
        ("in a file", trial.room.library().join("register")),
        ("an empty name", PathBuf::new()),
        ("a folder", folder),
        ("a pipe", pipe),
        ("a link to nothing", link),
        ("/dev/zero", PathBuf::from("/dev/zero")),
        ("/dev/full", PathBuf::from("/dev/full")),
        ("/dev/null", PathBuf::from("/dev/null")),
    ]
}

/// One of them.
type Surrounding = fn(&Trial, &Scenario) -> Result<(), Complaint>;

/// Links, modes, folders and files that others can't write, and files that a crash left.
pub fn surroundings(trial: &mut Trial) -> Result<(), String> {
    let scenario = Scenario::random(&mut trial.random, 2, 30);
    let cases: [(&str, Surrounding); 7] = [
        ("a link stays", link_stays),
        ("a link in another folder", link_elsewhere),
        ("the mode is kept", mode_kept),
        ("a file that a crash left", left_over),
        ("a name with spaces and signs", odd_name),
        ("a folder that can't be written", closed_folder),
        ("a register that can't be read", closed_register),
    ];
    for (name, case) in cases {
        let found = case(trial, &scenario);
        trial
            .tally
            .count("links, modes and what lies beside", name, found);
    }
    Ok(())
}

fn answered(trial: &Trial, scenario: &Scenario, path: &Path, real: &Path) -> Result<(), Complaint> {
    let stream = scenario.stream();
    let run = run(&mut trial.desk_answer(path), Input::File(&stream)).map_err(other)?;
    agrees(scenario, &run, real)
}

fn put_link(
    trial: &Trial,
    scenario: &Scenario,
    target: &str,
) -> Result<(PathBuf, PathBuf), Complaint> {
    let real = trial.register(&scenario.register).map_err(other)?;
    let folder = real.parent().unwrap_or(&real).join("elsewhere");
    let link = folder.join("link");
    let made = fs::create_dir(&folder).and_then(|()| symlink(target, &link));
    made.map_err(|error| other(error.to_string()))?;
    Ok((link, real))
}

fn link_stays(trial: &Trial, scenario: &Scenario) -> Result<(), Complaint> {
    let (link, real) = put_link(trial, scenario, "../register")?;
    answered(trial, scenario, &link, &real)?;
    match fs::read_link(&link) {
        Ok(target) if target == Path::new("../register") => Ok(()),
        _ => Err(other("the link was replaced")),
    }
}

/// Two names of one register have one lock and leave nothing in the link's folder.
fn link_elsewhere(trial: &Trial, scenario: &Scenario) -> Result<(), Complaint> {
    let (link, real) = put_link(trial, scenario, "../register")?;
    answered(trial, scenario, &link, &real)?;
    let beside = fs::read_dir(link.parent().unwrap_or(&link));
    match beside.map(|entries| entries.count()) {
        Ok(1) => Ok(()),
        _ => Err(other("something was left beside the link")),
    }
}

fn mode_kept(trial: &Trial, scenario: &Scenario) -> Result<(), Complaint> {
    for mode in [0o600, 0o640, 0o644, 0o666] {
        let path = trial.register(&scenario.register).map_err(other)?;
        let set = fs::set_permissions(&path, fs::Permissions::from_mode(mode));
        set.map_err(|error| other(error.to_string()))?;
        answered(trial, scenario, &path, &path)?;
        let now = fs::metadata(&path).map_or(0, |status| status.permissions().mode() & 0o7777);
        if now != mode {
            return Err(other(format!("mode {mode:o} became {now:o}")));
        }
    }
    Ok(())
}

/// A file REGISTER.new of any kind, and a lock that nobody holds.
fn left_over(trial: &Trial, scenario: &Scenario) -> Result<(), Complaint> {
    for left in [&b""[..], b"half a register", &scenario.register] {
        let path = trial.register(&scenario.register).map_err(other)?;
        let put = |end: &str, bytes: &[u8]| fs::write(format!("{}{end}", path.display()), bytes);
        let put = put(".new", left).and_then(|()| put(".lock", b""));
        put.map_err(|error| other(error.to_string()))?;
        answered(trial, scenario, &path, &path)?;
    }
    Ok(())
}

fn odd_name(trial: &Trial, scenario: &Scenario) -> Result<(), Complaint> {
    for name in [
        "two words",
        "-n",
        "it's \"one\"; $HOME * \\ register",
        "Kühlwasser",
    ] {
        let path = trial.room.case().join(name);
        let written = fs::write(&path, &scenario.register);
        written.map_err(|error| other(error.to_string()))?;
        answered(trial, scenario, &path, &path)?;
    }
    Ok(())
}

/// ./desk as a user who owns nothing; root itself may write everywhere.
fn as_nobody(trial: &Trial, scenario: &Scenario, path: &Path) -> Result<Run, Complaint> {
    let desk = trial.desk_answer(path);
    let is_root = fs::metadata("/proc/self").is_ok_and(|status| {
        use std::os::unix::fs::MetadataExt;
        status.uid() == 0
    });
    let mut command = Command::new(if is_root { "setpriv" } else { "env" });
    if is_root {
        command.args(["--reuid=65534", "--regid=65534", "--clear-groups"]);
    }
    command.arg(desk.get_program()).args(desk.get_args());
    run(&mut command, Input::File(&scenario.stream())).map_err(other)
}

fn closed_folder(trial: &Trial, scenario: &Scenario) -> Result<(), Complaint> {
    let path = trial.register(&scenario.register).map_err(other)?;
    let folder = path.parent().unwrap_or(&path);
    let mode = |mode| fs::set_permissions(folder, fs::Permissions::from_mode(mode));
    mode(0o555).map_err(|error| other(error.to_string()))?;
    let run = as_nobody(trial, scenario, &path);
    mode(0o755).map_err(|error| other(error.to_string()))?;
    run?.refused_silently().map_err(other)?;
    unchanged(&path, &scenario.register)
}

fn closed_register(trial: &Trial, scenario: &Scenario) -> Result<(), Complaint> {
    let path = trial.register(&scenario.register).map_err(other)?;
    let mode = |path: &Path, mode| fs::set_permissions(path, fs::Permissions::from_mode(mode));
    let closed = mode(&path, 0o000).and_then(|()| mode(path.parent().unwrap_or(&path), 0o777));
    closed.map_err(|error| other(error.to_string()))?;
    let run = as_nobody(trial, scenario, &path);
    mode(&path, 0o644).map_err(|error| other(error.to_string()))?;
    run?.refused_silently().map_err(other)?;
    unchanged(&path, &scenario.register)
}
