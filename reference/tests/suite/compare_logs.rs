//! The comparison of logs tells wrong programs; stand-ins play them.

use reference::shift_log;
use std::path::{Path, PathBuf};
use std::process::{Command, Output};

/// Runs it on a program, in a folder of its own.
fn compare(program: &Path, folder: &Path) -> Output {
    std::fs::create_dir_all(folder).unwrap();
    Command::new(env!("CARGO_BIN_EXE_compare_logs"))
        .arg(program)
        .env("REFERENCE", env!("CARGO_BIN_EXE_reference"))
        .current_dir(folder)
        .output()
        .unwrap()
}

fn folder(name: &str) -> PathBuf {
    Path::new(env!("CARGO_TARGET_TMPDIR")).join(name)
}

fn stand_in(name: &str) -> PathBuf {
    let folder = Path::new(env!("CARGO_MANIFEST_DIR")).join("tests/stand_ins");
    folder.join(name)
}

#[test]
fn wrong_programs_are_told_and_the_stream_is_kept() {
    for name in [
        "no_totals.sh",
        "invented_totals.sh",
        "fails_at_the_end.sh",
        "part_everywhere.sh",
    ] {
        let folder = folder(name);
        let output = compare(&stand_in(name), &folder);
        let printed = String::from_utf8(output.stdout).unwrap();
        assert_eq!(output.status.code(), Some(1), "{name}: {printed}");
        let result = "test result: FAILED. 0 passed; 19 failed\n";
        assert!(printed.ends_with(result), "{name}: {printed}");
        let (stream, logs) = (
            "target/log-difference-2.stream",
            "target/log-difference-2.txt",
        );
        assert!(printed.contains(stream) && printed.contains(logs));
        let stream = std::fs::read(folder.join(stream)).unwrap();
        let logs = std::fs::read_to_string(folder.join(logs)).unwrap();
        let log = String::from_utf8(shift_log(&stream)).unwrap();
        let expected = format!("the reference's log\n{log}");
        assert!(logs.contains(&expected), "{name}: {logs}");
    }
}

#[test]
fn a_program_that_is_not_there_gets_one_line() {
    for missing in [stand_in("no such file"), stand_in("")] {
        let output = compare(&missing, &folder("missing"));
        assert_eq!(output.status.code(), Some(1));
        assert!(output.stdout.is_empty());
        let message = String::from_utf8(output.stderr).unwrap();
        assert_eq!(message.lines().count(), 1, "{message}");
        assert!(message.starts_with("compare_logs: "), "{message}");
    }
}
