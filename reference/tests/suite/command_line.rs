//! The command line.

use reference::forms::form_of;
use reference::sample::{sample, samples};
use reference::shift_log::reports;
use reference::worked_examples::ROSTER_A_LOG;
use reference::{remarks, shift_log};
use std::io::Write;
use std::process::{Command, Output, Stdio};

fn run(arguments: &[&str], input: &[u8]) -> Output {
    let mut child = Command::new(env!("CARGO_BIN_EXE_reference"))
        .args(arguments)
        .stdin(Stdio::piped())
        .stdout(Stdio::piped())
        .stderr(Stdio::piped())
        .spawn()
        .unwrap();
    // A command that does not read may be gone already.
    let _ = child.stdin.take().unwrap().write_all(input);
    child.wait_with_output().unwrap()
}

fn output(arguments: &[&str], input: &[u8]) -> Vec<u8> {
    let output = run(arguments, input);
    assert!(output.status.success(), "{arguments:?}");
    assert!(output.stderr.is_empty(), "{arguments:?}");
    output.stdout
}

#[test]
fn the_log_of_roster_a() {
    let stream = output(&["sample", "roster-a-log"], &[]);
    assert_eq!(output(&["log"], &stream), ROSTER_A_LOG.as_bytes());
}

#[test]
fn the_remarks_of_the_texts() {
    let stream = output(&["sample", "texts"], &[]);
    assert_eq!(output(&["remarks"], &stream), remarks(&stream));
}

#[test]
fn every_sample_comes_out_and_can_be_shown() {
    for expected in samples() {
        let bytes = output(&["sample", &expected.name], &[]);
        assert!(bytes == expected.bytes);
        assert!(!output(&["show"], &bytes).is_empty());
    }
}

#[test]
fn random_streams_are_fixed_by_the_seed() {
    for seed in ["0", "1", "7", "18446744073709551615"] {
        let stream = output(&["random", seed, "40"], &[]);
        assert!(stream == output(&["random", seed, "40"], &[]));
        let log = String::from_utf8(output(&["log"], &stream)).unwrap();
        assert_eq!(log.as_bytes(), shift_log(&stream));
        assert_eq!(log.lines().count(), 42, "{log}");
    }
    let other = output(&["random", "2", "40"], &[]);
    assert!(other != output(&["random", "1", "40"], &[]));
    assert_eq!(output(&["random", "1", "0"], &[]).len() % 28, 0);
}

#[test]
fn lines_of_a_register_and_of_a_stream() {
    let stream = output(&["show"], &sample("roster-a-log").unwrap());
    let stream = String::from_utf8(stream).unwrap();
    assert!(
        stream.starts_with("entry 1: owner 7, W1, state P work, since 2026-03-01 00:00,"),
        "{stream}"
    );
    assert!(
        stream.contains("report 4: unit 1, owner 7, create stop RA, generation, executed,"),
        "{stream}"
    );
    let register = output(&["show"], &sample("register-a-after").unwrap());
    let register = String::from_utf8(register).unwrap();
    assert!(
        register.starts_with("register of 14336 bytes, whole\n"),
        "{register}"
    );
    assert!(
        register.contains("  slot 3: stop RA, generation, executed,"),
        "{register}"
    );
}

#[test]
fn forms_of_a_stream_and_back() {
    let stream = sample("evening").unwrap();
    let mut forms = Vec::new();
    for (report, place) in reports(&stream).into_iter().zip(1..) {
        // Report 11 has a minute between its parts, 16 and 18 have a field out of range.
        if [11, 16, 18].contains(&place) {
            assert_eq!(form_of(report), Err(25));
            continue;
        }
        let form = output(&["form", &place.to_string()], &stream);
        assert_eq!(form_of(report).as_ref(), Ok(&form));
        assert_eq!(output(&["report"], &form), report);
        forms.push(form);
    }
    assert_eq!(output(&["forms"], &stream), forms.join(&b'\n'));
    assert_eq!(output(&["forms"], &sample("roster-a").unwrap()), b"");
    for place in ["11", "31"] {
        assert!(!run(&["form", place], &stream).status.success());
    }
}

#[test]
fn bad_arguments_get_one_line_and_a_failure() {
    for arguments in [
        &[][..],
        &["nonsense"],
        &["log", "more"],
        &["remarks", "more"],
        &["sample"],
        &["sample", "no such name"],
        &["sample", "roster-a", "more"],
        &["random"],
        &["random", "1"],
        &["random", "one", "2"],
        &["random", "1", "-2"],
        &["random", "18446744073709551616", "2"],
        &["random", "1", "2", "3"],
        &["show", "more"],
        &["forms", "more"],
        &["form"],
        &["form", "0"],
        &["form", "one"],
        &["form", "1"],
        &["form", "1", "more"],
        &["report"],
        &["report", "more"],
    ] {
        let output = run(arguments, &[]);
        assert!(!output.status.success(), "{arguments:?}");
        assert!(output.stdout.is_empty(), "{arguments:?}");
        let message = String::from_utf8(output.stderr).unwrap();
        assert_eq!(message.lines().count(), 1, "{message}");
        assert!(message.starts_with("reference: "), "{message}");
    }
    for name in ["roster-a-log", "finding-dead-slots"] {
        let message = String::from_utf8(run(&["sample"], &[]).stderr).unwrap();
        assert!(message.contains(name), "{message}");
    }
}

#[test]
fn only_registers_and_streams_are_shown() {
    for input in [&[][..], b"hello", &[0x55]] {
        let output = run(&["show"], input);
        assert!(!output.status.success());
        assert_eq!(String::from_utf8(output.stderr).unwrap().lines().count(), 1);
    }
}
