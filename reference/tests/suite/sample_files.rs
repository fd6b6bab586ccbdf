//! The files in samples/ are what the named samples give.

use reference::sample::{sample, Step};
use reference::worked_examples::ROSTER_A_LOG;
use reference::{cover_sample, evening, shift_log};
use std::path::PathBuf;

fn file(name: &str) -> Vec<u8> {
    let folder = PathBuf::from(env!("CARGO_MANIFEST_DIR")).join("../samples");
    std::fs::read(folder.join(name)).unwrap_or_else(|error| panic!("samples/{name}: {error}"))
}

fn text(name: &str) -> String {
    String::from_utf8(file(name)).unwrap()
}

#[test]
fn the_files_are_the_samples_and_their_logs() {
    for (name, stem) in [
        ("roster-a-log", "roster-a"),
        ("evening", "evening"),
        ("cover", "cover"),
    ] {
        let stream = file(&format!("{stem}.stream"));
        assert!(stream == sample(name).unwrap(), "samples/{stem}.stream");
        let log = String::from_utf8(shift_log(&stream)).unwrap();
        assert_eq!(text(&format!("{stem}.log")), log, "samples/{stem}.log");
    }
    assert_eq!(text("roster-a.log"), ROSTER_A_LOG);
}

/// The samples that are explained line by line.
fn explained() -> [(&'static str, Vec<Step>); 2] {
    [
        ("evening", evening::steps()),
        ("cover", cover_sample::steps()),
    ]
}

#[test]
fn the_steps_are_answered_as_they_say() {
    for (name, steps) in explained() {
        let log = String::from_utf8(shift_log(&sample(name).unwrap())).unwrap();
        let lines: Vec<&str> = log.lines().collect();
        assert_eq!(lines.len(), steps.len() + 2);
        for ((step, line), number) in steps.iter().zip(&lines[1..]).zip(1..) {
            let (answer, warnings, part) = step.answer;
            let expected = format!("{number} {} {answer} {warnings} {part} ", step.report.unit);
            assert!(line.starts_with(&expected), "{}: {line}", step.what);
        }
    }
}

#[test]
fn the_readme_explains_the_steps_line_by_line() {
    let readme = text("README.md");
    for (name, steps) in explained() {
        for (step, number) in steps.iter().zip(1..) {
            let (unit, (answer, warnings, part)) = (step.report.unit, step.answer);
            let row = format!(
                "| {number} | {unit} | {answer} | {warnings} | {part} | {} |\n",
                step.what
            );
            assert!(
                readme.contains(&row),
                "samples/README.md, {name}: lacks {row}"
            );
        }
    }
}
