//! Every worked example of the paper, the log of roster A and the bench findings.

use reference::register::{question_1_register_whole, BLOCK_SIZE};
use reference::worked_examples::{
    bench_findings, early_ends, examples, roster_a, roster_a_reports, Example, ROSTER_A_LOG,
};
use reference::{answer, set_up, shift_log};

fn fresh_register() -> Vec<u8> {
    let mut register = vec![0; 2 * BLOCK_SIZE];
    assert_eq!(set_up(&roster_a(), &mut register), 0);
    register
}

fn check(example: &Example) {
    let mut register = fresh_register();
    for (place, (report, expected)) in example.reports.iter().zip(&example.answers).enumerate() {
        let before = register.clone();
        let given = answer(&mut register, report);
        assert_eq!(given, *expected, "{} report {}", example.name, place + 1);
        assert_eq!(given.number != 0, register == before, "{}", example.name);
        assert!(question_1_register_whole(&register), "{}", example.name);
    }
}

#[test]
fn worked_examples() {
    let examples = examples();
    assert_eq!(examples.len(), 20);
    assert_eq!(
        examples.iter().filter(|example| example.starred).count(),
        12
    );
    examples.iter().for_each(check);
}

#[test]
fn bench_findings_ruled_out() {
    bench_findings().iter().for_each(check);
}

#[test]
fn early_ends_sentence_by_sentence() {
    early_ends().iter().for_each(check);
}

#[test]
fn log_of_roster_a() {
    let input = [roster_a(), roster_a_reports().concat()].concat();
    assert_eq!(String::from_utf8(shift_log(&input)).unwrap(), ROSTER_A_LOG);
}
