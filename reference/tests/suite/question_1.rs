//! Every clause of question 1 broken alone, its neighbours whole.

use reference::damage::{base, variants};
use reference::register::question_1_register_whole;
use reference::worked_examples::roster_a_reports;
use reference::{answer, Answer};
use std::collections::BTreeMap;

#[test]
fn the_base_is_whole() {
    assert!(question_1_register_whole(&base()));
}

#[test]
fn every_clause_breaks_alone_and_its_neighbours_stay() {
    let mut clauses: BTreeMap<&str, (u32, u32)> = BTreeMap::new();
    for (index, variant) in variants().iter().enumerate() {
        let register = variant.register();
        let whole = question_1_register_whole(&register);
        assert_eq!(whole, variant.whole, "{} (variant {index})", variant.clause);
        let counts = clauses.entry(variant.clause).or_default();
        if whole {
            counts.0 += 1;
        } else {
            counts.1 += 1;
        }
    }
    for (clause, (whole, broken)) in clauses {
        println!("{clause}: {broken} broken, {whole} whole");
        assert!(broken > 0 || clause == "not asked", "{clause}");
    }
}

#[test]
fn a_broken_register_answers_1_to_any_report_and_stays() {
    let reports = roster_a_reports();
    for variant in variants().iter().filter(|variant| !variant.whole) {
        let before = variant.register();
        let mut register = before.clone();
        for report in [&[][..], &reports[0]] {
            assert_eq!(answer(&mut register, report), Answer::refusal(1));
        }
        assert!(register == before);
    }
}
