//! One unit alone: a unit's bytes and answers are those of its own reports.

use reference::random::Random;
use reference::register::BLOCK_SIZE;
use reference::report::question_2_report_whole;
use reference::roster::ENTRY_SIZE;
use reference::source::{broken_report, Source};
use reference::{answer, set_up, Answer, StandAloneBlocks};

/// A roster and a list of reports, some of them not whole.
fn list(seed: u64) -> (Vec<u8>, Vec<Vec<u8>>) {
    let mut source = Source::new(seed, 12);
    let mut random = Random::new(seed);
    let mut reports = Vec::new();
    for _ in 0..60 {
        let report = source.report();
        if random.percent(3) {
            reports.push(broken_report(&mut random, &report));
        }
        reports.push(report);
    }
    (source.roster().to_vec(), reports)
}

fn run(roster: &[u8], reports: &[Vec<u8>]) -> (Vec<Answer>, Vec<u8>) {
    let mut register = vec![0; roster.len() / ENTRY_SIZE * BLOCK_SIZE];
    assert_eq!(set_up(roster, &mut register), 0);
    let answers = reports
        .iter()
        .map(|report| answer(&mut register, report))
        .collect();
    (answers, register)
}

#[test]
fn the_register_is_the_stand_alone_blocks_in_order() {
    for seed in 0..80 {
        let (roster, reports) = list(seed);
        let (answers, register) = run(&roster, &reports);
        let mut blocks = StandAloneBlocks::set_up(&roster).unwrap();
        for (report, expected) in reports.iter().zip(answers) {
            assert_eq!(blocks.answer(report), expected);
        }
        assert!(blocks.bytes() == register);
    }
}

/// Each unit alone in a register of one block, as unit 1, with its own reports only.
#[test]
fn each_unit_answers_as_in_a_register_of_its_own() {
    for seed in 100..180 {
        let (roster, reports) = list(seed);
        let (answers, register) = run(&roster, &reports);
        for (index, entry) in roster.chunks(ENTRY_SIZE).enumerate() {
            let number = index as u16 + 1;
            let owner = u16::from_le_bytes([entry[2], entry[3]]);
            let own = |report: &[u8]| {
                question_2_report_whole(report)
                    .is_some_and(|whole| (whole.unit(), whole.owner()) == (number, owner))
            };
            let (places, renumbered): (Vec<usize>, Vec<Vec<u8>>) = reports
                .iter()
                .enumerate()
                .filter(|(_, report)| own(report))
                .map(|(place, report)| {
                    let mut report = report.clone();
                    report[2..4].copy_from_slice(&[1, 0]);
                    (place, report)
                })
                .unzip();
            let (alone, mut block) = run(entry, &renumbered);
            for (place, answer) in places.into_iter().zip(alone) {
                assert_eq!(answers[place], answer, "seed {seed}, unit {number}");
            }
            block[2..4].copy_from_slice(&number.to_le_bytes());
            assert!(register[index * BLOCK_SIZE..][..BLOCK_SIZE] == block);
        }
    }
}

/// Leaving out the reports of all other owners changes nothing for an owner's units.
#[test]
fn an_owner_is_not_moved_by_other_owners() {
    for seed in 200..260 {
        let (roster, reports) = list(seed);
        let (answers, register) = run(&roster, &reports);
        let owner = [roster[2], roster[3]];
        let of_owner = |report: &[u8]| report.len() > 6 && report[4..6] == owner;
        let kept: Vec<Vec<u8>> = reports
            .iter()
            .filter(|report| of_owner(report))
            .cloned()
            .collect();
        let (alone, other_register) = run(&roster, &kept);
        let expected = reports.iter().zip(answers);
        let expected: Vec<Answer> = expected
            .filter(|(report, _)| of_owner(report))
            .map(|(_, answer)| answer)
            .collect();
        assert_eq!(alone, expected);
        for (index, entry) in roster.chunks(ENTRY_SIZE).enumerate() {
            if entry[2..4] == owner {
                let block = index * BLOCK_SIZE..(index + 1) * BLOCK_SIZE;
                assert!(register[block.clone()] == other_register[block]);
            }
        }
    }
}

#[test]
fn reports_that_are_no_units_own() {
    let (roster, reports) = list(3);
    let mut blocks = StandAloneBlocks::set_up(&roster).unwrap();
    let before = blocks.bytes();
    assert_eq!(blocks.answer(&[]), Answer::refusal(2));
    let mut strange = reports[0].clone();
    strange[2..4].copy_from_slice(&[0, 0]);
    assert_eq!(blocks.answer(&strange), Answer::refusal(3));
    assert!(blocks.bytes() == before);
    assert!(StandAloneBlocks::set_up(&roster[1..]).is_none());
}
