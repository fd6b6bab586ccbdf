//! No input makes anything panic; no refusal writes; what is accepted stays whole.

use reference::random::Random;
use reference::register::{question_1_register_whole, BLOCK_SIZE};
use reference::report::question_2_report_whole;
use reference::show::show;
use reference::source::{damaged_register, whole_register, Source};
use reference::write_form;
use reference::{answer, date, print_date, read_date, read_form, remark, set_up, shift_log};

fn noise(random: &mut Random, most: u32) -> Vec<u8> {
    let length = random.below(most);
    let mut bytes = vec![0; length as usize];
    random.fill(&mut bytes);
    bytes
}

/// The characters of forms in any order.
fn form_noise(random: &mut Random) -> Vec<u8> {
    let mut bytes = noise(random, 300);
    for byte in &mut bytes {
        *byte = b"unit=1\nowner=7 -point0258"[usize::from(*byte) % 25];
    }
    bytes
}

/// A few bytes changed.
fn scratch(random: &mut Random, bytes: &mut [u8]) {
    if bytes.is_empty() {
        return;
    }
    for _ in 0..random.between(1..=4) {
        let at = random.below(bytes.len() as u32) as usize;
        bytes[at] = random.pick(&[0, 1, 2, 3, 127, 128, 255]);
    }
}

fn check_answer(register: &mut [u8], report: &[u8]) {
    let before = register.to_vec();
    let whole = question_1_register_whole(register);
    let given = answer(register, report);
    assert_eq!(given.number == 1, !whole);
    assert!(given.number <= 19);
    assert!(given.number == 0 || (register == before && given.warnings == 0));
    let parts = question_2_report_whole(report).map_or(0, |whole| whole.parts().count());
    assert!(given.part == 0 || (given.number == 8 && usize::from(given.part) <= parts));
    assert!(!whole || question_1_register_whole(register));
    let (remarked, _) = remark(report, b"standing");
    assert!(!whole || (remarked == 2) == (given.number == 2));
    let _ = show(register);
    let _ = show(report);
}

#[test]
fn noise_everywhere() {
    let mut random = Random::new(77);
    for _ in 0..2_000 {
        let (roster, report) = (noise(&mut random, 100), noise(&mut random, 400));
        let mut register = noise(&mut random, 3 * BLOCK_SIZE as u32);
        let before = register.clone();
        assert!(set_up(&roster, &mut register) >= 20 && register == before);
        check_answer(&mut register, &report);
        assert_eq!(shift_log(&report), b"roster 20\n");
        let minute = random.bits() as u32;
        let _ = (date(minute), print_date(minute, &mut register));
        assert_eq!(read_date(&report), Err(23));
        assert_eq!(read_form(&report, &mut register), Err(24));
        assert_eq!(write_form(&report, &mut register), Err(25));
        assert_eq!(read_form(&form_noise(&mut random), &mut register), Err(24));
    }
}

#[test]
fn scratched_reports_on_whole_registers() {
    let mut random = Random::new(78);
    for seed in 0..1_500 {
        let mut source = Source::on_given_register(seed, 2);
        let mut register = source.register().to_vec();
        for _ in 0..6 {
            let mut report = source.report();
            scratch(&mut random, &mut report);
            check_answer(&mut register, &report);
        }
    }
}

#[test]
fn reports_on_damaged_registers() {
    let mut random = Random::new(79);
    let (mut whole, mut broken) = (0, 0);
    for seed in 0..3_000 {
        let mut register = whole_register(&mut random, 2);
        assert!(question_1_register_whole(&register), "seed {seed}");
        if random.percent(80) {
            register = damaged_register(&mut random, &register);
        } else {
            scratch(&mut random, &mut register);
        }
        if question_1_register_whole(&register) {
            whole += 1;
        } else {
            broken += 1;
        }
        let report = Source::new(seed, 1).report();
        check_answer(&mut register, &report);
    }
    assert!(whole > 300 && broken > 300, "{whole} {broken}");
}

#[test]
fn scratched_streams() {
    let mut random = Random::new(80);
    for seed in 0..600 {
        let mut source = Source::new(seed, 8);
        let mut stream = source.roster().to_vec();
        for _ in 0..10 {
            stream.extend(source.report());
        }
        scratch(&mut random, &mut stream);
        stream.truncate(random.below(2 * stream.len() as u32) as usize);
        let log = String::from_utf8(shift_log(&stream)).unwrap();
        let last = log.lines().last().unwrap();
        assert!(last == "roster 20" || last.starts_with("total "), "{log}");
        let _ = show(&stream);
    }
}
