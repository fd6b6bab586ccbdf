//! The test of the register on disk tells wrong programs; a stand-in plays them.

use reference::answer;
use reference::source::Source;
use std::path::Path;
use std::process::{Command, Output};

/// A stage of it on the stand-in, which is wrong in some way.
fn try_stand_in(wrong: &str, stage: &str) -> Output {
    let desk = Path::new(env!("CARGO_MANIFEST_DIR")).join("tests/stand_ins/desk.sh");
    let program = env!("CARGO_BIN_EXE_register_stand_in");
    Command::new(env!("CARGO_BIN_EXE_register_faults"))
        .arg(desk)
        .args([program, "1", "7", stage])
        .env("STAND_IN", wrong)
        .env("STAND_IN_PROGRAM", program)
        .output()
        .unwrap()
}

const KILLED: &str = "killed at every call";
const FAILS: &str = "every call fails";
const AROUND: &str = "links, modes and what lies beside";

#[test]
fn wrong_registers_on_disk_are_told() {
    for (wrong, stage) in [
        ("prints_first", KILLED),
        ("writes_in_place", KILLED),
        ("no_file_sync", KILLED),
        ("no_folder_sync", KILLED),
        ("leftover_stops_it", KILLED),
        ("ignores_failed_write", FAILS),
        ("ignores_failed_sync", FAILS),
        ("no_status", FAILS),
        ("no_lock", "two writers at once"),
        ("outlives", "killed at some time"),
        ("writes_refused", "refused reports write nothing"),
        ("trusts", "bad registers"),
        ("replaces_link", AROUND),
        ("forgets_mode", AROUND),
        ("overwrites", "bad rosters and existing registers"),
    ] {
        let output = try_stand_in(wrong, stage);
        let printed = String::from_utf8(output.stdout).unwrap();
        assert_eq!(output.status.code(), Some(1), "{wrong}: {printed}");
        let result = "test result: FAILED. 0 passed; 1 failed\n";
        assert!(printed.ends_with(result), "{wrong}: {printed}");
    }
}

#[test]
fn a_right_one_passes() {
    for stage in ["without faults", FAILS, AROUND] {
        let output = try_stand_in("", stage);
        let printed = String::from_utf8(output.stdout).unwrap();
        let result = "test result: ok. 1 passed; 0 failed\n";
        assert!(printed.ends_with(result), "{printed}");
    }
}

/// What docs/OPERATING.md tells the keeper to do after a crash.
#[test]
fn an_accepted_report_sent_again_is_refused() {
    let mut numbers = std::collections::BTreeSet::new();
    for seed in 0..2_000 {
        let mut source = Source::new(seed, 4);
        let mut register = source.register().to_vec();
        for _ in 0..30 {
            let report = source.report();
            if answer(&mut register, &report).number == 0 {
                let before = register.clone();
                numbers.insert(answer(&mut register, &report).number);
                assert!(register == before);
            }
        }
    }
    assert_eq!(numbers.into_iter().collect::<Vec<_>>(), [11, 12, 13, 18]);
}
