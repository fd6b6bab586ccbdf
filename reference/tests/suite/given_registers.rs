//! Whole registers that reports do not lead to; numbers in comments are those of READINGS.

use crate::{
    begun_outage, derating, event, must_run, negative, off_grid, towards, withdrawal, TestRegister,
    M1, W1,
};
use reference::compose::{ReportFields, SlotFields};
use reference::register::{BLOCK_SIZE, HEAD_SIZE, SLOT_SIZE};
use reference::worked_examples::D;

impl TestRegister {
    /// A fresh register with records put into the slots of a unit.
    fn given<const N: usize>(unit: u16, slots: [SlotFields; N]) -> TestRegister {
        let mut register = TestRegister::new();
        for (index, slot) in slots.iter().enumerate() {
            let block = usize::from(unit - 1) * BLOCK_SIZE;
            let at = block + HEAD_SIZE + index * SLOT_SIZE;
            register.bytes[at..at + SLOT_SIZE].copy_from_slice(&slot.bytes());
        }
        register
    }
}

/// A record of D+60 to D+120 as set down at D.
fn stored(record_type: u8, power: u32) -> SlotFields {
    SlotFields {
        record_type,
        direction: 1,
        qualification: 0,
        start_mark: 1,
        revision: 1,
        mrid: [20 + record_type; 16],
        stamp: D,
        start: D + 60,
        end: D + 120,
        pairs: vec![(D + 120, power)],
    }
}

/// A report on the negative derating among them.
fn stored_negative() -> ReportFields {
    negative(W1, 0).named(23)
}

fn begun_stop() -> SlotFields {
    SlotFields {
        qualification: 1,
        start_mark: 2,
        start: D - 60,
        end: D + 240,
        pairs: Vec::new(),
        ..stored(1, 0)
    }
}

fn consumption(slot: SlotFields) -> SlotFields {
    SlotFields {
        direction: 2,
        ..slot
    }
}

/// 51: a bound below 0 fits no level, not even 0.
#[test]
fn a_derating_above_p_max() {
    let mut register = TestRegister::given(W1, [stored(2, 200_001)]);
    register.expect([(must_run(W1, 0), 17)]);
    let mut register = TestRegister::given(W1, [stored(2, 200_000)]);
    assert_eq!(register.answer(&must_run(W1, 0)), (0, 4, 0));
}

/// 55: the minute is one of the reported record's, whoever broke the rule in it.
#[test]
fn a_rule_broken_before() {
    let broken = || [stored(4, 190_000), stored(2, 20_000)];
    let mut register = TestRegister::given(W1, broken());
    register.expect([
        (negative(W1, 0), 17),
        (negative(W1, 0).over(D + 120, D + 180).at(0), 0),
    ]);
    // 64: a withdrawal is not asked, nor is a stop.
    let withdrawn = withdrawal(stored_negative());
    let slots = [stored(4, 190_000), stored(2, 20_000), stored(3, 0)];
    TestRegister::given(W1, slots).expect([(withdrawn, 0)]);
    assert_eq!(
        TestRegister::given(W1, broken()).answer(&begun_outage(W1, 1, D + 5)),
        (0, 1, 0)
    );
}

/// 56: only the reported record's own direction is asked.
#[test]
fn a_rule_broken_in_the_other_direction() {
    let broken = [consumption(stored(4, 60_000)), consumption(stored(2, 1))];
    let mut register = TestRegister::given(M1, broken);
    register.expect([(derating(M1), 0), (towards(2, negative(M1, 0)), 17)]);
}

/// 17, 75: a begun stop beside state P leaves at off-grid work, which carries no warning.
#[test]
fn a_begun_stop_beside_another_state() {
    let mut register = TestRegister::given(W1, [begun_stop()]);
    register.expect([(off_grid(D + 5), 0)]);
    assert_eq!(register.slot(W1, 0)[2], 5);
    assert!(register.slot(W1, 1).iter().all(|&byte| byte == 0));
    let mut register = TestRegister::given(W1, [begun_stop()]);
    register.expect([(event(5, D + 5), 0)]);
    assert!(register.slot(W1, 0).iter().all(|&byte| byte == 0));
    let mut register = TestRegister::given(W1, [begun_stop()]);
    assert_eq!(register.answer(&begun_outage(W1, 1, D + 5)), (0, 8, 0));
}

/// 37: live by the report's stamp, whatever the last stamp is.
#[test]
fn a_slot_dead_from_the_start() {
    let ended = SlotFields {
        start: D - 60,
        end: D,
        start_mark: 2,
        stamp: D - 60,
        pairs: vec![(D, 1)],
        ..stored(2, 1)
    };
    let mut register = TestRegister::given(W1, [ended]);
    let begun_over_it = derating(W1).begun().over(D - 30, D + 120).at(1).named(22);
    register.expect([(begun_over_it, 0)]);
    assert_eq!(register.slot(W1, 0)[6], 1);
    assert!(register.slot(W1, 1).iter().all(|&byte| byte == 0));
}
