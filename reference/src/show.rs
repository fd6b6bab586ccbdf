//! Registers and streams in readable lines.

use crate::calendar::date;
use crate::fields::{all_zero, u16_at, u32_at};
use crate::names;
use crate::register::{
    head as block_head, question_1_register_whole, slot, BLOCK_MARK, BLOCK_SIZE, HEAD_LAYOUT,
    HEAD_SIZE, SLOT_SIZE,
};
use crate::remark::printed;
use crate::report::{head, question_2_report_whole, stated_length, WholeReport, REPORT_MARK};
use crate::roster::{read_entry, ENTRY_LAYOUT, ENTRY_MARK, ENTRY_SIZE};
use crate::unit::UnitLayout;
use std::fmt::Write;

/// The lines of a register or of a stream; None if the bytes are neither.
pub fn show(bytes: &[u8]) -> Option<String> {
    let is_stream = bytes.starts_with(&ENTRY_MARK) || bytes.starts_with(&REPORT_MARK);
    let blocks = !bytes.is_empty() && bytes.len().is_multiple_of(BLOCK_SIZE);
    if is_stream {
        Some(show_stream(bytes))
    } else if blocks || bytes.starts_with(&BLOCK_MARK) {
        Some(show_register(bytes))
    } else {
        None
    }
}

fn show_register(bytes: &[u8]) -> String {
    let whole = if question_1_register_whole(bytes) {
        "whole"
    } else {
        "not whole"
    };
    let mut text = format!("register of {} bytes, {whole}\n", bytes.len());
    for block in bytes.chunks_exact(BLOCK_SIZE) {
        let (head, slots) = block.split_at(HEAD_SIZE);
        let (unit, last_stamp) = (
            u16_at(head, block_head::UNIT),
            time(u32_at(head, block_head::LAST_STAMP)),
        );
        let data = unit_data(head, &HEAD_LAYOUT);
        let _ = writeln!(text, "unit {unit}: {data}, last stamp {last_stamp}");
        for (slot, number) in slots.chunks_exact(SLOT_SIZE).zip(1..) {
            if !all_zero(slot) {
                let _ = writeln!(text, "  slot {number}: {}", slot_data(slot));
                put_pairs(&mut text, slot);
            }
        }
    }
    put_rest(&mut text, bytes.len() % BLOCK_SIZE);
    text
}

fn put_rest(text: &mut String, rest: usize) {
    if rest > 0 {
        let _ = writeln!(text, "{rest} bytes left");
    }
}

fn unit_data(bytes: &[u8], layout: &UnitLayout) -> String {
    let power = |index: usize| u32_at(bytes, layout.powers + 4 * index);
    format!(
        "owner {}, {}, {}, since {}, generation {}/{} kW, consumption {}/{} kW",
        u16_at(bytes, layout.owner),
        names::kind(bytes[layout.kind]),
        names::row(
            bytes[layout.kind],
            bytes[layout.state],
            bytes[layout.qualification]
        ),
        time(u32_at(bytes, layout.since)),
        power(0),
        power(1),
        power(2),
        power(3),
    )
}

fn slot_data(bytes: &[u8]) -> String {
    format!(
        "{}, {}, {}, ordinal {}, id {}, stamp {}, {} to {}",
        names::record(bytes[slot::TYPE], bytes[slot::QUALIFICATION]),
        names::direction(bytes[slot::DIRECTION]),
        names::start_mark(bytes[slot::START_MARK]),
        u16_at(bytes, slot::REVISION),
        hex(&bytes[slot::MRID..slot::STAMP]),
        time(u32_at(bytes, slot::STAMP)),
        time(u32_at(bytes, slot::START)),
        time(u32_at(bytes, slot::END)),
    )
}

fn put_pairs(text: &mut String, slot: &[u8]) {
    let count = usize::from(u16_at(slot, slot::PART_COUNT));
    let pairs = slot[slot::PARTS..].chunks_exact(slot::PART_SIZE);
    for (pair, number) in pairs.take(count).zip(1..) {
        let (end, power) = (time(u32_at(pair, 0)), u32_at(pair, 4));
        let _ = writeln!(text, "    part {number}: to {end}, {power} kW");
    }
}

fn show_stream(bytes: &[u8]) -> String {
    let mut text = String::new();
    let mut rest = bytes;
    let mut number = 0;
    while rest.len() >= ENTRY_SIZE && rest.starts_with(&ENTRY_MARK) {
        let (entry, after) = rest.split_at(ENTRY_SIZE);
        number += 1;
        let good = if read_entry(entry).is_some() {
            ""
        } else {
            ", bad"
        };
        let data = unit_data(entry, &ENTRY_LAYOUT);
        let _ = writeln!(text, "entry {number}: {data}{good}");
        rest = after;
    }
    for number in 1.. {
        let Some((report, after)) =
            stated_length(rest).and_then(|length| rest.split_at_checked(length))
        else {
            break;
        };
        match question_2_report_whole(report) {
            Some(whole) => put_report(&mut text, number, &whole),
            None => break,
        }
        rest = after;
    }
    put_rest(&mut text, rest.len());
    text
}

fn put_report(text: &mut String, number: u64, report: &WholeReport) {
    let bytes = report.bytes();
    let _ = writeln!(
        text,
        "report {number}: unit {}, owner {}, {} {}, {}, {}, {}, ordinal {}, id {}, stamp {}, {} to {}",
        report.unit(),
        report.owner(),
        names::operation(bytes[head::OPERATION]),
        names::record(bytes[head::TYPE], bytes[head::QUALIFICATION]),
        names::direction(bytes[head::DIRECTION]),
        names::start_mark(bytes[head::START_MARK]),
        names::end_mark(bytes[head::END_MARK]),
        u16_at(bytes, head::REVISION),
        hex(&bytes[head::MRID..head::STAMP]),
        time(report.stamp()),
        time(u32_at(bytes, head::START)),
        time(u32_at(bytes, head::END)),
    );
    for (part, number) in report.parts().zip(1..) {
        let (start, end) = (time(part.start), time(part.end));
        let _ = writeln!(
            text,
            "    part {number}: {start} to {end}, {} kW",
            part.power
        );
    }
    if !report.text().is_empty() {
        let _ = writeln!(text, "    text: {}", printed(report.text()));
    }
}

fn hex(bytes: &[u8]) -> String {
    bytes.iter().map(|byte| format!("{byte:02x}")).collect()
}

fn time(minute: u32) -> String {
    match date(minute) {
        Ok(text) => String::from_utf8_lossy(&text).into_owned(),
        Err(_) => format!("minute {minute}"),
    }
}
