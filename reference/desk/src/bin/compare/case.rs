//! One call of both sides, and a difference in readable lines.

use desk_comparison::{reference_answer, Answer};
use reference::register::{BLOCK_SIZE, HEAD_SIZE, SLOT_SIZE};
use reference::show::show;
use std::fmt::Write;

/// A call that the two sides answered differently.
pub struct Difference {
    /// What both sides were given and what they gave.
    pub lines: String,
}

struct Side {
    answer: Answer,
    after: Vec<u8>,
}

/// A report answered by both sides: the answer and the register afterwards.
pub fn answer(before: &[u8], report: &[u8]) -> Result<(Answer, Vec<u8>), Box<Difference>> {
    let reference = side(before, |register| reference_answer(register, report));
    let desk = side(before, |register| desk_comparison::answer(register, report));
    agreed("answer", report, before, reference, desk)
}

/// A roster set up by both sides: the number and the register afterwards.
pub fn set_up(roster: &[u8], before: &[u8]) -> Result<(u32, Vec<u8>), Box<Difference>> {
    let reference = side(before, |register| {
        (reference::set_up(roster, register).into(), 0, 0)
    });
    let desk = side(before, |register| {
        (desk_comparison::set_up(roster, register), 0, 0)
    });
    let ((number, ..), after) = agreed("set-up", roster, before, reference, desk)?;
    Ok((number, after))
}

fn side(before: &[u8], call: impl Fn(&mut [u8]) -> Answer) -> Side {
    let mut after = before.to_vec();
    let answer = call(&mut after);
    Side { answer, after }
}

fn agreed(
    call: &'static str,
    input: &[u8],
    before: &[u8],
    reference: Side,
    desk: Side,
) -> Result<(Answer, Vec<u8>), Box<Difference>> {
    if reference.answer == desk.answer && reference.after == desk.after {
        return Ok((desk.answer, desk.after));
    }
    let mut lines = format!("{call} differs\n");
    for (name, side) in [("reference", &reference), ("desk", &desk)] {
        let (number, warnings, part) = side.answer;
        let _ = writeln!(lines, "{name}: {number}, warnings {warnings}, part {part}");
    }
    put_places(&mut lines, &reference.after, &desk.after);
    put_bytes(&mut lines, "input", input);
    put_bytes(&mut lines, "register before", before);
    put_bytes(&mut lines, "register after, reference", &reference.after);
    put_bytes(&mut lines, "register after, desk", &desk.after);
    put_hex(&mut lines, "input", input);
    put_hex(&mut lines, "register before", before);
    Err(Box::new(Difference { lines }))
}

fn put_places(lines: &mut String, reference: &[u8], desk: &[u8]) {
    const MOST: usize = 40;
    let pairs = reference.iter().zip(desk);
    let places = pairs.enumerate().filter(|(_, (one, other))| one != other);
    for (at, (one, other)) in places.take(MOST) {
        let _ = writeln!(lines, "{}: {one:02x} or {other:02x}", place(at));
    }
}

fn place(at: usize) -> String {
    let (unit, offset) = (at / BLOCK_SIZE + 1, at % BLOCK_SIZE);
    match offset.checked_sub(HEAD_SIZE) {
        None => format!("byte {at}, unit {unit}, head {offset}"),
        Some(rest) => {
            let (slot, offset) = (rest / SLOT_SIZE + 1, rest % SLOT_SIZE);
            format!("byte {at}, unit {unit}, slot {slot}, offset {offset}")
        }
    }
}

/// Bytes in readable lines.
pub fn put_bytes(lines: &mut String, name: &str, bytes: &[u8]) {
    let shown = show(bytes).unwrap_or_else(|| "no known mark\n".to_string());
    let _ = write!(lines, "\n{name}, {} bytes\n{shown}", bytes.len());
}

/// Bytes in hex.
pub fn put_hex(lines: &mut String, name: &str, bytes: &[u8]) {
    let _ = writeln!(lines, "{name} in hex");
    for line in bytes.chunks(32) {
        let digits: String = line.iter().map(|byte| format!("{byte:02x}")).collect();
        let _ = writeln!(lines, "{digits}");
    }
    lines.push('\n');
}
