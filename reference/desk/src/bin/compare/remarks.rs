//! The remark: number, source, place, length and bytes.

use crate::case::{put_bytes, put_hex, Difference};
use desk_comparison::Remark;
use reference::fields::{put_u16, u16_at};
use reference::random::Random;
use reference::record::MAX_PARTS;
use reference::report::{head, question_2_report_whole, HEAD_SIZE, MAX_TEXT, PART_SIZE, TEXT_MARK};
use std::fmt::Write;

/// The kinds of remark, and of which a call was.
pub type Kinds = [(&'static str, bool); 12];

/// The remark of a report beside a standing text by both sides: the kinds it was of.
pub fn compare(report: &[u8], standing: &[u8]) -> Result<Kinds, Box<Difference>> {
    // With a byte between the two each stretch lies in one of them only, even an empty one.
    let buffer = [report, &[0], standing].concat();
    let (report, rest) = buffer.split_at(report.len());
    let standing = &rest[1..];
    let (number, text) = reference::remark(report, standing);
    let expected = located(number.into(), text, report, standing);
    let given = desk_comparison::remark(report, standing);
    if given == expected && stretch(given, report, standing) == Some(text) {
        return Ok(kinds(report, standing));
    }
    let mut lines = format!("remark differs\nreference: {expected:?}\ndesk: {given:?}\n");
    put_bytes(&mut lines, "report", report);
    let _ = writeln!(lines, "standing text: {}", standing.escape_ascii());
    put_hex(&mut lines, "report", report);
    put_hex(&mut lines, "standing text", standing);
    Err(Box::new(Difference { lines }))
}

/// Where the reference's stretch lies, by its address; the standing text comes after the report.
fn located(number: u32, text: &[u8], report: &[u8], standing: &[u8]) -> Remark {
    let at = text.as_ptr().addr();
    let in_standing = at > report.as_ptr_range().end.addr();
    let start = if in_standing { standing } else { report };
    Remark {
        number,
        source: u32::from(in_standing),
        place: (at - start.as_ptr().addr()) as u64,
        length: text.len() as u64,
    }
}

/// The bytes that a remark names, if there are as many.
fn stretch<'a>(remark: Remark, report: &'a [u8], standing: &'a [u8]) -> Option<&'a [u8]> {
    let source = [report, standing].get(remark.source as usize).copied()?;
    let place = usize::try_from(remark.place).ok()?;
    let end = place.checked_add(usize::try_from(remark.length).ok()?)?;
    source.get(place..end)
}

fn kinds(report: &[u8], standing: &[u8]) -> Kinds {
    let whole = question_2_report_whole(report);
    let text = whole.map(|whole| whole.text());
    let length = text.map(<[u8]>::len);
    let has_text = length.is_some_and(|length| length > 0);
    let parts = whole.map(|whole| whole.parts().count());
    [
        ("not whole", whole.is_none()),
        ("not whole, no byte", report.is_empty()),
        (
            "not whole, standing text empty",
            whole.is_none() && standing.is_empty(),
        ),
        ("standing text", length == Some(0) && !standing.is_empty()),
        (
            "standing text, empty",
            length == Some(0) && standing.is_empty(),
        ),
        ("text of 1 byte", length == Some(1)),
        (
            "text of 2 to 199 bytes",
            length.is_some_and(|length| (2..MAX_TEXT).contains(&length)),
        ),
        ("text of 200 bytes", length == Some(MAX_TEXT)),
        ("text, standing text empty", has_text && standing.is_empty()),
        (
            "text, standing text the same",
            has_text && text == Some(standing),
        ),
        ("text after no part", has_text && parts == Some(0)),
        ("text after 100 parts", has_text && parts == Some(MAX_PARTS)),
    ]
}

/// A whole report with another text, which may be too long.
pub fn with_text(report: &[u8], text: &[u8]) -> Vec<u8> {
    let parts_end = HEAD_SIZE + usize::from(u16_at(report, head::PART_COUNT)) * PART_SIZE;
    let mut report = report[..parts_end + TEXT_MARK.len()].to_vec();
    put_u16(&mut report, head::TEXT_LENGTH, text.len() as u16);
    report.extend_from_slice(text);
    report
}

/// A whole report with a text of any bytes, often on the edge of its length.
pub fn with_random_text(random: &mut Random, report: &[u8]) -> Vec<u8> {
    let any = random.between(0..=MAX_TEXT as u32) as usize;
    let length = random.pick(&[0, 0, 1, any, any, MAX_TEXT]);
    let mut text = vec![0; length];
    random.fill(&mut text);
    with_text(report, &text)
}

/// A standing text: none, the desk's, any bytes, the report's own text or all of the report.
pub fn random_standing(random: &mut Random, report: &[u8]) -> Vec<u8> {
    let text = question_2_report_whole(report).map(|whole| whole.text());
    match random.below(5) {
        0 => Vec::new(),
        1 => b"no remark".to_vec(),
        2 => text.unwrap_or_default().to_vec(),
        3 => report.to_vec(),
        _ => {
            let mut bytes = vec![0; random.below(1_000) as usize];
            random.fill(&mut bytes);
            bytes
        }
    }
}
