//! The remark, "shown beside the answer and no part of it".

use crate::report::question_2_report_whole;

/// "the report's text, or, where t = 0, the desk's standing remark"; beside refusal 2 an empty
/// stretch of the report.
pub fn remark<'a>(report: &'a [u8], standing: &'a [u8]) -> (u8, &'a [u8]) {
    match question_2_report_whole(report).map(|whole| whole.text()) {
        None => (2, &report[..0]),
        Some([]) => (0, standing),
        Some(text) => (0, text),
    }
}

/// The desk's standing remark.
pub const STANDING: &[u8] = b"no remark";

/// A remark as it is printed: 20 to 7E as they are but for the backslash, which is two; any other
/// byte as a backslash, x and two hex digits.
pub fn printed(remark: &[u8]) -> String {
    let mut text = String::new();
    for &byte in remark {
        match byte {
            b'\\' => text.push_str("\\\\"),
            0x20..=0x7E => text.push(char::from(byte)),
            _ => text.push_str(&format!("\\x{byte:02x}")),
        }
    }
    text
}
