//! The remark: which stretch of which slice.

use crate::{derating, with, W1};
use reference::remark;

const STANDING: &[u8] = b"call the desk";

#[test]
fn the_reports_text_where_it_lies() {
    let report = with(derating(W1), |fields| fields.text = b"boiler leak".to_vec()).bytes();
    let (number, text) = remark(&report, STANDING);
    assert_eq!((number, text), (0, &b"boiler leak"[..]));
    assert_eq!(text.as_ptr_range().end, report.as_ptr_range().end);
}

#[test]
fn the_standing_remark_where_there_is_none() {
    let report = derating(W1).bytes();
    let (number, text) = remark(&report, STANDING);
    assert_eq!(number, 0);
    assert!(std::ptr::eq(text, STANDING));
    assert_eq!(remark(&report, &[]), (0, &[][..]));
}

#[test]
fn refused_reports_show_their_text_too() {
    let report = with(derating(W1), |fields| {
        fields.unit = 99;
        fields.stamp = u32::MAX;
        fields.text = vec![0xFF];
    });
    assert_eq!(remark(&report.bytes(), STANDING), (0, &[0xFF][..]));
}

#[test]
fn a_report_that_is_not_whole() {
    let report = derating(W1).bytes();
    for broken in [&[][..], &report[1..], &report[..report.len() - 1]] {
        assert_eq!(remark(broken, STANDING), (2, &[][..]));
    }
}
