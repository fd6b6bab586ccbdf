//! The proved desk's C functions, with safe names.

#![warn(missing_docs)]

use reference::quantities::Minute;

extern "C" {
    fn desk_set_up(
        roster: *const u8,
        roster_len: usize,
        register: *mut u8,
        register_len: usize,
    ) -> u32;
    fn desk_answer(
        register: *mut u8,
        register_len: usize,
        report: *const u8,
        report_len: usize,
    ) -> u32;
    fn desk_remark(
        report: *const u8,
        report_len: usize,
        standing: *const u8,
        standing_len: usize,
        place: *mut u64,
        length: *mut u64,
    ) -> u32;
    fn desk_read_date(text: *const u8, text_length: usize) -> u64;
    fn desk_print_date(minute: u32, text: *mut u8, text_length: usize) -> u32;
    fn desk_write_form(report: *const u8, report_len: usize, form: *mut u8, form_len: usize)
        -> u64;
    fn desk_read_form(form: *const u8, form_len: usize, report: *mut u8, report_len: usize) -> u64;
}

/// Set-up: 0, 20 or 21.
pub fn set_up(roster: &[u8], register: &mut [u8]) -> u32 {
    // SAFETY: both are whole Rust slices and don't overlap; any bytes and lengths are allowed.
    unsafe {
        desk_set_up(
            roster.as_ptr(),
            roster.len(),
            register.as_mut_ptr(),
            register.len(),
        )
    }
}

/// Number, warnings and part.
pub type Answer = (u32, u32, u32);

/// The answer to a report.
pub fn answer(register: &mut [u8], report: &[u8]) -> Answer {
    // SAFETY: as for set-up.
    let packed = unsafe {
        desk_answer(
            register.as_mut_ptr(),
            register.len(),
            report.as_ptr(),
            report.len(),
        )
    };
    (packed % 256, packed / 256 % 256, packed / 65_536)
}

/// The reference's answer to a report, in the same form.
pub fn reference_answer(register: &mut [u8], report: &[u8]) -> Answer {
    let answer = reference::answer(register, report);
    (
        answer.number.into(),
        answer.warnings.into(),
        answer.part.into(),
    )
}

/// A remark as the desk hands it back.
#[derive(Clone, Copy, Debug, PartialEq, Eq)]
pub struct Remark {
    /// 0, or 2 if the report is not whole.
    pub number: u32,
    /// 1 where the remark is the standing text, 0 where it lies in the report.
    pub source: u32,
    /// Where it begins in the standing text or in the report.
    pub place: u64,
    /// How long it is.
    pub length: u64,
}

/// The remark beside the answer to a report.
pub fn remark(report: &[u8], standing: &[u8]) -> Remark {
    let (mut place, mut length) = (u64::MAX, u64::MAX);
    // SAFETY: as for set-up; place and length are two u64 of this function's own.
    let packed = unsafe {
        desk_remark(
            report.as_ptr(),
            report.len(),
            standing.as_ptr(),
            standing.len(),
            &mut place,
            &mut length,
        )
    };
    Remark {
        number: packed % 256,
        source: packed / 256,
        place,
        length,
    }
}

// Dates and forms take little time, so both sides are wrapped alike: each is a call of the library or of the reference.

/// Number, 0 or 23, and minute of a text.
#[inline]
pub fn read_date(text: &[u8]) -> (u32, u32) {
    // SAFETY: a whole Rust slice; any bytes and lengths are allowed.
    let packed = unsafe { desk_read_date(text.as_ptr(), text.len()) };
    (packed as u32, (packed >> 32) as u32)
}

/// The same by the reference.
#[inline]
pub fn reference_read_date(text: &[u8]) -> (u32, u32) {
    match reference::read_date(text) {
        Ok(Minute(minute)) => (0, minute),
        Err(number) => (number.into(), 0),
    }
}

/// Prints a minute's date into the first bytes of a text: 0, 22 or 43.
#[inline]
pub fn print_date(minute: u32, text: &mut [u8]) -> u32 {
    // SAFETY: as for reading; the desk writes into the slice alone.
    unsafe { desk_print_date(minute, text.as_mut_ptr(), text.len()) }
}

/// The same by the reference.
#[inline]
pub fn reference_print_date(minute: u32, text: &mut [u8]) -> u32 {
    reference::print_date(minute, text).map_or_else(u32::from, |()| 0)
}

/// Number and length.
pub type Written = (u32, u32);

/// Writes the form of a report into the first bytes of a form: 0, 25 or 43, and its length.
#[inline]
pub fn write_form(report: &[u8], form: &mut [u8]) -> Written {
    // SAFETY: both are whole Rust slices and don't overlap; any bytes and lengths are allowed.
    let packed =
        unsafe { desk_write_form(report.as_ptr(), report.len(), form.as_mut_ptr(), form.len()) };
    (packed as u32, (packed >> 32) as u32)
}

/// Writes the report of a form into the first bytes of a report: 0, 24 or 43, and its length.
#[inline]
pub fn read_form(form: &[u8], report: &mut [u8]) -> Written {
    // SAFETY: as for writing.
    let packed =
        unsafe { desk_read_form(form.as_ptr(), form.len(), report.as_mut_ptr(), report.len()) };
    (packed as u32, (packed >> 32) as u32)
}

fn written(length: Result<usize, u8>) -> Written {
    match length {
        Ok(length) => (0, length as u32),
        Err(number) => (number.into(), 0),
    }
}

/// The form of a report by the reference.
#[inline]
pub fn reference_write_form(report: &[u8], form: &mut [u8]) -> Written {
    written(reference::write_form(report, form))
}

/// The report of a form by the reference.
#[inline]
pub fn reference_read_form(form: &[u8], report: &mut [u8]) -> Written {
    written(reference::read_form(form, report))
}
