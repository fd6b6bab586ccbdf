//! Paper 01, the unit register, with requests A1 to A4 of paper 02, written from the papers alone:
//! an independent reference.
//!
//! The modules follow the sections of paper 01. Identifiers are the field's terms; where the
//! paper has a word of its own, the definition names it.

#![deny(unsafe_code)]
#![warn(missing_docs)]

pub mod after;
pub mod calendar;
pub mod codes;
pub mod compose;
pub mod cover_faults;
pub mod cover_sample;
pub mod damage;
pub mod early_ends;
pub mod evening;
pub mod fields;
pub mod form_faults;
pub mod forms;
pub mod minutes;
pub mod names;
pub mod processor;
pub mod quantities;
pub mod questions;
pub mod random;
pub mod record;
pub mod register;
pub mod remark;
pub mod report;
pub mod roster;
pub mod sample;
pub mod setup;
pub mod shift_log;
pub mod show;
pub mod source;
pub mod stand_alone;
pub mod unit;
pub mod warnings;
pub mod worked_examples;

pub use calendar::{date, print_date, read_date};
pub use forms::{read_form, write_form};
pub use processor::{answer, Answer};
pub use remark::remark;
pub use setup::set_up;
pub use shift_log::{register_log, remarks, shift_log};
pub use stand_alone::StandAloneBlocks;
