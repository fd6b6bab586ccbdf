//! Forms: reports of all kinds written as forms, forms and damaged forms read, in lent buffers of all
//! lengths.

use crate::case::{put_bytes, put_hex, Difference};
use crate::damaged;
use crate::form_kinds::{grids, marks_and_times, numbers, operations, parts_and_text, rooms};
use crate::form_kinds::{FORM_ROOMS, REPORT_ROOMS};
use crate::stages::Outcome;
use crate::tally::Tally;
use desk_comparison::{read_form, reference_read_form, reference_write_form, write_form, Written};
use reference::form_faults::{of_form, of_report};
use reference::random::Random;
use reference::report::MAX_TEXT;
use reference::source::{
    damaged_forms, regridded_forms, report_with_form, report_without_form, Source,
};
use reference::worked_examples::{early_ends, examples};

/// Reports that have a form and reports that have none, each into several rooms, and back.
pub fn written(random: &mut Random, tally: &mut Tally) -> Outcome {
    const REPORTS: usize = 30_000;
    let mut forms = Forms::new(random, tally);
    for _ in 0..REPORTS {
        let report = report_with_form(forms.random).bytes();
        forms.there_and_back(&report)?;
        let report = report_without_form(forms.random);
        forms.there_and_back(&report)?;
    }
    Ok(forms.calls)
}

/// The papers' reports and those of streams, damaged ones among them.
pub fn of_streams(random: &mut Random, tally: &mut Tally) -> Outcome {
    const STREAMS: u64 = 300;
    const REPORTS: u64 = 50;
    let mut forms = Forms::new(random, tally);
    for example in examples().into_iter().chain(early_ends()) {
        for report in &example.reports {
            forms.there_and_back(report)?;
        }
    }
    for _ in 0..STREAMS {
        let mut source = Source::new(forms.random.bits(), 64);
        for _ in 0..REPORTS {
            let report = source.report();
            forms.there_and_back(&report)?;
            let damaged = damaged::report(forms.random, &report);
            forms.write(&damaged)?;
        }
    }
    Ok(forms.calls)
}

/// Texts of 0 to 201 characters, each in a report and in a form, and with each byte in it.
pub fn texts(random: &mut Random, tally: &mut Tally) -> Outcome {
    let mut forms = Forms::new(random, tally);
    for length in 0..=MAX_TEXT + 1 {
        let mut fields = report_with_form(forms.random);
        fields.text = (0..length).map(|_| forms.random.pick(b" =a~")).collect();
        forms.there_and_back(&fields.bytes())?;
        let (before, mut form) = (fields.text.clone(), form_of(&mut fields));
        form.extend([&before, &b"\n"[..]].concat());
        forms.read(&form)?;
        let end = form.len() - 1;
        for byte in (0..=u8::MAX).filter(|_| length > 0) {
            let place = end - 1 - forms.random.below(length as u32) as usize;
            let kept = std::mem::replace(&mut form[place], byte);
            forms.read(&form)?;
            form[place] = kept;
        }
    }
    Ok(forms.calls)
}

/// The form of a report up to its text.
fn form_of(fields: &mut reference::compose::ReportFields) -> Vec<u8> {
    fields.text.clear();
    let mut form = of_report(&fields.bytes()).bytes.unwrap_or_default();
    form.pop();
    form
}

/// Forms damaged once in each place and way, and once more at random.
pub fn damaged_once(random: &mut Random, tally: &mut Tally) -> Outcome {
    const FORMS: usize = 300;
    const LONGEST: usize = 700;
    const LONG_ONES: u32 = 10;
    let mut forms = Forms::new(random, tally);
    for _ in 0..FORMS {
        let form = forms.form();
        for regridded in regridded_forms(&form) {
            forms.read(&regridded)?;
        }
        if form.len() > LONGEST && !forms.random.percent(LONG_ONES) {
            continue;
        }
        for mut damaged in damaged_forms(&form) {
            forms.read(&damaged)?;
            if forms.random.percent(10) {
                forms.change(&mut damaged);
                forms.read(&damaged)?;
            }
        }
    }
    Ok(forms.calls)
}

/// Forms cut at every place, and with a few bytes changed, put in or taken out.
pub fn cut_and_changed(random: &mut Random, tally: &mut Tally) -> Outcome {
    const FORMS: usize = 300;
    const CHANGES: usize = 1_000;
    let mut forms = Forms::new(random, tally);
    for _ in 0..FORMS {
        let form = forms.form();
        for cut in 0..form.len() {
            forms.read(&form[..cut])?;
        }
        for _ in 0..CHANGES {
            let mut damaged = form.clone();
            for _ in 0..forms.random.pick(&[1, 1, 1, 2, 3]) {
                forms.change(&mut damaged);
            }
            forms.read(&damaged)?;
        }
    }
    Ok(forms.calls)
}

type Agreed = Result<(), Box<Difference>>;

/// One way: from the bytes lent to be read to those lent to be written.
type Call = fn(&[u8], &mut [u8]) -> Written;

/// Has reports and forms go through both sides.
struct Forms<'a> {
    random: &'a mut Random,
    tally: &'a mut Tally,
    calls: u64,
}

/// What a call is to give.
struct Expected<'a> {
    name: &'static str,
    input: &'a [u8],
    /// What is wrong, by the slow reading.
    kind: &'static str,
    answer: Option<&'a [u8]>,
    refusal: u32,
    calls: [Call; 2],
}

impl<'a> Forms<'a> {
    fn new(random: &'a mut Random, tally: &'a mut Tally) -> Self {
        Forms {
            random,
            tally,
            calls: 0,
        }
    }

    /// A form of a random report.
    fn form(&mut self) -> Vec<u8> {
        let report = report_with_form(self.random).bytes();
        of_report(&report).bytes.unwrap_or_default()
    }

    /// A report as a form, and its form as a report.
    fn there_and_back(&mut self, report: &[u8]) -> Agreed {
        self.write(report)?;
        match of_report(report).bytes {
            Some(form) => self.read(&form),
            None => Ok(()),
        }
    }

    fn write(&mut self, report: &[u8]) -> Agreed {
        let finding = of_report(report);
        let expected = Expected {
            name: "write_form",
            input: report,
            kind: finding.kind,
            answer: finding.bytes.as_deref(),
            refusal: 25,
            calls: [reference_write_form, write_form],
        };
        self.call(&expected, FORM_ROOMS)?;
        self.tally.count_forms([(finding.kind, true)]);
        if let Some(form) = &finding.bytes {
            self.tally.count_forms(operations(report));
            self.tally.count_forms(grids(form));
            self.tally.count_forms(numbers(report));
            self.tally.count_forms(marks_and_times(report));
            self.tally.count_forms(parts_and_text(report));
        }
        Ok(())
    }

    fn read(&mut self, form: &[u8]) -> Agreed {
        let finding = of_form(form);
        let expected = Expected {
            name: "read_form",
            input: form,
            kind: finding.kind,
            answer: finding.bytes.as_deref(),
            refusal: 24,
            calls: [reference_read_form, read_form],
        };
        self.call(&expected, REPORT_ROOMS)?;
        self.tally.count_forms([(finding.kind, true)]);
        Ok(())
    }

    /// Into several rooms for an answer, into one for a refusal.
    fn call(&mut self, expected: &Expected, names: [&'static str; 6]) -> Agreed {
        let length = expected.answer.map(<[u8]>::len);
        let larger = self.random.pick(&[1, 7, 64, 4_000]);
        let rooms_tried = match length {
            Some(length) => {
                let any = self.random.below(length as u32) as usize;
                vec![length, length - 1, any, 0, length + larger]
            }
            None => vec![self.random.pick(&[0, larger, 4_000])],
        };
        for room in rooms_tried {
            self.call_once(expected, room)?;
            self.tally.count_forms(rooms(names, length, room));
        }
        Ok(())
    }

    /// Both sides, each into a room among other bytes, all of which are compared.
    fn call_once(&mut self, expected: &Expected, room: usize) -> Agreed {
        const AROUND: usize = 24;
        let pattern = self.random.bits() as u8;
        let before: Vec<u8> = (0..room + 2 * AROUND)
            .map(|at| pattern.wrapping_add(at as u8))
            .collect();
        let mut after = before.clone();
        let right = match expected.answer {
            None => (expected.refusal, 0),
            Some(answer) if answer.len() > room => (43, 0),
            Some(answer) => {
                after[AROUND..AROUND + answer.len()].copy_from_slice(answer);
                (0, answer.len() as u32)
            }
        };
        let sides = expected.calls.map(|call| {
            let mut given = before.clone();
            let written = call(expected.input, &mut given[AROUND..AROUND + room]);
            (written, given)
        });
        self.calls += 1;
        if sides
            .iter()
            .all(|(written, given)| *written == right && *given == after)
        {
            return Ok(());
        }
        Err(difference(expected, room, right, &after, &sides))
    }

    /// One byte changed, put in or taken out.
    fn change(&mut self, form: &mut Vec<u8>) {
        let Some(last) = form.len().checked_sub(1) else {
            return;
        };
        let at = self.random.below(last as u32 + 1) as usize;
        let byte = match self.random.below(3) {
            0 => self.random.bits() as u8,
            1 => self.random.pick(b"0123456789"),
            _ => self.random.pick(b" =\n\r-+.:aAfFgG\0"),
        };
        match self.random.below(6) {
            0 => form.insert(at, byte),
            1 => _ = form.remove(at),
            2 => form.swap(at, last.min(at + 1)),
            _ => form[at] = byte,
        }
    }
}

fn difference(
    expected: &Expected,
    room: usize,
    right: Written,
    after: &[u8],
    sides: &[(Written, Vec<u8>); 2],
) -> Box<Difference> {
    let [(reference, by_reference), (desk, by_desk)] = sides;
    let mut lines = format!(
        "{} differs, into {room} bytes among others
by itself: {}
number and length: right is {right:?}, reference {reference:?}, desk {desk:?}\n",
        expected.name, expected.kind
    );
    for (name, bytes) in [
        ("input", expected.input),
        ("right", after),
        ("reference", by_reference),
        ("desk", by_desk),
    ] {
        lines += &format!("\n{name}: \"{}\"\n", bytes.escape_ascii());
    }
    put_bytes(&mut lines, "input", expected.input);
    put_hex(&mut lines, "input", expected.input);
    Box::new(Difference { lines })
}
