//! A register and reports on it, and what the reference makes of them.

use reference::random::Random;
use reference::register::BLOCK_SIZE;
use reference::report::{question_2_report_whole, stated_length};
use reference::roster::ENTRY_SIZE;
use reference::source::{broken_report, Source};
use reference::{answer, register_log};

/// A register with the roster that it was set up from, and reports, of which the last may be broken.
#[derive(Clone)]
pub struct Scenario {
    /// The roster.
    pub roster: Vec<u8>,
    /// The register before the first report.
    pub register: Vec<u8>,
    /// The reports.
    pub reports: Vec<Vec<u8>>,
}

/// What is wrong with a register on disk, beside what was printed.
#[derive(Clone, Debug, PartialEq, Eq)]
pub enum Complaint {
    /// So many printed lines are not in it.
    Lost(usize),
    /// The reference never reached it.
    Torn,
    /// Anything else.
    Other(String),
}

/// The reports as a stream is read: by their own lengths, and from one that is not whole on all the rest.
fn reports_of(stream: &[u8]) -> Vec<Vec<u8>> {
    let (mut rest, mut reports) = (stream, Vec::new());
    while !rest.is_empty() {
        let next = stated_length(rest).and_then(|length| rest.split_at_checked(length));
        let whole = next.filter(|(report, _)| question_2_report_whole(report).is_some());
        let (report, after) = whole.unwrap_or((rest, &[]));
        reports.push(report.to_vec());
        rest = after;
    }
    reports
}

impl Scenario {
    /// So many units and reports.
    pub fn random(random: &mut Random, units: usize, reports: usize) -> Scenario {
        let mut source = loop {
            let source = Source::new(random.bits(), units);
            if source.roster().len() == units * ENTRY_SIZE {
                break source;
            }
        };
        Scenario {
            roster: source.roster().to_vec(),
            register: source.register().to_vec(),
            reports: (0..reports).map(|_| source.report()).collect(),
        }
    }

    /// The last report broken, now and then.
    pub fn perhaps_broken(mut self, random: &mut Random) -> Scenario {
        if random.percent(25) {
            if let Some(last) = self.reports.last_mut() {
                *last = broken_report(random, last);
            }
            self.reports = reports_of(&self.stream());
        }
        self
    }

    /// The reports that the register as it is refuses.
    pub fn refused_only(mut self) -> Scenario {
        let register = &self.register;
        let refused = |report: &Vec<u8>| answer(&mut register.clone(), report).number > 2;
        self.reports.retain(refused);
        self
    }

    /// How many units.
    pub fn units(&self) -> usize {
        self.register.len() / BLOCK_SIZE
    }

    /// All reports.
    pub fn stream(&self) -> Vec<u8> {
        self.reports.concat()
    }

    /// What is left from a report on, with the register there.
    pub fn rest(&self, from: usize) -> Scenario {
        let mut register = self.register.clone();
        let (done, rest) = self.reports.split_at(from);
        for report in done {
            answer(&mut register, report);
        }
        Scenario {
            roster: self.roster.clone(),
            register,
            reports: rest.to_vec(),
        }
    }

    /// The reference's log and the register at its end.
    pub fn outcome(&self) -> (Vec<u8>, Vec<u8>) {
        let mut register = self.register.clone();
        let log = register_log(&mut register, &self.stream());
        (log, register)
    }

    /// How many reports are whole in so many bytes of the stream; a broken one at the end counts as soon as a byte of it is there.
    pub fn fed(&self, bytes: usize) -> usize {
        let mut end = 0;
        let starts = self.reports.iter().map(|report| {
            let start = end;
            end += report.len();
            match question_2_report_whole(report) {
                Some(_) => end,
                None => start + 1,
            }
        });
        starts.filter(|&needed| needed <= bytes).count()
    }

    /// The number of whole lines printed for reports; an error if what was printed is no beginning of the log.
    pub fn printed_lines(&self, printed: &[u8]) -> Result<usize, Complaint> {
        let (log, _) = self.outcome();
        if !log.starts_with(printed) {
            let shown = String::from_utf8_lossy(printed).into_owned();
            return Err(Complaint::Other(format!("not the log: {shown}")));
        }
        let line_feeds = printed.iter().filter(|&&byte| byte == b'\n').count();
        Ok(line_feeds.saturating_sub(1).min(self.reports.len()))
    }

    /// After how many reports the register was these bytes: at least the lines printed, at most the reports fed.
    pub fn reached(&self, printed: &[u8], fed: usize, file: &[u8]) -> Result<usize, Complaint> {
        let lines = self.printed_lines(printed)?;
        let mut register = self.register.clone();
        let mut earlier = None;
        for done in 0..=fed.max(lines) {
            if register == file && done >= lines {
                return Ok(done);
            }
            if register == file {
                earlier = Some(done);
            }
            if let Some(report) = self.reports.get(done) {
                answer(&mut register, report);
            }
        }
        Err(earlier.map_or(Complaint::Torn, |earlier| Complaint::Lost(lines - earlier)))
    }
}
