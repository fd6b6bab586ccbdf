//! Streams, whole, cut short and damaged.

use reference::compose::PartFields;
use reference::fields::{put_u16, put_u32, u16_at};
use reference::quantities::LAST_MINUTE;
use reference::random::Random;
use reference::report::{head, HEAD_SIZE, MAX_TEXT, PART_SIZE};
use reference::roster::{ENTRY_MARK, ENTRY_SIZE};
use reference::shift_log::LOG_ENTRIES;
use reference::source::Source;

/// A roster and reports on its units, or what damage left of them.
pub struct Stream {
    /// The roster.
    pub roster: Vec<u8>,
    /// The reports in order.
    pub reports: Vec<Vec<u8>>,
}

impl Stream {
    /// At most 8 entries and so many reports.
    pub fn random(random: &mut Random, reports: u32) -> Stream {
        let mut source = Source::new(random.bits(), LOG_ENTRIES);
        Stream {
            roster: source.roster().to_vec(),
            reports: (0..reports).map(|_| source.report()).collect(),
        }
    }

    /// All of it.
    pub fn bytes(&self) -> Vec<u8> {
        [self.roster.clone(), self.reports.concat()].concat()
    }

    /// A report, if there is one.
    fn pick(&mut self, random: &mut Random) -> Option<&mut Vec<u8>> {
        let count = self.reports.len() as u32;
        let index = random.below(count.max(1)) as usize;
        self.reports.get_mut(index)
    }

    /// Bytes before, between or after the reports.
    fn insert(&mut self, random: &mut Random, bytes: Vec<u8>) {
        let index = random.between(0..=self.reports.len() as u32);
        self.reports.insert(index as usize, bytes);
    }
}

/// 0 to 40.
pub fn few(random: &mut Random) -> u32 {
    random.between(0..=40)
}

fn parts_end(report: &[u8]) -> usize {
    HEAD_SIZE + usize::from(u16_at(report, head::PART_COUNT)) * PART_SIZE
}

fn place(random: &mut Random, from: usize, to: usize) -> usize {
    random.between(from as u32..=to as u32) as usize
}

/// The stream up to a place in its roster or in a report, or between two.
pub fn cut(random: &mut Random, stream: &Stream) -> Vec<u8> {
    let count = stream.reports.len();
    if count == 0 || random.percent(15) {
        let end = place(random, 0, stream.roster.len());
        return stream.roster[..end].to_vec();
    }
    let index = place(random, 0, count - 1);
    let report = &stream.reports[index];
    let end = place_in_report(random, report);
    [
        &stream.roster,
        &stream.reports[..index].concat(),
        &report[..end],
    ]
    .concat()
}

/// A place in the head, the parts, the text mark, the text, or where one of them ends.
fn place_in_report(random: &mut Random, report: &[u8]) -> usize {
    let parts_end = parts_end(report);
    match random.below(6) {
        0 => place(random, 0, HEAD_SIZE),
        1 => HEAD_SIZE,
        2 => place(random, HEAD_SIZE, parts_end),
        3 => parts_end,
        4 => parts_end + 1,
        _ => place(random, parts_end + 2, report.len()),
    }
}

/// Changes a stream in one way.
pub type Damage = fn(&mut Random, &mut Stream);

/// The ways, each tried equally often.
pub const DAMAGES: [Damage; 12] = [
    change_bytes,
    change_mark,
    change_zero,
    too_many_parts,
    too_much_text,
    another_count,
    late_stamp,
    no_ones_unit,
    lone_byte,
    more_entries,
    entry_among_reports,
    lost_or_added_byte,
];

/// One to three bytes anywhere.
fn change_bytes(random: &mut Random, stream: &mut Stream) {
    for _ in 0..random.between(1..=3) {
        let changed = random.bits() as u8;
        if random.percent(10) {
            let at = place(random, 0, stream.roster.len() - 1);
            stream.roster[at] = changed;
        } else if let Some(report) = stream.pick(random) {
            let at = place(random, 0, report.len() - 1);
            report[at] = changed;
        }
    }
}

/// One bit of a report's, a part's or the text's mark.
fn change_mark(random: &mut Random, stream: &mut Stream) {
    let (kind, byte) = (random.below(3), place(random, 0, 1));
    if let Some(report) = stream.pick(random) {
        let parts_end = parts_end(report);
        let parts = (parts_end - HEAD_SIZE) / PART_SIZE;
        let at = match kind {
            0 => 0,
            1 if parts > 0 => HEAD_SIZE + place(random, 0, parts - 1) * PART_SIZE,
            _ => parts_end,
        };
        report[at + byte] ^= 1 << random.below(8);
    }
}

/// A field that holds 0.
fn change_zero(random: &mut Random, stream: &mut Stream) {
    if let Some(report) = stream.pick(random) {
        let parts = (parts_end(report) - HEAD_SIZE) / PART_SIZE;
        let at = if parts > 0 && random.percent(50) {
            HEAD_SIZE + place(random, 0, parts - 1) * PART_SIZE + 2
        } else {
            head::ZERO
        };
        report[at + place(random, 0, 1)] = random.pick(&[1, 0x80]);
    }
}

/// k above 100, half the time with as many parts.
fn too_many_parts(random: &mut Random, stream: &mut Stream) {
    let count = random.pick(&[101, 102, 255, 256, 356, u16::MAX]);
    let there = random.percent(50);
    if let Some(report) = stream.pick(random) {
        let end = parts_end(report);
        let missing = usize::from(count) - (end - HEAD_SIZE) / PART_SIZE;
        let part = PartFields {
            start: 0,
            end: 15,
            power: 1,
        };
        put_u16(report, head::PART_COUNT, count);
        if there {
            report.splice(end..end, part.bytes().repeat(missing));
        }
    }
}

/// t above 200, half the time with as much text.
fn too_much_text(random: &mut Random, stream: &mut Stream) {
    let length = random.pick(&[MAX_TEXT as u16 + 1, 255, 256, 456, u16::MAX]);
    let there = random.percent(50);
    if let Some(report) = stream.pick(random) {
        let text_start = parts_end(report) + 2;
        put_u16(report, head::TEXT_LENGTH, length);
        if there {
            report.resize(text_start + usize::from(length), b'x');
        }
    }
}

/// k or t in range and not what is there: the next report is looked for elsewhere.
fn another_count(random: &mut Random, stream: &mut Stream) {
    let (at, most) = random.pick(&[(head::PART_COUNT, 100), (head::TEXT_LENGTH, 200)]);
    let count = random.pick(&[0, 1, 2, 3, 50, most]);
    if let Some(report) = stream.pick(random) {
        put_u16(report, at, count);
    }
}

/// The report stays whole.
fn late_stamp(random: &mut Random, stream: &mut Stream) {
    let stamp = random.pick(&[LAST_MINUTE.0, LAST_MINUTE.0 + 1, u32::MAX]);
    if let Some(report) = stream.pick(random) {
        put_u32(report, head::STAMP, stamp);
    }
}

/// The report stays whole.
fn no_ones_unit(random: &mut Random, stream: &mut Stream) {
    let beyond = (stream.roster.len() / ENTRY_SIZE) as u16 + 1;
    let unit = random.pick(&[0, beyond, 9, 10, 64, 256, u16::MAX]);
    if let Some(report) = stream.pick(random) {
        put_u16(report, head::UNIT, unit);
    }
}

/// A byte 4A after the roster, between reports or at the end.
fn lone_byte(random: &mut Random, stream: &mut Stream) {
    let index = random.pick(&[0, stream.reports.len() / 2, stream.reports.len()]);
    stream.reports.insert(index, vec![ENTRY_MARK[0]]);
    if random.percent(50) {
        stream.reports.truncate(index + 1);
    }
}

/// Nine entries or more, the last one whole or cut short, with or without reports.
fn more_entries(random: &mut Random, stream: &mut Stream) {
    let entries = random.pick(&[LOG_ENTRIES, LOG_ENTRIES + 1, LOG_ENTRIES + 2, 64]);
    stream.roster = stream.roster.repeat(entries);
    stream.roster.truncate(entries * ENTRY_SIZE);
    if random.percent(30) {
        let end = stream.roster.len() - place(random, 1, ENTRY_SIZE - 1);
        stream.roster.truncate(end);
        stream.reports.clear();
    }
}

/// An entry, whole or cut short, before, between or after the reports.
fn entry_among_reports(random: &mut Random, stream: &mut Stream) {
    let length = random.pick(&[2, 3, ENTRY_SIZE - 1, ENTRY_SIZE, ENTRY_SIZE]);
    let entry = stream.roster[..length].to_vec();
    stream.insert(random, entry);
}

/// A byte less or more, so that all after it is read from a wrong place.
fn lost_or_added_byte(random: &mut Random, stream: &mut Stream) {
    let added = random.bits() as u8;
    let lost = random.percent(50);
    if let Some(report) = stream.pick(random) {
        let at = place(random, 0, report.len() - 1);
        if lost {
            report.remove(at);
        } else {
            report.insert(at, added);
        }
    }
}
