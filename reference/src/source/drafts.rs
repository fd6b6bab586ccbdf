//! Random reports that fit what a block holds, most of them good, many on an edge.

use super::Pace;
use crate::codes::{
    Direction, EventCode, Mark, Operation, RecordType, UnitKind, OFF_GRID_QUALIFICATIONS,
    OUTAGE_QUALIFICATIONS,
};
use crate::compose::ReportFields;
use crate::quantities::{LAST_MINUTE, MAX_POWER, QUARTER};
use crate::questions::event_transition;
use crate::random::Random;
use crate::record::{Record, MAX_PARTS, MRID_SIZE};
use crate::register::Block;
use crate::report::MAX_TEXT;
use crate::unit::PowerRange;

/// A report on a block in the making.
pub(super) struct Draft<'d> {
    random: &'d mut Random,
    block: &'d Block<'d>,
    used_mrids: &'d [[u8; MRID_SIZE]],
    stamp: u32,
}

/// The limits that live records of the other types set to a power.
struct Limits {
    highest_level: u32,
    lowest_level: u32,
    positive: u32,
    negative: u32,
}

/// The first quarter hour after a minute.
pub(super) fn quarter_after(minute: u32) -> u32 {
    (minute / QUARTER + 1) * QUARTER
}

fn signed(power: u32) -> i32 {
    i32::try_from(power).unwrap_or(i32::MAX)
}

impl<'d> Draft<'d> {
    pub(super) fn new(
        random: &'d mut Random,
        block: &'d Block<'d>,
        used_mrids: &'d [[u8; MRID_SIZE]],
        pace: Pace,
    ) -> Draft<'d> {
        let stamp = pick_stamp(random, block, pace);
        Draft {
            random,
            block,
            used_mrids,
            stamp,
        }
    }

    /// The report.
    pub(super) fn report(&mut self) -> ReportFields {
        let is_w1 = self.block.unit.kind == UnitKind::W1;
        let events = if is_w1 { 15 } else { 0 };
        let mut fields = match self.random.weighted(&[52, 25, 8, 15, events]) {
            0 => self.creation(),
            1 => self.update(),
            2 => self.withdrawal(),
            3 => self.early_end(),
            _ => self.event(),
        };
        fields.text = self.text();
        fields
    }

    fn text(&mut self) -> Vec<u8> {
        let length = match self.random.below(20) {
            0 => MAX_TEXT as u32,
            1..=6 => self.random.between(1..=20),
            _ => 0,
        };
        (0..length).map(|_| self.text_byte()).collect()
    }

    /// One that can be printed as a rule, now and then any.
    fn text_byte(&mut self) -> u8 {
        const PRINTED: u64 = 0x7E - 0x20 + 1;
        let bits = self.random.bits();
        let any = bits >> 8;
        match bits % 8 {
            0 => any as u8,
            _ => 0x20 + (any % PRINTED) as u8,
        }
    }

    fn blank(&self, record_type: RecordType) -> ReportFields {
        ReportFields::creation(self.block.number, self.block.unit.owner, record_type)
            .stamped(self.stamp)
    }

    /// The records of the block, live or dead at the stamp.
    fn records(&self, live: bool) -> Vec<Record<'d>> {
        let stamp = self.stamp;
        let records = self.block.slots.iter().flatten().copied();
        records
            .filter(|record| (record.period.end.0 > stamp) == live)
            .collect()
    }

    /// How many stops and off-grid records run.
    fn running(&self) -> usize {
        let mut records = self.records(true);
        records.retain(|record| !record.record_type.has_parts() && record.begun());
        records.len()
    }

    fn creation(&mut self) -> ReportFields {
        let running = self.running();
        let closing = running > 0 && self.random.percent(15);
        let record_type = if closing {
            RecordType::Outage
        } else {
            self.creation_type()
        };
        let mut fields = self.blank(record_type);
        fields.direction = self.direction(record_type, closing && running > 1) as u8;
        fields.qualification = self.qualification(record_type);
        fields.mrid = self.new_mrid();
        fields.revision = match self.random.below(20) {
            0 => 9_999,
            1..=9 => self.random.between(1..=50) as u16,
            _ => 1,
        };
        let begun = match record_type {
            RecordType::OffGrid => true,
            RecordType::Outage => closing || self.random.percent(45),
            _ => self.random.percent(25),
        };
        self.put_period(&mut fields, record_type, begun);
        self.put_parts(&mut fields, record_type);
        fields
    }

    fn creation_type(&mut self) -> RecordType {
        let weights = match self.block.unit.kind {
            UnitKind::W1 => [20, 22, 18, 26, 14],
            UnitKind::M1 | UnitKind::Z1 => [18, 28, 24, 30, 0],
            UnitKind::A => [40, 35, 25, 0, 0],
        };
        let types = [
            RecordType::Outage,
            RecordType::PositiveDerating,
            RecordType::NegativeDerating,
            RecordType::MustRun,
            RecordType::OffGrid,
        ];
        types[self.random.weighted(&weights)]
    }

    fn direction(&mut self, record_type: RecordType, both: bool) -> Direction {
        let one_way = [Direction::Generation, Direction::Consumption];
        match self.block.unit.kind {
            UnitKind::W1 | UnitKind::Z1 => Direction::Generation,
            UnitKind::M1 | UnitKind::A => {
                if record_type == RecordType::Outage && (both || self.random.percent(34)) {
                    Direction::Both
                } else {
                    self.random.pick(&one_way)
                }
            }
        }
    }

    fn qualification(&mut self, record_type: RecordType) -> u8 {
        let codes = match record_type {
            RecordType::Outage => OUTAGE_QUALIFICATIONS,
            RecordType::OffGrid => OFF_GRID_QUALIFICATIONS,
            RecordType::Event => 1..=6,
            _ => return 0,
        };
        self.random
            .between(u32::from(*codes.start())..=u32::from(*codes.end())) as u8
    }

    fn new_mrid(&mut self) -> [u8; MRID_SIZE] {
        let mut mrid = [0; MRID_SIZE];
        let dead = self.records(false);
        match self.random.below(40) {
            0 => {}
            1 | 2 if !self.used_mrids.is_empty() => mrid = self.random.pick(self.used_mrids),
            3..=5 if !dead.is_empty() => mrid = self.random.pick(&dead).mrid,
            6..=15 => mrid = [self.random.between(1..=255) as u8; MRID_SIZE],
            _ => self.random.fill(&mut mrid),
        }
        mrid
    }

    /// Other live records of the type whose direction meets the report's.
    fn peers(&self, fields: &ReportFields, record_type: RecordType) -> Vec<Record<'d>> {
        let direction = Direction::from_code(fields.direction).unwrap_or(Direction::Both);
        let mut peers = self.records(true);
        peers.retain(|other| {
            other.record_type == record_type
                && other.direction.meets(direction)
                && other.mrid != fields.mrid
        });
        peers
    }

    /// Live records of other types that share the report's direction.
    fn partners(&self, fields: &ReportFields, record_type: RecordType) -> Vec<Record<'d>> {
        let mut partners = self.records(true);
        partners.retain(|other| {
            other.record_type.has_parts()
                && other.record_type != record_type
                && other.direction as u8 == fields.direction
        });
        partners
    }

    fn put_period(&mut self, fields: &mut ReportFields, record_type: RecordType, begun: bool) {
        let peers = self.peers(fields, record_type);
        let partners = self.partners(fields, record_type);
        fields.start_mark = if begun { Mark::Actual } else { Mark::Planned } as u8;
        fields.start = if begun {
            self.begun_start(record_type, &peers)
        } else {
            self.planned_start(&peers, &partners)
        };
        let quarters = match self.random.below(12) {
            0 => self.random.between(100..=140),
            _ => self.random.between(1..=8),
        };
        let from = fields.start.max(self.stamp);
        fields.end = quarter_after(from) + (quarters - 1) * QUARTER;
        if let Some(other) = partners.first().filter(|_| self.random.percent(50)) {
            if other.period.end.0 > from {
                fields.end = other.period.end.0;
            }
        }
        self.make_room(fields, &peers);
        // 26,298,705 is the last quarter hour.
        let last_quarter = LAST_MINUTE.0 / QUARTER * QUARTER;
        fields.end = fields.end.min(last_quarter.max(fields.start));
    }

    fn planned_start(&mut self, peers: &[Record], partners: &[Record]) -> u32 {
        let soon = quarter_after(self.stamp);
        let start = match self.random.below(10) {
            0..=3 => {
                let last_end = peers.iter().map(|other| other.period.end.0).max();
                last_end.unwrap_or(soon) + QUARTER * self.random.below(2)
            }
            4..=7 if !partners.is_empty() => self.random.pick(partners).period.start.0,
            _ => soon + QUARTER * self.random.below(16),
        };
        start.max(soon).min(LAST_MINUTE.0)
    }

    fn begun_start(&mut self, record_type: RecordType, peers: &[Record]) -> u32 {
        let since = self.block.unit.row.since.0;
        let stamp = self.stamp;
        let peer_start = peers.first().map_or(stamp, |other| other.period.start.0);
        let recent = stamp.saturating_sub(self.random.below(120));
        let after_since = if since < stamp {
            self.random.between(since + 1..=stamp)
        } else {
            stamp
        };
        let moves_state = self.block.unit.kind == UnitKind::W1
            && matches!(record_type, RecordType::Outage | RecordType::OffGrid);
        let start = match self.random.below(12) {
            0 => peer_start,
            1 => peer_start + 1,
            2 => since,
            3 => since + 1,
            4 | 5 => stamp,
            _ if moves_state => after_since,
            _ => recent,
        };
        start.min(stamp)
    }

    /// Mostly, ends the period where the next record of the type starts.
    fn make_room(&mut self, fields: &mut ReportFields, peers: &[Record]) {
        if self.random.percent(25) {
            return;
        }
        let next = peers
            .iter()
            .map(|other| other.period.start.0)
            .filter(|&start| start > fields.start.max(self.stamp))
            .min();
        fields.end = fields.end.min(next.unwrap_or(u32::MAX));
    }

    /// Parts of types 2 to 4 over the period.
    fn put_parts(&mut self, fields: &mut ReportFields, record_type: RecordType) {
        fields.parts.clear();
        if !record_type.has_parts() || fields.start >= fields.end {
            return;
        }
        let mut ends = self.inner_change_points(fields);
        ends.push(fields.end);
        let limits = self.limits(fields, record_type);
        let wild = self.random.percent(12);
        let edge = if self.random.percent(30) {
            self.random.below(ends.len() as u32) as usize
        } else {
            MAX_PARTS
        };
        let steps: Vec<(u32, i32)> = ends
            .iter()
            .enumerate()
            .map(|(index, &end)| {
                let power = if wild {
                    self.wild_power(fields)
                } else {
                    self.power(fields, record_type, &limits, index == edge)
                };
                (end, signed(power))
            })
            .collect();
        *fields = fields.clone().stepping(&steps);
    }

    /// Minutes inside the period where a part may end: quarter hours, and any minute in the past.
    fn inner_change_points(&mut self, fields: &ReportFields) -> Vec<u32> {
        const MOST: usize = 400;
        let past = fields.start + 1..=self.stamp.min(fields.end - 1);
        let from = quarter_after(fields.start.max(self.stamp));
        let planned = (from..fields.end).step_by(QUARTER as usize);
        let mut free: Vec<u32> = past.rev().take(MOST).chain(planned.take(MOST)).collect();
        let wanted = match self.random.below(12) {
            0 | 1 => MAX_PARTS - 1,
            2 => self.random.below(MAX_PARTS as u32) as usize,
            3..=7 => self.random.between(1..=4) as usize,
            _ => 0,
        };
        let count = wanted.min(free.len());
        for index in 0..count {
            let other = self.random.between(index as u32..=free.len() as u32 - 1) as usize;
            free.swap(index, other);
        }
        free.truncate(count);
        free.sort_unstable();
        free
    }

    fn limits(&self, fields: &ReportFields, record_type: RecordType) -> Limits {
        let mut limits = Limits {
            highest_level: 0,
            lowest_level: MAX_POWER.0,
            positive: 0,
            negative: 0,
        };
        for other in self.partners(fields, record_type) {
            for part in other.parts.iter() {
                let power = part.power.0;
                match other.record_type {
                    RecordType::MustRun => {
                        limits.highest_level = limits.highest_level.max(power);
                        limits.lowest_level = limits.lowest_level.min(power);
                    }
                    RecordType::PositiveDerating => {
                        limits.positive = limits.positive.max(power);
                    }
                    _ => limits.negative = limits.negative.max(power),
                }
            }
        }
        limits
    }

    fn range(&self, fields: &ReportFields) -> PowerRange {
        let direction = Direction::from_code(fields.direction).unwrap_or(Direction::Generation);
        self.block.unit.powers.of(direction)
    }

    /// The lowest and the highest power that suit the other records.
    fn bounds(&self, range: PowerRange, record_type: RecordType, limits: &Limits) -> (u32, u32) {
        let (p_max, p_min, span) = (range.p_max.0, range.p_min.0, range.span().0);
        let less = |high: u32, taken: u32| (0, high.saturating_sub(taken));
        let is_z1 = self.block.unit.kind == UnitKind::Z1;
        match (record_type, is_z1) {
            (RecordType::PositiveDerating, true) => {
                less(span, limits.highest_level + limits.negative)
            }
            (RecordType::PositiveDerating, false) => less(p_max, limits.highest_level),
            (RecordType::NegativeDerating, true) => {
                less(span, limits.highest_level + limits.positive)
            }
            (RecordType::NegativeDerating, false) => {
                (0, span.min(limits.lowest_level.saturating_sub(p_min)))
            }
            (_, true) => less(span, limits.positive + limits.negative),
            (_, false) => {
                let high = p_max.saturating_sub(limits.positive);
                ((p_min + limits.negative).min(high), high)
            }
        }
    }

    /// A power inside the limits; on an edge, the last one inside or the first one outside.
    fn power(
        &mut self,
        fields: &ReportFields,
        record_type: RecordType,
        limits: &Limits,
        edge: bool,
    ) -> u32 {
        let range = self.range(fields);
        let (low, high) = self.bounds(range, record_type, limits);
        let outside = [low.saturating_sub(1), high + 1, range.span().0 + 1];
        let edges = [low, high, outside[0], outside[1], outside[2], range.p_max.0];
        if edge {
            self.random.pick(&edges)
        } else {
            self.random.between(low..=high)
        }
    }

    fn wild_power(&mut self, fields: &ReportFields) -> u32 {
        let range = self.range(fields);
        let (p_max, p_min) = (range.p_max.0, range.p_min.0);
        let any = self.random.below(p_max + 1);
        let list = [
            0,
            any,
            p_max,
            p_max + 1,
            p_min,
            p_min.saturating_sub(1),
            range.span().0,
            MAX_POWER.0,
        ];
        self.random.pick(&list).min(MAX_POWER.0)
    }

    /// The fields of one of some live records, now and then of a dead one.
    fn of_record(
        &mut self,
        operation: Operation,
        live: Vec<Record<'d>>,
    ) -> (ReportFields, Option<Record<'d>>) {
        let dead = self.records(false);
        let choice = self.random.below(20);
        let from = if choice < 17 || dead.is_empty() {
            live
        } else {
            dead
        };
        if from.is_empty() {
            let mut fields = self.creation();
            if self.random.percent(25) {
                fields.operation = operation as u8;
            }
            return (fields, None);
        }
        let record = self.random.pick(&from);
        let mut fields = self.blank(record.record_type);
        fields.operation = operation as u8;
        fields.direction = record.direction as u8;
        fields.qualification = record.qualification;
        fields.mrid = record.mrid;
        fields.revision = match self.random.below(20) {
            0 => 9_999,
            1 => record.revision,
            2..=5 => (record.revision + 7).min(9_999),
            _ => (record.revision + 1).min(9_999),
        };
        fields.start_mark = record.start_mark as u8;
        (fields.start, fields.end) = (record.period.start.0, record.period.end.0);
        (fields, Some(record))
    }

    fn update(&mut self) -> ReportFields {
        let (mut fields, record) = self.of_record(Operation::Update, self.records(true));
        let Some(record) = record else {
            return fields;
        };
        if record.begun() {
            let start = record.period.start.0;
            self.put_period(&mut fields, record.record_type, true);
            if !self.random.percent(6) {
                fields.start = start;
            }
        } else {
            // A planned record that begins, or is planned anew.
            let begins = self.random.percent(45) || record.record_type == RecordType::OffGrid;
            self.put_period(&mut fields, record.record_type, begins);
            if begins && record.period.start.0 <= self.stamp && self.random.percent(60) {
                fields.start = record.period.start.0;
            }
        }
        self.put_parts(&mut fields, record.record_type);
        fields
    }

    /// Of a record that can end early; now and then of another, which then is wrong.
    fn early_end(&mut self) -> ReportFields {
        let stamp = self.stamp;
        let can_end = |record: &Record| {
            record.begun() && record.record_type.has_parts() && record.period.start.0 < stamp
        };
        let mut live = self.records(true);
        if self.random.percent(80) {
            live.retain(can_end);
        }
        if live.is_empty() {
            return self.update();
        }
        let (mut fields, record) = self.of_record(Operation::Update, live);
        let Some(record) = record else {
            return fields;
        };
        if self.random.percent(70) {
            fields.start_mark = Mark::Actual as u8;
        }
        fields.end_mark = Mark::Actual as u8;
        fields.start = self.ended_start(record.period.start.0);
        fields.end = self.early_minute(fields.start, record.period.end.0);
        self.put_parts(&mut fields, record.record_type);
        fields
    }

    /// The stored start as a rule; where it is to come, half the time one that has passed.
    fn ended_start(&mut self, stored: u32) -> u32 {
        let to_come = stored >= self.stamp;
        match self.random.below(40) {
            0 => stored + 1,
            1 => stored.saturating_sub(1),
            2..=20 if to_come => self.stamp.saturating_sub(self.random.between(1..=60)),
            _ => stored,
        }
    }

    /// An end after the start and not after the stamp, now and then another.
    fn early_minute(&mut self, start: u32, stored_end: u32) -> u32 {
        let stamp = self.stamp;
        match self.random.below(12) {
            0 => self.random.pick(&[stamp + 1, start, stored_end]),
            1 => start + 1,
            2 | 3 => stamp,
            _ if start < stamp => self.random.between(start + 1..=stamp),
            _ => stamp,
        }
    }

    fn withdrawal(&mut self) -> ReportFields {
        let (mut fields, _) = self.of_record(Operation::Withdraw, self.records(true));
        if fields.operation == Operation::Create as u8 {
            return fields;
        }
        fields.parts.clear();
        if self.random.percent(30) {
            fields.start = self.random.below(LAST_MINUTE.0 + 1);
            fields.end = self.random.below(LAST_MINUTE.0 + 1);
            fields.start_mark = self.random.pick(&[1, 2]);
        }
        fields
    }

    fn event(&mut self) -> ReportFields {
        let state = self.block.unit.row.state;
        let legal: Vec<u8> = (1..=6)
            .filter(|&code| {
                state
                    .zip(EventCode::from_code(code))
                    .and_then(|(state, event)| event_transition(state, event))
                    .is_some()
            })
            .collect();
        let code = if legal.is_empty() || self.random.percent(20) {
            self.qualification(RecordType::Event)
        } else {
            self.random.pick(&legal)
        };
        let minute = self.begun_start(RecordType::OffGrid, &[]);
        self.blank(RecordType::Event)
            .begun()
            .qualified(code)
            .over(minute, minute)
    }
}

/// A stamp not before the last one, often a minute at which something begins or ends.
fn pick_stamp(random: &mut Random, block: &Block, pace: Pace) -> u32 {
    let last = block.last_stamp.0;
    let records = block.slots.iter().flatten();
    let turns: Vec<u32> = records
        .flat_map(|record| [record.period.start.0, record.period.end.0])
        .filter(|&minute| minute >= last)
        .collect();
    // Near the end of time the stamps all but stand still.
    let near_the_end = last + 1_000 > LAST_MINUTE.0;
    let weights = match pace {
        _ if near_the_end => [92, 6, 0, 2, 0],
        Pace::Slow => [60, 30, 3, 6, 1],
        Pace::Brisk => [25, 30, 20, 22, 3],
    };
    let stamp = match random.weighted(&weights) {
        0 => last,
        1 => last + random.between(1..=14),
        2 => last + random.between(15..=120),
        3 if !turns.is_empty() => {
            let turn = random.pick(&turns);
            let near = [turn, turn, turn + 1, turn.saturating_sub(1)];
            random.pick(&near).max(last).min(last + 2_000)
        }
        4 => last + random.between(120..=3_000),
        _ => last,
    };
    stamp.min(LAST_MINUTE.0)
}
