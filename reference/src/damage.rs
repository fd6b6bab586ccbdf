//! Every clause of question 1 broken alone by the smallest change to a whole register, and the
//! nearest values that stay whole.
//!
//! Two clauses can't be broken alone: a slot's start or stamp that is no time lies after its end
//! or after the last stamp as well.

use crate::codes::{Direction, Mark, RecordType, UnitKind};
use crate::compose::{EntryFields, SlotFields};
use crate::quantities::{Minute, LAST_MINUTE, MAX_POWER};
use crate::register::{
    head, put_last_stamp, slot, write_head, BLOCK_SIZE, HEAD_LAYOUT, HEAD_SIZE, MAX_UNITS,
    SLOT_SIZE,
};
use crate::roster::read_entry;
use crate::worked_examples::D;

/// The whole register with a change.
pub struct Variant {
    /// The words of question 1 that the change is about.
    pub clause: &'static str,
    /// Whether the register is whole even so.
    pub whole: bool,
    change: Change,
}

enum Change {
    Bytes(Vec<(usize, Vec<u8>)>),
    Length(usize),
    Blocks(usize),
}

impl Variant {
    /// The changed register.
    pub fn register(&self) -> Vec<u8> {
        let mut register = base();
        match &self.change {
            Change::Bytes(edits) => {
                for (at, bytes) in edits {
                    register[*at..*at + bytes.len()].copy_from_slice(bytes);
                }
            }
            Change::Length(length) => register.resize(*length, 0),
            Change::Blocks(count) => register = empty_blocks(*count),
        }
        register
    }
}

// The units of the base, by what they are there for.
const OFF_GRID_UNIT: usize = 1;
const STORAGE_UNIT: usize = 2;
const WIND_UNIT: usize = 3;
const AGGREGATED_UNIT: usize = 4;
const RESERVE_UNIT: usize = 5;
const EMPTY_UNIT: usize = 6;

const LAST_STAMP: u32 = D + 100;

fn entries() -> [EntryFields; 6] {
    let entry = |owner, kind: UnitKind, state, qualification, powers| EntryFields {
        owner,
        kind: kind as u8,
        state,
        qualification,
        since: D,
        powers,
    };
    [
        entry(7, UnitKind::W1, 6, 1, [200_000, 80_000, 0, 0]),
        entry(9, UnitKind::M1, 0, 0, [100_000, 50_000, 80_000, 10_000]),
        entry(999, UnitKind::Z1, 0, 0, [50_000, 50_000, 0, 0]),
        entry(1, UnitKind::A, 0, 0, [0, 0, 0, 0]),
        entry(7, UnitKind::W1, 1, 8, [200_000, 80_000, 0, 0]),
        entry(7, UnitKind::W1, 5, 0, [200_000, 80_000, 0, 0]),
    ]
}

fn record(record_type: RecordType, mrid: u8, start: u32, end: u32) -> SlotFields {
    SlotFields {
        record_type: record_type as u8,
        direction: Direction::Generation as u8,
        qualification: match record_type {
            RecordType::Outage | RecordType::OffGrid => 3,
            _ => 0,
        },
        start_mark: Mark::Planned as u8,
        revision: 5,
        mrid: [mrid; 16],
        stamp: LAST_STAMP,
        start,
        end,
        pairs: if record_type.has_parts() {
            vec![(end, 20_000)]
        } else {
            Vec::new()
        },
    }
}

fn begun(fields: SlotFields, stamp: u32) -> SlotFields {
    SlotFields {
        start_mark: Mark::Actual as u8,
        stamp,
        ..fields
    }
}

fn towards(direction: Direction, fields: SlotFields) -> SlotFields {
    SlotFields {
        direction: direction as u8,
        ..fields
    }
}

/// Slots of the base: unit, slot from 0, record.
type Placed = (usize, usize, SlotFields);

fn off_grid_slots() -> [Placed; 6] {
    use RecordType::{MustRun, NegativeDerating, OffGrid, Outage, PositiveDerating};
    let working = begun(record(OffGrid, 1, D + 50, D + 210), D + 60);
    let two_parts = SlotFields {
        pairs: vec![(D + 150, 20_000), (D + 180, 30_000)],
        ..record(PositiveDerating, 2, D + 120, D + 180)
    };
    let at_its_stamp = begun(record(NegativeDerating, 4, D + 40, D + 180), D + 40);
    let hundred = SlotFields {
        pairs: (1..=100).map(|part| (D + 300 + 15 * part, part)).collect(),
        ..record(MustRun, 5, D + 300, D + 1_800)
    };
    let dead_at_last_stamp = begun(record(Outage, 6, D + 15, D + 75), D + 20);
    [
        (OFF_GRID_UNIT, 0, working),
        (OFF_GRID_UNIT, 1, two_parts),
        (OFF_GRID_UNIT, 2, record(Outage, 3, D + 300, D + 360)),
        (OFF_GRID_UNIT, 3, at_its_stamp),
        (OFF_GRID_UNIT, 4, hundred),
        (OFF_GRID_UNIT, 6, dead_at_last_stamp),
    ]
}

/// The storage unit's stops follow each other in three directions.
fn other_slots() -> [Placed; 8] {
    use RecordType::{MustRun, NegativeDerating, Outage, PositiveDerating};
    let both = |fields| towards(Direction::Both, fields);
    let consumption = |fields| towards(Direction::Consumption, fields);
    let at = |record_type, mrid| record(record_type, mrid, D + 120, D + 180);
    let last_outage = record(Outage, 7, D + 240, D + 300);
    [
        (STORAGE_UNIT, 0, both(at(Outage, 1))),
        (STORAGE_UNIT, 1, at(PositiveDerating, 2)),
        (STORAGE_UNIT, 2, consumption(at(PositiveDerating, 3))),
        (STORAGE_UNIT, 4, consumption(at(MustRun, 4))),
        (STORAGE_UNIT, 5, record(Outage, 5, D + 180, D + 240)),
        (STORAGE_UNIT, 7, consumption(last_outage)),
        (WIND_UNIT, 7, at(MustRun, 1)),
        (AGGREGATED_UNIT, 0, at(NegativeDerating, 1)),
    ]
}

/// The whole register that the variants start from.
pub fn base() -> Vec<u8> {
    let mut register = vec![0; entries().len() * BLOCK_SIZE];
    for ((block, entry), number) in register.chunks_mut(BLOCK_SIZE).zip(entries()).zip(1..) {
        put_head(block, number, &entry);
        put_last_stamp(block, Minute(LAST_STAMP));
    }
    for (unit, index, fields) in off_grid_slots().into_iter().chain(other_slots()) {
        let at = in_slot(unit, index, 0);
        register[at..at + SLOT_SIZE].copy_from_slice(&fields.bytes());
    }
    register
}

fn empty_blocks(count: usize) -> Vec<u8> {
    let mut register = vec![0; count * BLOCK_SIZE];
    let [entry, ..] = entries();
    for (block, number) in register.chunks_mut(BLOCK_SIZE).zip(1..) {
        put_head(block, number, &entry);
    }
    register
}

fn put_head(block: &mut [u8], number: u16, entry: &EntryFields) {
    if let Some(unit) = read_entry(&entry.bytes()) {
        write_head(block, number, &unit);
    }
}

fn in_head(unit: usize, offset: usize) -> usize {
    (unit - 1) * BLOCK_SIZE + offset
}

fn in_slot(unit: usize, index: usize, offset: usize) -> usize {
    in_head(unit, HEAD_SIZE + index * SLOT_SIZE + offset)
}

type Edit = (usize, Vec<u8>);

fn u8_edit(at: usize, value: u8) -> Edit {
    (at, vec![value])
}

fn u16_edit(at: usize, value: u16) -> Edit {
    (at, value.to_le_bytes().to_vec())
}

fn u32_edit(at: usize, value: u32) -> Edit {
    (at, value.to_le_bytes().to_vec())
}

fn slot_edit(unit: usize, index: usize, fields: &SlotFields) -> Edit {
    (in_slot(unit, index, 0), fields.bytes().to_vec())
}

#[derive(Default)]
struct Catalogue {
    variants: Vec<Variant>,
}

impl Catalogue {
    fn add(&mut self, clause: &'static str, whole: bool, change: Change) {
        self.variants.push(Variant {
            clause,
            whole,
            change,
        });
    }

    fn breaks(&mut self, clause: &'static str, edits: impl Into<Vec<Edit>>) {
        self.add(clause, false, Change::Bytes(edits.into()));
    }

    fn stays(&mut self, clause: &'static str, edits: impl Into<Vec<Edit>>) {
        self.add(clause, true, Change::Bytes(edits.into()));
    }

    /// The nearest values inside a range stay whole, the nearest outside break it.
    fn range<T: Copy>(
        &mut self,
        clause: &'static str,
        edit: impl Fn(T) -> Edit,
        inside: &[T],
        outside: &[T],
    ) {
        for &value in inside {
            self.stays(clause, [edit(value)]);
        }
        for &value in outside {
            self.breaks(clause, [edit(value)]);
        }
    }
}

/// Every variant.
pub fn variants() -> Vec<Variant> {
    let mut catalogue = Catalogue::default();
    for put in [
        put_lengths,
        put_head_layout,
        put_head_codes,
        put_head_times,
        put_powers,
        put_slot_layout,
        put_slot_codes,
        put_kinds,
        put_slot_times,
        put_parts,
        put_part_powers,
        put_identifiers,
        put_overlaps,
        put_not_asked,
    ] {
        put(&mut catalogue);
    }
    catalogue.variants
}

fn put_lengths(catalogue: &mut Catalogue) {
    let clause = "1 to 64 blocks";
    let whole = entries().len() * BLOCK_SIZE;
    for length in [0, 1, whole - 1, whole + 1, whole + BLOCK_SIZE - 1] {
        catalogue.add(clause, false, Change::Length(length));
    }
    // A block of zeros has no mark.
    catalogue.add(clause, false, Change::Length(whole + BLOCK_SIZE));
    catalogue.add(clause, true, Change::Length(whole - BLOCK_SIZE));
    for (count, stays) in [(1, true), (MAX_UNITS, true), (MAX_UNITS + 1, false)] {
        catalogue.add(clause, stays, Change::Blocks(count));
    }
}

fn put_head_layout(catalogue: &mut Catalogue) {
    for unit in [OFF_GRID_UNIT, EMPTY_UNIT] {
        for (offset, byte) in [(0, 0x54), (0, 0x00), (1, 0x4F), (1, 0x00)] {
            catalogue.breaks("layout: block mark", [u8_edit(in_head(unit, offset), byte)]);
        }
        for offset in head::ZERO.chain(head::TAIL_ZERO) {
            catalogue.breaks("layout: head zeros", [u8_edit(in_head(unit, offset), 1)]);
        }
        let number = in_head(unit, head::UNIT);
        for wrong in [0, unit as u16 - 1, unit as u16 + 1, unit as u16 + 256] {
            catalogue.breaks("layout: block i for unit i", [u16_edit(number, wrong)]);
        }
    }
}

fn put_head_codes(catalogue: &mut Catalogue) {
    let owner = |value| u16_edit(in_head(EMPTY_UNIT, HEAD_LAYOUT.owner), value);
    catalogue.range("owner", owner, &[1, 256, 999], &[0, 1_000, u16::MAX]);
    let kind = |value| u8_edit(in_head(AGGREGATED_UNIT, HEAD_LAYOUT.kind), value);
    catalogue.range("kind", kind, &[2, 3, 4], &[0, 1, 5]);
    let state = |value| u8_edit(in_head(EMPTY_UNIT, HEAD_LAYOUT.state), value);
    catalogue.range("state", state, &[2, 3, 4, 5], &[0, 7]);
    for unit in [STORAGE_UNIT, WIND_UNIT, AGGREGATED_UNIT] {
        let state = |value| u8_edit(in_head(unit, HEAD_LAYOUT.state), value);
        catalogue.range("state of other kinds", state, &[0], &[1, 2, 5]);
        let other = |value| u8_edit(in_head(unit, HEAD_LAYOUT.qualification), value);
        catalogue.range("qualification of other kinds", other, &[0], &[1]);
    }
    let shut_down = |value| u8_edit(in_head(RESERVE_UNIT, HEAD_LAYOUT.qualification), value);
    catalogue.range("qualification in R", shut_down, &[1, 7, 8], &[0, 9]);
    let off_grid = |value| u8_edit(in_head(OFF_GRID_UNIT, HEAD_LAYOUT.qualification), value);
    catalogue.range("qualification in RP", off_grid, &[1, 5], &[0, 6, 8]);
    for state in 2..=5 {
        let state = u8_edit(in_head(EMPTY_UNIT, HEAD_LAYOUT.state), state);
        let one = u8_edit(in_head(EMPTY_UNIT, HEAD_LAYOUT.qualification), 1);
        catalogue.breaks("qualification in other states", [state, one]);
    }
}

fn put_head_times(catalogue: &mut Catalogue) {
    let since = |value| u32_edit(in_head(EMPTY_UNIT, HEAD_LAYOUT.since), value);
    let inside = [0, LAST_STAMP - 1, LAST_STAMP];
    catalogue.range("since ≤ last stamp", since, &inside, &[LAST_STAMP + 1]);
    let last = |value| u32_edit(in_head(EMPTY_UNIT, head::LAST_STAMP), value);
    catalogue.range("since ≤ last stamp", last, &[D, D + 1], &[0, D - 1]);
    let outside = [LAST_MINUTE.0 + 1, u32::MAX];
    catalogue.range("last stamp a time", last, &[LAST_MINUTE.0], &outside);
}

fn put_powers(catalogue: &mut Catalogue) {
    let most = MAX_POWER.0;
    // Pmax and Pmin for generation, then for consumption.
    let power = |unit, index: usize| {
        move |value| u32_edit(in_head(unit, HEAD_LAYOUT.powers + 4 * index), value)
    };
    let clause = "powers";
    catalogue.range(
        clause,
        power(EMPTY_UNIT, 0),
        &[80_000, most],
        &[79_999, most + 1, u32::MAX],
    );
    catalogue.range(clause, power(EMPTY_UNIT, 1), &[0, 200_000], &[200_001]);
    catalogue.range(
        clause,
        power(STORAGE_UNIT, 2),
        &[10_000, most],
        &[9_999, most + 1],
    );
    catalogue.range(clause, power(STORAGE_UNIT, 3), &[0, 80_000], &[80_001]);
    catalogue.range(clause, power(AGGREGATED_UNIT, 0), &[0, 1], &[most + 1]);
    catalogue.range(clause, power(AGGREGATED_UNIT, 2), &[0, 1], &[most + 1]);
    for unit in [STORAGE_UNIT, AGGREGATED_UNIT] {
        catalogue.stays(clause, [power(unit, 2)(1), power(unit, 3)(1)]);
        catalogue.stays(clause, [power(unit, 2)(0), power(unit, 3)(0)]);
    }
    for unit in [EMPTY_UNIT, RESERVE_UNIT, WIND_UNIT] {
        let clause = "consumption pair of W1 and Z1";
        catalogue.breaks(clause, [power(unit, 2)(1)]);
        catalogue.breaks(clause, [power(unit, 2)(1), power(unit, 3)(1)]);
    }
}

fn put_slot_layout(catalogue: &mut Catalogue) {
    for offset in 0..SLOT_SIZE {
        let at = in_slot(EMPTY_UNIT, 7, offset);
        catalogue.breaks("layout: a free slot is 888 zeros", [u8_edit(at, 1)]);
    }
    let only_mark = (in_slot(EMPTY_UNIT, 0, 0), vec![0x5A, 0x47]);
    catalogue.breaks("layout: a free slot is 888 zeros", [only_mark]);
    let used = [
        (OFF_GRID_UNIT, 1, 2),
        (OFF_GRID_UNIT, 2, 0),
        (WIND_UNIT, 7, 1),
    ];
    for (unit, index, pairs) in used {
        for (offset, byte) in [(0, 0x5B), (0, 0), (1, 0x46), (1, 0)] {
            let at = in_slot(unit, index, offset);
            catalogue.breaks("layout: slot mark", [u8_edit(at, byte)]);
        }
        let pairs_end = slot::PARTS + pairs * slot::PART_SIZE;
        for offset in slot::ZERO.chain(pairs_end..SLOT_SIZE) {
            let at = in_slot(unit, index, offset);
            catalogue.breaks("layout: slot zeros", [u8_edit(at, 1)]);
        }
    }
}

fn put_slot_codes(catalogue: &mut Catalogue) {
    let byte = |unit, index, offset| move |value| u8_edit(in_slot(unit, index, offset), value);
    let record_type = byte(OFF_GRID_UNIT, 2, slot::TYPE);
    catalogue.range("types 1–5", record_type, &[1], &[0, 6, 7]);
    let direction = byte(STORAGE_UNIT, 0, slot::DIRECTION);
    catalogue.range("4: direction", direction, &[1, 2, 3], &[0, 4]);
    let outage = byte(OFF_GRID_UNIT, 2, slot::QUALIFICATION);
    catalogue.range("4: qualification of a stop", outage, &[1, 7], &[0, 8]);
    let off_grid = byte(OFF_GRID_UNIT, 0, slot::QUALIFICATION);
    catalogue.range(
        "4: qualification of off-grid work",
        off_grid,
        &[1, 5],
        &[0, 6],
    );
    for index in [1, 3, 4] {
        let powers = byte(OFF_GRID_UNIT, index, slot::QUALIFICATION);
        catalogue.range("4: qualification of types 2–4", powers, &[0], &[1]);
    }
    let start_mark = byte(OFF_GRID_UNIT, 2, slot::START_MARK);
    catalogue.range("4: start mark", start_mark, &[1], &[0, 3]);
    let start_mark = byte(OFF_GRID_UNIT, 3, slot::START_MARK);
    catalogue.range("4: start mark", start_mark, &[1, 2], &[0, 3]);
    let revision = |value| u16_edit(in_slot(OFF_GRID_UNIT, 2, slot::REVISION), value);
    catalogue.range("4: ordinal", revision, &[1, 9_999], &[0, 10_000, u16::MAX]);
}

fn put_kinds(catalogue: &mut Catalogue) {
    use RecordType::{MustRun, NegativeDerating, OffGrid, Outage, PositiveDerating};
    let fresh = |record_type| record(record_type, 9, D + 600, D + 660);
    let running = |record_type| begun(record(record_type, 9, D + 90, D + 660), D + 90);
    let directions = [
        Direction::Generation,
        Direction::Consumption,
        Direction::Both,
    ];
    let units = [
        (EMPTY_UNIT, UnitKind::W1),
        (STORAGE_UNIT, UnitKind::M1),
        (WIND_UNIT, UnitKind::Z1),
        (AGGREGATED_UNIT, UnitKind::A),
    ];
    for (unit, kind) in units {
        let two_way = matches!(kind, UnitKind::M1 | UnitKind::A);
        for direction in directions {
            let one_way = direction == Direction::Generation;
            for record_type in [Outage, PositiveDerating, NegativeDerating, MustRun] {
                let fields = towards(direction, fresh(record_type));
                let carried = match record_type {
                    Outage => one_way || two_way,
                    MustRun if kind == UnitKind::A => false,
                    _ => one_way || (two_way && direction == Direction::Consumption),
                };
                let change = Change::Bytes(vec![slot_edit(unit, 6, &fields)]);
                catalogue.add("5: kind", carried, change);
            }
            let fields = towards(direction, running(OffGrid));
            let carried = kind == UnitKind::W1 && one_way;
            let change = Change::Bytes(vec![slot_edit(unit, 6, &fields)]);
            catalogue.add("5: kind", carried, change);
        }
    }
}

fn put_slot_times(catalogue: &mut Catalogue) {
    let time = |index, offset| move |value| u32_edit(in_slot(OFF_GRID_UNIT, index, offset), value);
    let end = time(2, slot::END);
    let outside = [LAST_MINUTE.0 + 1, u32::MAX];
    catalogue.range("4: end a time", end, &[LAST_MINUTE.0], &outside);
    catalogue.range("start < end", end, &[D + 301], &[D + 300, D + 299]);
    let start = time(2, slot::START);
    catalogue.range("start < end", start, &[D + 359], &[D + 360, D + 361]);
    for index in [1, 2, 4] {
        let stamp = time(index, slot::STAMP);
        let (inside, outside) = ([0, LAST_STAMP], [LAST_STAMP + 1]);
        catalogue.range("slot stamp ≤ last stamp", stamp, &inside, &outside);
    }
    let clause = "begun start ≤ slot stamp";
    catalogue.range(clause, time(3, slot::START), &[0, D + 40], &[D + 41]);
    catalogue.range(clause, time(3, slot::STAMP), &[D + 40, D + 41], &[D + 39]);
    catalogue.range(clause, time(0, slot::START), &[D + 60], &[D + 61]);
    let mark = u8_edit(in_slot(OFF_GRID_UNIT, 0, slot::START_MARK), 1);
    catalogue.breaks("type 5 begun", [mark.clone()]);
    let later = [time(0, slot::START)(D + 105), mark];
    catalogue.breaks("type 5 begun", later);
}

fn put_parts(catalogue: &mut Catalogue) {
    let (unit, clause) = (OFF_GRID_UNIT, "8: cover");
    let count = |index, value| u16_edit(in_slot(unit, index, slot::PART_COUNT), value);
    let pair = |index, number, offset| {
        let at = in_slot(unit, index, slot::PARTS + number * slot::PART_SIZE + offset);
        move |value| u32_edit(at, value)
    };
    let first_end = pair(1, 0, 0);
    let (inside, outside) = ([D + 121, D + 179], [0, D + 119, D + 120, D + 180, D + 181]);
    catalogue.range(clause, first_end, &inside, &outside);
    catalogue.range(
        clause,
        pair(1, 1, 0),
        &[D + 180],
        &[D + 150, D + 179, D + 181],
    );
    let start = |value| u32_edit(in_slot(unit, 1, slot::START), value);
    catalogue.range(clause, start, &[0, D + 149], &[D + 150]);
    let end = |value| u32_edit(in_slot(unit, 1, slot::END), value);
    catalogue.range(clause, end, &[D + 180], &[D + 179, D + 181]);
    // One part fewer or more, the zeros after the pairs kept.
    let shorter = [count(4, 99), pair(4, 99, 0)(0), pair(4, 99, 4)(0)];
    catalogue.breaks(clause, shorter);
    catalogue.breaks("8: at most 100 parts", [count(4, 101)]);
    catalogue.breaks("8: at most 100 parts", [count(4, u16::MAX)]);
    let none = |index, number| {
        [
            count(index, 0),
            pair(index, number, 0)(0),
            pair(index, number, 4)(0),
        ]
    };
    catalogue.breaks("8: at least one part", none(3, 0));
    for (index, end) in [(2, D + 360), (0, D + 210)] {
        let one = [count(index, 1), pair(index, 0, 0)(end)];
        catalogue.breaks("8: other types have no parts", one);
    }
}

fn put_part_powers(catalogue: &mut Catalogue) {
    let most = MAX_POWER.0;
    for (index, number) in [(1, 0), (1, 1), (3, 0), (4, 99)] {
        let at = slot::PARTS + number * slot::PART_SIZE + 4;
        let power = |value| u32_edit(in_slot(OFF_GRID_UNIT, index, at), value);
        catalogue.range("9: powers", power, &[0, most], &[most + 1, u32::MAX]);
    }
}

fn put_identifiers(catalogue: &mut Catalogue) {
    let mrid = |index| {
        move |byte| {
            let at = in_slot(OFF_GRID_UNIT, index, slot::MRID);
            (at, vec![byte; 16])
        }
    };
    // 7 is one of another unit's; 6 that of a slot dead at the last stamp.
    let clause = "identifiers distinct in a unit";
    catalogue.range(clause, mrid(1), &[0, 2, 7, 9], &[1, 3, 4, 5, 6]);
    catalogue.range(clause, mrid(6), &[0, 6], &[1, 2, 5]);
    let mut near = mrid(1)(1);
    near.1[15] = 0;
    catalogue.stays(clause, [near.clone()]);
    near.1[15] = 1;
    catalogue.breaks(clause, [near.clone()]);
    near.1[0] = 0;
    catalogue.stays(clause, [near]);
}

fn put_overlaps(catalogue: &mut Catalogue) {
    use RecordType::{MustRun, NegativeDerating, OffGrid, Outage, PositiveDerating};
    let clause = "no two used slots overlapping";
    // Each against the one of its type in the base, end to start and start to end.
    for (record_type, start, end) in [
        (Outage, D + 300, D + 360),
        (PositiveDerating, D + 120, D + 180),
        (MustRun, D + 300, D + 1_800),
    ] {
        for (from, to, whole) in [
            (start - 60, start, true),
            (start - 60, start + 1, false),
            (end, end + 60, true),
            (end - 1, end + 60, false),
            (start + 1, end - 1, false),
        ] {
            let fields = record(record_type, 9, from, to);
            let edit = slot_edit(OFF_GRID_UNIT, 5, &fields);
            catalogue.add(clause, whole, Change::Bytes(vec![edit]));
        }
    }
    for (record_type, from, to, whole) in [
        (OffGrid, D + 1, D + 50, true),
        (OffGrid, D + 1, D + 51, false),
        (NegativeDerating, D + 1, D + 40, true),
        (NegativeDerating, D + 1, D + 41, false),
        // Begun stops have no exception here, dead ones count.
        (Outage, D + 75, D + 300, true),
        (Outage, D + 74, D + 300, false),
        (Outage, D + 1, D + 15, true),
        (Outage, D + 1, D + 16, false),
        (Outage, D + 75, D + 301, false),
    ] {
        let fields = begun(record(record_type, 9, from, to), LAST_STAMP);
        let edit = slot_edit(OFF_GRID_UNIT, 5, &fields);
        catalogue.add(clause, whole, Change::Bytes(vec![edit]));
    }
    put_meeting_directions(catalogue);
}

/// The storage unit's stops: both directions, then generation, then consumption, end to start.
fn put_meeting_directions(catalogue: &mut Catalogue) {
    let clause = "meeting directions overlapping";
    let end = |index, value| u32_edit(in_slot(STORAGE_UNIT, index, slot::END), value);
    catalogue.stays(clause, [end(0, D + 180)]);
    catalogue.breaks(clause, [end(0, D + 181)]);
    catalogue.stays(clause, [end(5, D + 300)]);
    let direction = |value| u8_edit(in_slot(STORAGE_UNIT, 5, slot::DIRECTION), value);
    catalogue.stays(clause, [direction(3)]);
    catalogue.stays(clause, [direction(3), end(5, D + 240)]);
    catalogue.breaks(clause, [direction(3), end(5, D + 241)]);
    catalogue.breaks(clause, [direction(2), end(5, D + 241)]);
    catalogue.stays(clause, [direction(1), end(5, D + 241)]);
    let derating = |value| u8_edit(in_slot(STORAGE_UNIT, 2, slot::DIRECTION), value);
    catalogue.range(clause, derating, &[2], &[1]);
}

/// Parts of questions 6, 7, 16, 17 and 18 that question 1 does not list.
fn put_not_asked(catalogue: &mut Catalogue) {
    let clause = "not asked";
    let time = |index, offset, value| u32_edit(in_slot(OFF_GRID_UNIT, index, offset), value);
    let ended = [time(2, slot::START, D + 75), time(2, slot::END, D + 90)];
    catalogue.stays(clause, ended);
    catalogue.stays(clause, [time(2, slot::END, D + 361)]);
    catalogue.stays(clause, [time(2, slot::START, D + 100)]);
    let power = in_slot(OFF_GRID_UNIT, 1, slot::PARTS + 4);
    catalogue.stays(clause, [u32_edit(power, 200_001)]);
    for (state, qualification) in [(1, 1), (5, 0), (2, 0)] {
        let state = u8_edit(in_head(OFF_GRID_UNIT, HEAD_LAYOUT.state), state);
        let reason = u8_edit(
            in_head(OFF_GRID_UNIT, HEAD_LAYOUT.qualification),
            qualification,
        );
        catalogue.stays(clause, [state, reason]);
    }
}
