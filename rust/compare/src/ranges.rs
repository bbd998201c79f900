//! The ranges of a state block (docs/STATE-BLOCK.md, after document 01's "What a call receives"):
//! which blocks are in range, and blocks drawn from all of these.

use crate::block::{
    AREA, ELEMENT, ELEMENTS, INFO, INFO_SEND, INFOS, LAYOUT, SOURCE, SOURCE_MARKS, SOURCE_SEND,
    SOURCES, TABLE,
};
use crate::entry::BLOCK;
use crate::model::{STREAM_END, waits};
use crate::records::record;
use crate::setup::{Setup, Table, built_in};
use crate::{Generator, tables};
use std::sync::LazyLock;

const RATES: std::ops::RangeInclusive<u64> = 8_000..=192_000;
/// Where each element stands.
pub const EACH_ELEMENT: [usize; 2] = [ELEMENTS, ELEMENTS + ELEMENT];
/// A remaining ramp of 0.
const MIDDLE: u64 = 1 << 47;
/// The most below 0 that a remaining ramp is, but for 64 x position.
const LONGEST: u64 = 1 << 21;

/// A number of the block, and its range whatever the other fields are.
#[derive(Clone, Copy, Debug, PartialEq)]
pub struct Field {
    pub at: usize,
    /// Bytes.
    pub width: usize,
    pub least: u64,
    pub most: u64,
}

fn field(at: usize, width: usize, least: u64, most: u64) -> Field {
    Field {
        at,
        width,
        least,
        most,
    }
}

impl Field {
    pub fn number(&self, block: &[u8]) -> u64 {
        let mut bytes = [0; 8];
        bytes[..self.width].copy_from_slice(&block[self.at..self.at + self.width]);
        u64::from_le_bytes(bytes)
    }

    pub fn put(&self, block: &mut [u8], number: u64) {
        block[self.at..self.at + self.width].copy_from_slice(&number.to_le_bytes()[..self.width]);
    }

    fn holds(&self, block: &[u8]) -> bool {
        (self.least..=self.most).contains(&self.number(block))
    }
}

/// Every field that is a number of its own and no float, the rate first, which may be 0 too.
pub fn fields() -> &'static [Field] {
    static FIELDS: LazyLock<Vec<Field>> = LazyLock::new(table);
    &FIELDS
}

fn table() -> Vec<Field> {
    let mut fields = clock().to_vec();
    fields.extend(counts());
    fields.extend((0..18).map(|i| field(96 + 4 * i, 4, 0, 17)));
    fields.extend((0..16).map(|i| field(SOURCES + SOURCE * i + SOURCE_MARKS, 4, 0, 7)));
    for element in EACH_ELEMENT {
        fields.extend([blocks(element), flags(element), remaining(element)]);
        for block in 0..8 {
            let at = element + 16 + 12 * block;
            fields.extend([field(at, 4, 0, 1 << 21), field(at + 4, 4, 0, 1 << 21)]);
            fields.push(field(at + 8, 4, 0, 1));
        }
        fields.extend((0..16).map(|t| field(element + 112 + 16 * t, 4, 0, 1)));
    }
    for info in 0..512 {
        let head = INFOS + INFO * info;
        let most = [63, 2, 3, 0];
        fields.extend((0..4).map(|k| field(head + k, 1, 0, most[k])));
    }
    fields.push(layout());
    fields.extend(waiting());
    fields
}

/// Rate, phase, position, slot start, pending, initialized, payload position.
fn clock() -> [Field; 7] {
    [
        field(0, 4, *RATES.start(), *RATES.end()),
        field(4, 4, 0, 63),
        field(8, 8, 0, STREAM_END),
        field(16, 8, 0, STREAM_END),
        field(64, 4, 0, 63),
        field(68, 4, 0, 1),
        field(72, 8, 0, STREAM_END),
    ]
}

/// Objects, `bed_or_isf_objects`, bed channels, elements.
fn counts() -> [Field; 4] {
    [
        field(80, 4, 0, 32),
        field(84, 4, 0, 255),
        field(88, 4, 0, 18),
        field(92, 4, 0, 2),
    ]
}

/// Of the area: updates that wait, and their records in all.
fn waiting() -> [Field; 2] {
    [field(AREA, 4, 0, 8), field(AREA + 4, 4, 0, 1_200)]
}

/// The layout's code.
pub fn layout() -> Field {
    field(LAYOUT, 4, 0, 3)
}

fn blocks(element: usize) -> Field {
    field(element, 4, 0, 8)
}

fn flags(element: usize) -> Field {
    field(element + 4, 4, 0, 16)
}

fn remaining(element: usize) -> Field {
    let least = MIDDLE - LONGEST - 64 * STREAM_END;
    field(element + 8, 8, least, MIDDLE + (1 << 20))
}

impl Field {
    fn at_least(self, least: u64) -> Self {
        Field { least, ..self }
    }

    fn at_most(self, most: u64) -> Self {
        Field { most, ..self }
    }
}

/// The fields whose range depends on others, with the range that these leave them.
fn related(block: &[u8]) -> Vec<Field> {
    let [rate, phase, position, start, pending, ..] = clock();
    let [objects, isf, beds, elements] = counts();
    let number = |field: Field| field.number(block);
    let position = number(position);
    let dynamic = number(objects).saturating_sub(number(isf));
    let mut related = vec![
        phase.at_most(position.min(63)),
        start.at_most(position.saturating_sub(number(phase))),
        pending.at_most(if number(rate) == 0 { 0 } else { 63 }),
        isf.at_least(number(objects).saturating_sub(16)),
        beds.at_most(number(objects).min(18)),
    ];
    for (index, element) in (0..).zip(EACH_ELEMENT) {
        let used = index < number(elements);
        related.push(flags(element).at_least(if used { dynamic } else { 0 }));
        let least = MIDDLE - LONGEST - 64 * position.min(STREAM_END);
        related.push(remaining(element).at_least(least));
    }
    related
}

/// Puts a hall table into a block.
pub fn put_table(block: &mut [u8], table: &Table) {
    block[TABLE..][..table.len()].copy_from_slice(table);
}

/// The block is as long as a block is, and each field within its range; the table is one field.
pub fn hold(block: &[u8]) -> bool {
    let (rate, others) = fields().split_first().unwrap();
    block.len() == BLOCK
        && (rate.holds(block) || rate.number(block) == 0)
        && others.iter().all(|field| field.holds(block))
        && related(block).iter().all(|field| field.holds(block))
        && Setup::of_block(block).holds()
        && waits::read(block, clock()[2].number(block)).is_some()
}

/// The least, the most, or a number between.
fn end(inputs: &mut Generator, field: &Field) -> u64 {
    match inputs.below(3) {
        0 => field.least,
        1 => field.most,
        _ => field.least + inputs.below(field.most - field.least + 1),
    }
}

/// Records of an update of kind 9, of 138 records or of a few, with floats of any bits where they may be.
fn far_records(inputs: &mut Generator, large: bool) -> Vec<u8> {
    let [elements, blocks, objects] = match large {
        true => [1, 8, 16],
        false => [3, 3, 4].map(|most| inputs.below(most) as u8),
    };
    let mut records = vec![record(9)];
    records[0][4] = objects;
    records[0][5] = inputs.below(u64::from(objects) + 1) as u8;
    records[0][7] = elements;
    for _ in 0..elements {
        let mut element = record(2);
        element[1] = blocks;
        records.push(element);
        records.extend((0..blocks).map(|_| record(3)));
        records.extend((0..blocks * objects).map(|_| any_object(inputs)));
    }
    let offset = (inputs.bits() as u32).to_le_bytes();
    records[0][28..32].copy_from_slice(&offset);
    records.concat()
}

/// A gain, a size and a send of any bits, among them such as 6 refuses where they are sent.
fn any_object(inputs: &mut Generator) -> [u8; 40] {
    let mut object = record(4);
    object[2] = 1 | 4 | 8 | 32;
    object[32..36].copy_from_slice(&1f32.to_le_bytes());
    for at in [4, 8, 12, 16, 24, 36] {
        let any = match inputs.chance(4) {
            true => inputs.float(),
            false => inputs.between(0.0, 1.0),
        };
        object[at..at + 4].copy_from_slice(&any.to_le_bytes());
    }
    object
}

/// In every second block updates wait, up to eight, at positions from the stream's own on; one time in
/// four of 1,200 records.
fn waiting_drawn(inputs: &mut Generator, block: &mut [u8]) {
    let from = clock()[2].number(block);
    let mut records = Vec::new();
    let count = match inputs.below(8) {
        0..4 => 0,
        4 => 8,
        _ => inputs.below(9) as usize,
    };
    let mut all = (0..count)
        .map(|_| far_records(inputs, false))
        .collect::<Vec<_>>();
    if count == 8 && inputs.chance(2) {
        // 7 x 138 and 234.
        all = (0..8).map(|_| far_records(inputs, true)).collect();
        all[7] = silent_records();
    }
    all.iter().for_each(|update| records.extend(update));
    let positions = all.iter().map(|_| match inputs.below(6) {
        0 => from,
        1 => waits::END - 1,
        _ => from + inputs.below(2_000),
    });
    let positions: Vec<u64> = positions.collect();
    waits::put(block, &positions, &records);
}

/// 234 records: an element of eight blocks and 28 objects that say nothing.
fn silent_records() -> Vec<u8> {
    let (mut update, mut element, mut silent) = (record(9), record(2), record(4));
    (update[4], update[5], update[7]) = (28, 20, 1);
    element[1] = 8;
    silent[32..36].copy_from_slice(&1f32.to_le_bytes());
    let mut records = vec![update, element];
    records.extend([record(3); 8]);
    records.extend([silent; 8 * 28]);
    records.concat()
}

/// A block in range: each number at an end of its range or between; floats of any bits, in every
/// second block mostly small ones, so that not all that follows is NaN; in every second block no
/// send and no hold, and in every second the built-in table, so that the Rust goes on from it.
pub fn drawn(inputs: &mut Generator) -> Vec<u8> {
    let tame = inputs.chance(2);
    let mut float = || {
        if tame {
            inputs.near(-2.0, 2.0)
        } else {
            inputs.float()
        }
    };
    let words = (0..BLOCK / 4).map(|_| float().to_bits().to_le_bytes());
    let mut block = words.collect::<Vec<_>>().concat();
    for field in fields() {
        let number = end(inputs, field);
        field.put(&mut block, number);
    }
    if inputs.chance(8) {
        block[..4].fill(0);
    }
    let [no_send, no_hold] = inputs.pick(&[[true; 2], [true; 2], [true, false], [false; 2]]);
    if no_send {
        let sources = (0..16).map(|i| SOURCES + SOURCE * i + SOURCE_SEND);
        let infos = (0..512).map(|i| INFOS + INFO * i + INFO_SEND);
        sources
            .chain(infos)
            .for_each(|at| block[at..at + 4].fill(0));
    }
    if no_hold {
        (0..16).for_each(|i| block[SOURCES + SOURCE * i + SOURCE_MARKS] &= 1);
    }
    let table = match inputs.chance(2) {
        true => built_in(),
        false => tables::accepted(inputs),
    };
    put_table(&mut block, &table);
    waiting_drawn(inputs, &mut block);
    // The phase before the slot's start, which depends on it.
    let elements = EACH_ELEMENT.map(|at| [at + 4, at + 8]);
    for place in [4, 16, 64, 84, 88].into_iter().chain(elements.concat()) {
        let field = *related(&block).iter().find(|f| f.at == place).unwrap();
        if !field.holds(&block) || inputs.chance(3) {
            let number = end(inputs, &field);
            field.put(&mut block, number);
        }
    }
    block
}
