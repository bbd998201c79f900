// SPDX-License-Identifier: Apache-2.0
//! The bytes of each kind of record. What comes first of several faults is the lowest byte.

use super::{Record, Why};
use crate::metadata::Bytes40;
use crate::object::{MOST_GAIN, MOST_SEND, MOST_SIZE, MOST_TIME};
use crate::shape::{BEDS, OBJECTS};
use crate::{Anchor, Block, Depth, Object, Room};

/// A byte and what is wrong there.
type Wrong = (usize, Why);

/// What a record says, and the first of its values that is out of range.
pub(super) struct Said<'a> {
    pub(super) record: Record<'a>,
    pub(super) value: Option<Wrong>,
}

impl<'a> From<Record<'a>> for Said<'a> {
    fn from(record: Record<'a>) -> Self {
        Self {
            record,
            value: None,
        }
    }
}

pub(super) fn update(r: &Bytes40, index: usize) -> Result<Said<'_>, Wrong> {
    if index == 16 {
        return Err((0, Why::Updates));
    }
    let ahead = r[0] == 9;
    let at = if ahead {
        zeros(r, 1, 4)?;
        u32::from_le_bytes(word(r, 28))
    } else {
        zeros(r, 1, 2)?;
        u16::from_le_bytes([r[2], r[3]]).into()
    };
    let (objects, fixed, beds, elements) = (r[4], r[5], r[6], r[7]);
    limit(4, "objects", objects, 32)?;
    limit(
        5,
        "dynamic objects",
        objects.saturating_sub(fixed),
        OBJECTS as u8,
    )?;
    limit(6, "beds", beds, objects.min(BEDS as u8))?;
    limit(7, "elements", elements, 2)?;
    let (codes, _) = r[8..].split_at_checked(beds.into()).unwrap_or_default();
    for (byte, code) in (8..).zip(codes) {
        limit(byte, "as a bed code", *code, 17)?;
    }
    let unused = usize::from(beds).saturating_add(8);
    if ahead {
        zeros(r, unused, 28)?;
        zeros(r, 32, 40)?;
    } else {
        zeros(r, unused, 40)?;
    }
    Ok(Record::Update {
        at,
        ahead,
        objects,
        fixed,
        elements,
        codes,
    }
    .into())
}

pub(super) fn element(r: &Bytes40) -> Result<Said<'_>, Wrong> {
    limit(1, "blocks", r[1], 8)?;
    zeros(r, 2, 40)?;
    Ok(Record::Element { blocks: r[1] }.into())
}

pub(super) fn block(r: &Bytes40) -> Result<Said<'_>, Wrong> {
    zeros(r, 1, 8)?;
    zeros(r, 24, 40)?;
    let block = Block {
        offset: long(r, 8),
        ramp: long(r, 16),
    };
    let times = [(8, "offset", block.offset), (16, "ramp", block.ramp)];
    let value = times
        .into_iter()
        .find(|(_, _, value)| !(-MOST_TIME..=MOST_TIME).contains(value))
        .map(|(byte, what, value)| (byte, Why::Time { what, value }));
    Ok(Said {
        record: Record::Block(block),
        value,
    })
}

pub(super) fn object(r: &Bytes40) -> Result<Said<'_>, Wrong> {
    limit(1, "as an anchor", r[1], 2)?;
    limit(2, "as flags", r[2], 63)?;
    zeros(r, 3, 4)?;
    for (flag, from, to) in [(4, 4, 8), (8, 8, 20), (16, 20, 24), (32, 24, 28)] {
        if r[2] & flag == 0 {
            zeros(r, from, to)?;
        }
    }
    let object = values(r);
    let factor = float(r, 32);
    let depth =
        (Depth::from_factor(factor).is_none()).then_some((32, Why::Depth { value: factor }));
    let value = range(4, "gain", object.gain, MOST_GAIN)
        .or(range(24, "size", object.size, MOST_SIZE))
        .or(depth)
        .or(range(36, "send", Some(object.send), MOST_SEND));
    let record = Record::Object(object);
    Ok(Said { record, value })
}

/// An object as it stands in the record.
fn values(r: &Bytes40) -> Object {
    let has = |flag: u8| r[2] & flag != 0;
    let (x, y, z) = (float(r, 8), float(r, 12), float(r, 16));
    Object {
        anchor: Anchor::from_code(r[1]).unwrap_or_default(),
        gain: has(4).then(|| float(r, 4)),
        position: has(8).then_some(Room { x, y, z }),
        valid: has(1),
        differential: has(2),
        distance: has(16).then(|| float(r, 20)),
        size: has(32).then(|| float(r, 24)),
        screen_factor: float(r, 28),
        depth: Depth::from_factor(float(r, 32)).unwrap_or_default(),
        send: float(r, 36),
    }
}

/// Bytes that must be zero.
fn zeros(r: &Bytes40, from: usize, to: usize) -> Result<(), Wrong> {
    let unused = r.iter().enumerate().take(to).skip(from);
    match unused.into_iter().find(|(_, byte)| **byte != 0) {
        Some((byte, found)) => Err((byte, Why::NotZero { found: *found })),
        None => Ok(()),
    }
}

fn limit(byte: usize, what: &'static str, found: u8, most: u8) -> Result<(), Wrong> {
    if found > most {
        Err((byte, Why::OverLimit { what, found, most }))
    } else {
        Ok(())
    }
}

fn range(byte: usize, what: &'static str, value: Option<f32>, most: f32) -> Option<Wrong> {
    value
        .filter(|value| !(0.0..=most).contains(value))
        .map(|value| (byte, Why::Value { what, value, most }))
}

fn float(r: &Bytes40, at: usize) -> f32 {
    f32::from_le_bytes(word(r, at))
}

fn long(r: &Bytes40, at: usize) -> i64 {
    i64::from_le_bytes(word(r, at))
}

/// The bytes at `at`, which are in the record.
fn word<const N: usize>(r: &Bytes40, at: usize) -> [u8; N] {
    r.get(at..)
        .and_then(|rest| rest.first_chunk())
        .copied()
        .unwrap_or([0; N])
}
