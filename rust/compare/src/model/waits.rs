// SPDX-License-Identifier: Apache-2.0
//! Document 02's R-12: updates that wait for their sample, as a list, apart from the block's area.

use crate::block::AREA;
use crate::records::read::{Update, read_waiting};
use oracle::frame;

/// "Up to eight, of at most 1,200 records in all"
pub const MOST: usize = 8;
pub const MOST_RECORDS: usize = 1_200;
/// "below 2^40 + 2^32"
pub const END: u64 = (1 << 40) + (1 << 32);
/// Where the positions and the records stand in an area.
pub const POSITIONS: usize = 8;
pub const RECORDS: usize = POSITIONS + 8 * MOST;

/// An update that waits: the stream's sample where it falls, its records as they were sent, and what
/// they say.
#[derive(Clone, Debug)]
pub struct Waiting {
    pub position: u64,
    pub records: Vec<u8>,
    update: frame::Update,
}

/// What a frame makes of them.
pub struct Settled {
    /// The updates that are due in it, those that waited first, and all of kind 1.
    pub due: Vec<frame::Update>,
    /// How many of these waited.
    pub fallen: usize,
    /// Those that wait after it.
    pub next: Vec<Waiting>,
}

impl Waiting {
    fn new(update: &Update, bytes: &[u8], position: u64) -> Self {
        Waiting {
            position,
            records: bytes[40 * update.place..40 * update.end].to_vec(),
            update: update.update(0),
        }
    }
}

/// "A kind 9 update at or past the frame's end waits and is applied in the frame where its sample
/// falls, before that frame's own updates of the same offset; waiting ones keep their order."
pub fn settled(
    waits: &[Waiting],
    start: u64,
    samples: u64,
    own: &[Update],
    meta: &[u8],
) -> Settled {
    let end = start + samples;
    let (fallen, stay): (Vec<_>, Vec<_>) = waits.iter().partition(|w| w.position < end);
    let at = |w: &Waiting| frame::Update {
        offset: (w.position - start) as u16,
        ..w.update.clone()
    };
    let mut due: Vec<frame::Update> = fallen.iter().map(|w| at(w)).collect();
    let mut next: Vec<Waiting> = stay.into_iter().cloned().collect();
    for update in own {
        let offset = u64::from(update.header.offset);
        if update.far && offset >= samples {
            next.push(Waiting::new(update, meta, start + offset));
        } else {
            due.push(update.update(offset as u16));
        }
    }
    Settled {
        due,
        fallen: fallen.len(),
        next,
    }
}

/// "Refused: 25 when more would wait"
pub fn fit(next: &[Waiting]) -> bool {
    let records: usize = next.iter().map(|w| w.records.len()).sum();
    next.len() <= MOST && records <= 40 * MOST_RECORDS
}

fn word(bytes: &[u8], at: usize) -> usize {
    u32::from_le_bytes(bytes[at..at + 4].try_into().unwrap()) as usize
}

fn position(area: &[u8], k: usize) -> u64 {
    let at = POSITIONS + 8 * k;
    u64::from_le_bytes(area[at..at + 8].try_into().unwrap())
}

/// What a block's area says, at its stream position: none where it is out of range.
pub fn read(block: &[u8], from: u64) -> Option<Vec<Waiting>> {
    let area = &block[AREA..];
    let (count, records) = (word(area, 0), word(area, 4));
    if count > MOST || records > MOST_RECORDS {
        return None;
    }
    let bytes = &area[RECORDS..RECORDS + 40 * records];
    let updates = read_waiting(bytes)?;
    let inside = (0..count).all(|k| (from..END).contains(&position(area, k)));
    let waits = updates.iter().zip(0..);
    let waits = waits.map(|(update, k)| Waiting::new(update, bytes, position(area, k)));
    (updates.len() == count && inside).then(|| waits.collect())
}

/// The area's bytes in use are those of these.
pub fn stand_in(waits: &[Waiting], block: &[u8]) -> bool {
    let area = &block[AREA..];
    let records: Vec<u8> = waits.iter().flat_map(|w| w.records.clone()).collect();
    word(area, 0) == waits.len()
        && 40 * word(area, 4) == records.len()
        && area[RECORDS..].starts_with(&records)
        && (waits.iter().zip(0..)).all(|(w, k)| w.position == position(area, k))
}

/// Puts them into a block.
pub fn put(block: &mut [u8], positions: &[u64], records: &[u8]) {
    let area = &mut block[AREA..];
    area[..4].copy_from_slice(&(positions.len() as u32).to_le_bytes());
    area[4..8].copy_from_slice(&(records.len() as u32 / 40).to_le_bytes());
    for (k, position) in positions.iter().enumerate() {
        area[POSITIONS + 8 * k..][..8].copy_from_slice(&position.to_le_bytes());
    }
    area[RECORDS..][..records.len()].copy_from_slice(records);
}
