// SPDX-License-Identifier: Apache-2.0
//! Metadata records read back, for tools. Nothing here is used on the way to the renderer: push
//! decides.
//!
//! ```
//! use voqlisna::records::{self, Record};
//! let mut bytes = [0; 80];
//! (bytes[0], bytes[4]) = (1, 33); // an update of 33 objects
//! let fault = records::first_fault(&bytes, 5).unwrap();
//! assert_eq!(fault.to_string(), "record 0, byte 4 (update 0): 33 objects, and at most 32 may be");
//!
//! bytes[4] = 1;
//! let update = records::read(&bytes).next().unwrap().unwrap();
//! assert!(matches!(update.record, Record::Update { objects: 1, elements: 0, .. }));
//! ```

mod fault;
mod layout;
mod place;

pub use fault::{Fault, Why};
pub use place::Place;

use crate::metadata::{Bytes40, RECORD};
use crate::{Block, Object};
use layout::Said;
use place::Counts;

/// One record, read.
#[derive(Clone, Copy, Debug, PartialEq)]
pub enum Record<'a> {
    /// Kind 1, or 9.
    Update {
        /// The sample offset.
        at: u32,
        /// Kind 9: at or past the frame's end it waits, where one of kind 1 is dropped.
        ahead: bool,
        /// In all.
        objects: u8,
        /// Not dynamic.
        fixed: u8,
        /// How many elements follow.
        elements: u8,
        /// Codes of the beds, each at most 17.
        codes: &'a [u8],
    },
    /// Kind 2.
    Element {
        /// How many blocks follow.
        blocks: u8,
    },
    /// Kind 3.
    Block(Block),
    /// Kind 4. Values out of their range stand in it as they are; a depth factor that is none of
    /// the four as [`crate::Depth::One`].
    Object(Object),
}

/// A record and its place.
#[derive(Clone, Copy, Debug, PartialEq)]
pub struct Placed<'a> {
    /// Which record, from 0.
    pub index: usize,
    /// What it belongs to.
    pub place: Place,
    /// What it says.
    pub record: Record<'a>,
    /// Its first value out of range (refusal 6), which does not end the reading.
    pub value: Option<Fault>,
}

/// Walks records. A fault of 5 ends it, since what follows has no place.
#[derive(Clone, Debug)]
pub struct Records<'a> {
    rest: &'a [u8],
    index: usize,
    /// Of the record that must come next.
    place: Place,
    counts: Counts,
    ended: bool,
}

/// Reads records one after the other.
pub const fn read(bytes: &[u8]) -> Records<'_> {
    Records {
        rest: bytes,
        index: 0,
        place: Place::FIRST,
        counts: Counts::NONE,
        ended: false,
    }
}

/// The first fault with this number, 5 or 6. Where push refuses by 5, a 6 in an earlier record is
/// not the reason.
pub fn first_fault(bytes: &[u8], number: u8) -> Option<Fault> {
    read(bytes).find_map(|record| {
        record
            .map_or_else(Some, |placed| placed.value)
            .filter(|f| f.number == number)
    })
}

impl<'a> Iterator for Records<'a> {
    type Item = Result<Placed<'a>, Fault>;

    fn next(&mut self) -> Option<Self::Item> {
        let may_end = matches!(self.place, Place::Update { .. });
        if self.ended || self.rest.is_empty() && may_end {
            return None;
        }
        let (index, place) = (self.index, self.place);
        let fault = |number, (byte, why)| Fault {
            index,
            byte,
            number,
            place,
            why,
        };
        Some(match self.record() {
            Ok(Said { record, value }) => Ok(Placed {
                index,
                place,
                record,
                value: value.map(|wrong| fault(6, wrong)),
            }),
            Err(wrong) => {
                self.ended = true;
                Err(fault(5, wrong))
            }
        })
    }
}

impl<'a> Records<'a> {
    /// The next record, or its first wrong byte.
    fn record(&mut self) -> Result<Said<'a>, (usize, Why)> {
        let expected = self.place.kind();
        let Some((record, rest)) = self.rest.split_first_chunk::<RECORD>() else {
            let bytes = self.rest.len();
            return Err((
                bytes,
                if bytes == 0 {
                    Why::Missing { expected }
                } else {
                    Why::Cut { bytes }
                },
            ));
        };
        let said = self.judge(record)?;
        self.rest = rest;
        self.index = self.index.saturating_add(1);
        self.counts.note(&said.record);
        self.place = self.place.next(&self.counts);
        Ok(said)
    }

    fn judge(&self, r: &'a Bytes40) -> Result<Said<'a>, (usize, Why)> {
        let (expected, found) = (self.place.kind(), r[0]);
        let ahead = matches!(self.place, Place::Update { .. }) && found == 9;
        if found != expected && !ahead {
            return Err((0, Why::Kind { expected, found }));
        }
        match self.place {
            Place::Update { update } => layout::update(r, update),
            Place::Element { .. } => layout::element(r),
            Place::Block { .. } => layout::block(r),
            Place::Object { .. } => layout::object(r),
        }
    }
}
