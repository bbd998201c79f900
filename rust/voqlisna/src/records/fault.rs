// SPDX-License-Identifier: Apache-2.0
//! What is wrong with a record.

use super::Place;
use core::fmt;

/// Something wrong: which record, which byte of it, which refusal. `Display` is a sentence.
#[derive(Clone, Copy, Debug, PartialEq)]
pub struct Fault {
    /// The record, from 0.
    pub index: usize,
    /// The byte in it, 0 to 39; of a value its first.
    pub byte: usize,
    /// 5 or 6.
    pub number: u8,
    /// What the record belongs to, or would belong to.
    pub place: Place,
    /// What is wrong there.
    pub why: Why,
}

/// Why a record is refused.
#[non_exhaustive]
#[derive(Clone, Copy, Debug, PartialEq)]
#[allow(missing_docs)]
pub enum Why {
    /// Another kind must stand here.
    Kind { expected: u8, found: u8 },
    /// The metadata ends, and a record of this kind must follow.
    Missing { expected: u8 },
    /// The metadata ends inside a record.
    Cut { bytes: usize },
    /// An unused byte, or a byte of an absent value.
    NotZero { found: u8 },
    /// A count or code over its limit.
    OverLimit {
        what: &'static str,
        found: u8,
        most: u8,
    },
    /// A 17th update.
    Updates,
    /// A gain, size or send.
    Value {
        what: &'static str,
        value: f32,
        most: f32,
    },
    /// An offset or ramp.
    Time { what: &'static str, value: i64 },
    /// A depth factor that is none of the four.
    Depth { value: f32 },
}

impl fmt::Display for Fault {
    fn fmt(&self, f: &mut fmt::Formatter<'_>) -> fmt::Result {
        let Self {
            index,
            byte,
            place,
            why,
            ..
        } = self;
        write!(f, "record {index}, byte {byte} ({place}): {why}")
    }
}

impl fmt::Display for Why {
    fn fmt(&self, f: &mut fmt::Formatter<'_>) -> fmt::Result {
        match *self {
            Self::Kind { expected: 1, found } => {
                write!(f, "the kind must be 1 or 9, an update; it is {found}")
            }
            Self::Kind { expected, found } => {
                write!(
                    f,
                    "the kind must be {expected}, {}; it is {found}",
                    name(expected)
                )
            }
            Self::Missing { expected } => write!(
                f,
                "{} (kind {expected}) must follow, and the metadata ends",
                name(expected)
            ),
            Self::Cut { bytes } => write!(f, "the metadata ends after {bytes} of 40 bytes"),
            Self::NotZero { found } => write!(
                f,
                "an unused place or an absent value must be 0; it is {found}"
            ),
            Self::OverLimit { what, found, most } => {
                write!(f, "{found} {what}, and at most {most} may be")
            }
            Self::Updates => f.write_str("a frame has at most 16 updates"),
            Self::Value { what, value, most } => {
                write!(f, "the {what} is {value}, and must be from 0 to {most}")
            }
            Self::Time { what, value } => {
                write!(f, "the {what} is {value}, and must be within ±1048576")
            }
            Self::Depth { value } => write!(
                f,
                "the depth factor is {value}, and must be 0.25, 0.5, 1 or 2"
            ),
        }
    }
}

const fn name(kind: u8) -> &'static str {
    match kind {
        1 => "an update",
        2 => "an element",
        3 => "a block",
        _ => "an object",
    }
}

impl core::error::Error for Fault {}
