// SPDX-License-Identifier: Apache-2.0
//! Why a call was refused.

use core::fmt;
use voqlisna_sys::Answer;

/// A refused call. It has changed nothing: neither the renderer, nor its clock, nor what it is lent.
///
/// ```
/// use voqlisna::{Blame, Refusal};
/// let refusal = Refusal::RateChanged { expected: 48_000, provided: 44_100 };
/// assert_eq!((refusal.number(), refusal.counts()), (9, (48_000, 44_100)));
/// assert_eq!(refusal.blame(), Blame::Stream);
/// assert!(refusal.to_string().starts_with("the stream runs at 48000 Hz and the frame at 44100"));
/// ```
#[non_exhaustive]
#[derive(Clone, Copy, Debug, PartialEq, Eq, Hash)]
pub enum Refusal {
    /// 1: stride, output or state block. Cannot arise through this crate; hosts on [`crate::sys`]
    /// meet it.
    Memory,
    /// 2: samples, beds, objects, a bed code, or the length of the PCM. Through this crate only by
    /// a frame with more samples than the output's stride.
    Frame,
    /// 3: a rate outside 8,000 to 192,000. Cannot arise through this crate.
    Rate,
    /// 4: the stream would pass 2^40 samples.
    StreamEnd,
    /// 5: metadata records not as laid out.
    Records,
    /// 6: a value in the metadata out of its range.
    Value,
    /// 8: a sample not finite or beyond ±16.
    Sample,
    /// 9: another rate than the stream's.
    RateChanged {
        /// The stream's.
        expected: u32,
        /// The frame's.
        provided: u32,
    },
    /// 10: no update has come yet.
    NoUpdate,
    /// 11: another number of dynamic objects than the metadata's.
    Objects {
        /// The metadata's.
        expected: u32,
        /// The frame's.
        provided: u32,
    },
    /// 12: no samples.
    NoSamples,
    /// 13: a bed of the metadata has no channel in the frame.
    BedMissing {
        /// How many beds of the update match it.
        expected: u32,
    },
    /// 14: a bed that no speaker plays.
    BedUnsupported {
        /// Its code: 6, rear center.
        code: u32,
    },
    /// 15: a layout's code above 3. Cannot arise through this crate.
    Layout,
    /// 16: a hall table that has not 144 bytes. Cannot arise through this crate, as 17 and 18 cannot:
    /// [`HallTable`](crate::HallTable) is right.
    TableLength,
    /// 17: a coordinate of a hall table that is not finite, or outside -1 to 1.
    TableCoordinate,
    /// 18: two full-range speakers of a hall table at one place.
    TablePlaces,
    /// 19: 24-bit samples of no whole number of 36 bytes.
    Pcm24Length,
    /// 20: too little memory for samples to or from 24 bits.
    Pcm24Destination,
    /// 21: a sample that is to be written in 24 bits is NaN, or outside -1 to 1.
    Pcm24Sample,
    /// 22: more than 1,536 samples to convert.
    ConvertedSamples,
    /// 23: the samples to convert have another length, or the destination is too short.
    ConvertedLength,
    /// 24: the number of an object that is to be held or released is not below the dynamic objects of
    /// the last applied update, of which there are none before the first.
    ObjectNumber,
    /// 25: more than 8 updates would wait for their samples, or more than 1,200 records of them.
    TooManyAhead,
    /// A number that this version does not know.
    Other {
        /// The library's number.
        number: u32,
        /// Its first count.
        first: u32,
        /// Its second count.
        second: u32,
    },
}

/// Whose fault a refusal is.
#[derive(Clone, Copy, Debug, PartialEq, Eq, Hash)]
pub enum Blame {
    /// The program that calls the renderer.
    Host,
    /// The programme's metadata.
    Programme,
    /// The decoder's samples.
    Decoder,
    /// The stream by the rules' own: frames and metadata, each right in itself, do not fit each
    /// other.
    Stream,
}

impl Refusal {
    /// The refusal that an answer tells; none where it tells another thing.
    pub const fn from_answer(answer: Answer) -> Option<Self> {
        let Answer {
            kind: 1,
            number,
            first,
            second,
            ..
        } = answer
        else {
            return None;
        };
        Some(match number {
            1 => Self::Memory,
            2 => Self::Frame,
            3 => Self::Rate,
            4 => Self::StreamEnd,
            5 => Self::Records,
            6 => Self::Value,
            8 => Self::Sample,
            9 => Self::RateChanged {
                expected: first,
                provided: second,
            },
            10 => Self::NoUpdate,
            11 => Self::Objects {
                expected: first,
                provided: second,
            },
            12 => Self::NoSamples,
            13 => Self::BedMissing { expected: first },
            14 => Self::BedUnsupported { code: first },
            15 => Self::Layout,
            16 => Self::TableLength,
            17 => Self::TableCoordinate,
            18 => Self::TablePlaces,
            19 => Self::Pcm24Length,
            20 => Self::Pcm24Destination,
            21 => Self::Pcm24Sample,
            22 => Self::ConvertedSamples,
            23 => Self::ConvertedLength,
            24 => Self::ObjectNumber,
            25 => Self::TooManyAhead,
            number => Self::Other {
                number,
                first,
                second,
            },
        })
    }

    /// As docs/INTERFACE.md numbers them.
    pub const fn number(self) -> u32 {
        match self {
            Self::Memory => 1,
            Self::Frame => 2,
            Self::Rate => 3,
            Self::StreamEnd => 4,
            Self::Records => 5,
            Self::Value => 6,
            Self::Sample => 8,
            Self::RateChanged { .. } => 9,
            Self::NoUpdate => 10,
            Self::Objects { .. } => 11,
            Self::NoSamples => 12,
            Self::BedMissing { .. } => 13,
            Self::BedUnsupported { .. } => 14,
            Self::Layout => 15,
            Self::TableLength => 16,
            Self::TableCoordinate => 17,
            Self::TablePlaces => 18,
            Self::Pcm24Length => 19,
            Self::Pcm24Destination => 20,
            Self::Pcm24Sample => 21,
            Self::ConvertedSamples => 22,
            Self::ConvertedLength => 23,
            Self::ObjectNumber => 24,
            Self::TooManyAhead => 25,
            Self::Other { number, .. } => number,
        }
    }

    /// The two counts, 0 where it has none.
    pub const fn counts(self) -> (u32, u32) {
        match self {
            Self::RateChanged { expected, provided } | Self::Objects { expected, provided } => {
                (expected, provided)
            }
            Self::BedMissing { expected } => (expected, 0),
            Self::BedUnsupported { code } => (code, 0),
            Self::Other { first, second, .. } => (first, second),
            _ => (0, 0),
        }
    }

    /// Whose fault it is.
    pub const fn blame(self) -> Blame {
        match self.number() {
            5 | 6 | 25 => Blame::Programme,
            8 => Blame::Decoder,
            9..=14 => Blame::Stream,
            _ => Blame::Host,
        }
    }
}

impl fmt::Display for Refusal {
    fn fmt(&self, f: &mut fmt::Formatter<'_>) -> fmt::Result {
        f.write_str(match *self {
            Self::Memory => "the stride, the output or the state block is not as it must be",
            Self::Frame => {
                "too many samples, beds or objects, an unknown bed, or PCM of another length"
            }
            Self::Rate => "the rate is outside 8,000 to 192,000 Hz",
            Self::StreamEnd => "the stream would pass 2^40 samples: reset",
            Self::Records => "metadata records are not as laid out, or a count is over its limit",
            Self::Value => "a value in the metadata is out of its range",
            Self::Sample => "a sample is not finite or beyond ±16",
            Self::NoUpdate => "no metadata has come yet",
            Self::NoSamples => "the frame has no samples",
            Self::Layout => "the layout's code is above 3",
            Self::TableLength => "the hall table has not 144 bytes",
            Self::TableCoordinate => "a coordinate of the hall table is not from -1 to 1",
            Self::TablePlaces => "two full-range speakers of the hall table are at the same place",
            Self::Pcm24Length => "24-bit samples of no whole number of 36 bytes",
            Self::Pcm24Destination => "too little memory for samples to or from 24 bits",
            Self::Pcm24Sample => "a sample to be written in 24 bits is NaN or outside -1 to 1",
            Self::ConvertedSamples => "more than 1,536 samples to convert",
            Self::ConvertedLength => {
                "the samples to convert have another length, or the destination is too short"
            }
            Self::ObjectNumber => {
                "no such object: its number is not below the dynamic objects of the last update"
            }
            Self::TooManyAhead => {
                "more than 8 updates would wait, or more than 1,200 records of them"
            }
            _ => return self.with_counts(f),
        })
    }
}

impl Refusal {
    fn with_counts(self, f: &mut fmt::Formatter<'_>) -> fmt::Result {
        let (first, second) = self.counts();
        match self.number() {
            9 => write!(
                f,
                "the stream runs at {first} Hz and the frame at {second}: flush and reset first"
            ),
            11 => write!(
                f,
                "the metadata has {first} dynamic objects and the frame {second}"
            ),
            13 => write!(
                f,
                "the frame lacks a bed of the metadata ({first} of its beds match it)"
            ),
            14 => write!(
                f,
                "the metadata has a bed of code {first} (rear center), which no speaker plays"
            ),
            number => write!(f, "refusal {number} ({first}, {second})"),
        }
    }
}

impl core::error::Error for Refusal {}

impl fmt::Display for Blame {
    fn fmt(&self, f: &mut fmt::Formatter<'_>) -> fmt::Result {
        f.pad(match self {
            Self::Host => "host",
            Self::Programme => "programme",
            Self::Decoder => "decoder",
            Self::Stream => "stream",
        })
    }
}
