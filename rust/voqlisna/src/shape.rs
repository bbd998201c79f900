// SPDX-License-Identifier: Apache-2.0
//! What fits into a frame.

use core::fmt;

/// Beds of a frame, at most.
pub(crate) const BEDS: usize = 18;
/// Dynamic objects of a frame, at most.
pub(crate) const OBJECTS: usize = 16;
/// Channels of a frame, at most.
pub(crate) const CHANNELS: usize = 34;
/// Samples of a frame, at most.
pub(crate) const SAMPLES: usize = 1536;

/// Lengths and counts that do not fit.
#[non_exhaustive]
#[derive(Clone, Copy, Debug, PartialEq, Eq)]
pub enum ShapeError {
    /// A length, of samples or bytes as given, that is not one for whole channels.
    Length {
        /// What it is.
        got: usize,
        /// What it must be a multiple of.
        of: usize,
    },
    /// Two channels of different lengths.
    Uneven {
        /// The channel that differs from the first.
        channel: usize,
        /// Its samples.
        got: usize,
        /// The first channel's.
        expected: usize,
    },
    /// Too many samples.
    Samples {
        /// How many.
        got: usize,
        /// The most.
        most: usize,
    },
    /// More than 34 channels, or none where there are samples.
    Channels(usize),
    /// More than 18 beds, or more than channels.
    Beds {
        /// How many.
        got: usize,
        /// The frame's channels.
        channels: usize,
    },
    /// More than 16 objects.
    Objects(usize),
    /// Lent memory is too small.
    Memory {
        /// The places that it must have.
        needed: usize,
    },
}

impl fmt::Display for ShapeError {
    fn fmt(&self, f: &mut fmt::Formatter<'_>) -> fmt::Result {
        match *self {
            Self::Length { got, of } => write!(f, "a length of {got} is not a multiple of {of}"),
            Self::Uneven {
                channel,
                got,
                expected,
            } => {
                write!(
                    f,
                    "channel {channel} has {got} samples and channel 0 has {expected}"
                )
            }
            Self::Samples { got, most } => write!(f, "{got} samples; at most {most} are taken"),
            Self::Channels(0) => f.write_str("samples without a channel"),
            Self::Channels(got) => write!(f, "{got} channels; a frame has at most {CHANNELS}"),
            Self::Beds { got, channels } => {
                write!(
                    f,
                    "{got} beds in {channels} channels; a frame has at most {BEDS}"
                )
            }
            Self::Objects(got) => write!(f, "{got} objects; a frame has at most {OBJECTS}"),
            Self::Memory { needed } => write!(f, "the lent memory must have {needed} places"),
        }
    }
}

impl core::error::Error for ShapeError {}
