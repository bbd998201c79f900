// SPDX-License-Identifier: Apache-2.0
//! What is behind a refusal. For people only: push decides.

use crate::records::{Fault, first_fault};
use crate::shape::{BEDS, OBJECTS, SAMPLES};
use crate::{Bed, Frame, Refusal, Stride};
use core::fmt;
use voqlisna_sys as sys;

/// What is behind the refusal of a frame that was pushed with this stride; none where the frame
/// does not tell, or where the refusal is not this frame's.
///
/// ```
/// use voqlisna::*;
/// let mut sound = [0.0; 4];
/// sound[3] = f32::INFINITY;
/// let pcm = Pcm::packed(&sound, 2)?;
/// let frame = Frame::new(Rate::HZ_48000, &[Bed::Center], pcm, Metadata::NONE)?;
/// let cause = explain(&frame, Stride::MAX, Refusal::Sample).unwrap();
/// assert_eq!(cause.to_string(), "channel 1, sample 1 is inf");
/// # Ok::<(), ShapeError>(())
/// ```
pub fn explain(frame: &Frame<'_>, stride: Stride, refusal: Refusal) -> Option<Cause> {
    let arguments = Arguments {
        state_length: sys::STATE_SIZE,
        out_length: stride.of_all_speakers().saturating_mul(4),
        pcm: frame.pcm().as_bytes(),
        metadata: frame.metadata().as_bytes(),
        codes: Bed::codes(frame.beds()),
        samples: frame.pcm().count(),
        objects: frame.object_count(),
        stride: stride.places(),
    };
    arguments.explain(refusal)
}

/// The arguments of [`sys::hall_push`], for hosts that call it themselves.
///
/// ```
/// use voqlisna::{Argument, Arguments, Cause, Refusal, sys};
/// let call = Arguments {
///     state_length: sys::STATE_SIZE,
///     out_length: 48 * 100,
///     pcm: &[],
///     metadata: &[],
///     codes: &[],
///     samples: 100,
///     objects: 0,
///     stride: 100,
/// };
/// assert_eq!(call.explain(Refusal::Memory), Some(Cause::Argument(Argument::Stride(100))));
/// ```
#[derive(Clone, Copy, Debug)]
pub struct Arguments<'a> {
    /// Bytes of the state block.
    pub state_length: usize,
    /// Bytes of the output.
    pub out_length: usize,
    /// The samples.
    pub pcm: &'a [u8],
    /// The records.
    pub metadata: &'a [u8],
    /// The beds.
    pub codes: &'a [u8],
    /// On each channel.
    pub samples: u32,
    /// Dynamic objects.
    pub objects: u32,
    /// Places of a channel in the output.
    pub stride: u32,
}

/// The place of the trouble. `Display` is a sentence.
#[non_exhaustive]
#[derive(Clone, Copy, Debug, PartialEq)]
pub enum Cause {
    /// 1 and 2: an argument.
    Argument(Argument),
    /// 5 and 6: a metadata record.
    Record(Fault),
    /// 8: a sample.
    Sample {
        /// Beds first, then objects.
        channel: usize,
        /// In the frame.
        sample: usize,
        /// What it is.
        value: f32,
    },
}

/// An argument that is not as it must be.
#[non_exhaustive]
#[derive(Clone, Copy, Debug, PartialEq, Eq)]
#[allow(missing_docs)]
pub enum Argument {
    /// 1: no multiple of 64 from 64 to 1,536.
    Stride(u32),
    /// 1: an output shorter than 48 × stride bytes.
    Output { length: usize, needed: usize },
    /// 1: a state block of another length.
    StateLength { length: usize, needed: usize },
    /// 1: a state block with a field out of its range.
    StateField,
    /// 2: more samples than the stride.
    Samples { samples: u32, most: u32 },
    /// 2: more than 18 beds.
    Beds(usize),
    /// 2: more than 16 objects.
    Objects(u32),
    /// 2: a code above 17.
    Code { index: usize, code: u8 },
    /// 2: PCM that is not 4 × channels × samples bytes.
    Pcm { length: usize, needed: usize },
    /// 2: samples without a channel.
    NoChannel,
}

impl Arguments<'_> {
    /// What is behind this refusal of the call: for 1, 2, 5, 6 and 8; none where these arguments
    /// are no reason for it.
    pub fn explain(&self, refusal: Refusal) -> Option<Cause> {
        match refusal {
            Refusal::Memory => Some(Cause::Argument(self.lent())),
            Refusal::Frame => self.sizes().map(Cause::Argument),
            Refusal::Records => first_fault(self.metadata, 5).map(Cause::Record),
            Refusal::Value => first_fault(self.metadata, 6).map(Cause::Record),
            Refusal::Sample => self.sample(),
            _ => None,
        }
    }

    fn lent(&self) -> Argument {
        let (length, needed) = (self.state_length, sys::STATE_SIZE);
        let out = Stride::new(self.stride).map(|stride| stride.of_all_speakers().saturating_mul(4));
        match out {
            None => Argument::Stride(self.stride),
            Some(needed) if self.out_length < needed => Argument::Output {
                length: self.out_length,
                needed,
            },
            Some(_) if length != needed => Argument::StateLength { length, needed },
            Some(_) => Argument::StateField,
        }
    }

    fn sizes(&self) -> Option<Argument> {
        let Self {
            samples,
            objects,
            stride: most,
            ..
        } = *self;
        let beds = self.codes.len();
        if samples > most {
            return Some(Argument::Samples { samples, most });
        }
        if beds > BEDS {
            return Some(Argument::Beds(beds));
        }
        if objects > OBJECTS as u32 {
            return Some(Argument::Objects(objects));
        }
        if let Some((index, code)) = self
            .codes
            .iter()
            .enumerate()
            .find(|(_, code)| Bed::from_code(**code).is_none())
        {
            return Some(Argument::Code { index, code: *code });
        }
        let (channels, samples) = (beds.saturating_add(objects as usize), samples as usize);
        let (length, needed) = (
            self.pcm.len(),
            channels.saturating_mul(samples).saturating_mul(4),
        );
        if length != needed {
            return Some(Argument::Pcm { length, needed });
        }
        (channels == 0 && samples > 0).then_some(Argument::NoChannel)
    }

    fn sample(&self) -> Option<Cause> {
        let samples = self.samples as usize;
        self.pcm
            .chunks_exact(4)
            .enumerate()
            .find_map(|(place, bytes)| {
                let value = f32::from_le_bytes(*bytes.first_chunk()?);
                let (channel, sample) = (place.checked_div(samples)?, place.checked_rem(samples)?);
                (!(-16.0..=16.0).contains(&value)).then_some(Cause::Sample {
                    channel,
                    sample,
                    value,
                })
            })
    }
}

impl fmt::Display for Cause {
    fn fmt(&self, f: &mut fmt::Formatter<'_>) -> fmt::Result {
        match self {
            Self::Argument(argument) => argument.fmt(f),
            Self::Record(fault) => fault.fmt(f),
            Self::Sample {
                channel,
                sample,
                value,
            } => write!(f, "channel {channel}, sample {sample} is {value}"),
        }
    }
}

impl fmt::Display for Argument {
    fn fmt(&self, f: &mut fmt::Formatter<'_>) -> fmt::Result {
        match self {
            Self::Stride(stride) => {
                write!(
                    f,
                    "the stride is {stride}, and must be a multiple of 64 from 64 to {SAMPLES}"
                )
            }
            Self::Output { length, needed } => {
                write!(f, "the output has {length} bytes, and must have {needed}")
            }
            Self::StateLength { length, needed } => {
                write!(
                    f,
                    "the state block has {length} bytes, and must have {needed}"
                )
            }
            Self::StateField => f.write_str("a field of the state block is out of its range"),
            Self::Samples { samples, most } => {
                write!(
                    f,
                    "{samples} samples on each channel, and at most {most}, the stride, may be"
                )
            }
            Self::Beds(beds) => write!(f, "{beds} beds, and at most {BEDS} may be"),
            Self::Objects(objects) => write!(f, "{objects} objects, and at most {OBJECTS} may be"),
            Self::Code { index, code } => {
                write!(f, "bed {index} has code {code}, and at most 17 may be")
            }
            Self::Pcm { length, needed } => {
                write!(f, "the PCM has {length} bytes, and must have {needed}")
            }
            Self::NoChannel => f.write_str("samples without a channel"),
        }
    }
}
