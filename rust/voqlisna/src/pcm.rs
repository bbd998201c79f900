// SPDX-License-Identifier: Apache-2.0
//! The samples of a frame.

use crate::memory::{Floats, OwnFloats, as_bytes};
use crate::shape::{CHANNELS, SAMPLES, ShapeError};
#[cfg(feature = "alloc")]
use crate::{Stride, memory::zeros};

/// Samples of a frame, channel after channel, beds then objects. Copies nothing.
///
/// ```
/// use voqlisna::{Pcm, ShapeError};
/// let two_channels = [0.0f32; 512];
/// assert_eq!(Pcm::packed(&two_channels, 2)?.samples(), 256);
/// assert_eq!(Pcm::packed(&two_channels, 3).err(), Some(ShapeError::Length { got: 512, of: 3 }));
/// # Ok::<(), ShapeError>(())
/// ```
#[derive(Clone, Copy, Debug)]
pub struct Pcm<'a> {
    bytes: &'a [u8],
    channels: usize,
    samples: usize,
}

impl<'a> Pcm<'a> {
    /// No channel.
    pub const EMPTY: Pcm<'static> = Pcm {
        bytes: &[],
        channels: 0,
        samples: 0,
    };

    /// One slice, channel after channel.
    pub fn packed(samples: &'a [f32], channels: usize) -> Result<Self, ShapeError> {
        let (got, of) = (samples.len(), channels);
        Self::bytes(as_bytes(samples), channels).map_err(|error| match error {
            ShapeError::Length { .. } => ShapeError::Length { got, of },
            other => other,
        })
    }

    /// The same as little-endian f32 of any alignment: for decoders that write bytes.
    pub fn bytes(bytes: &'a [u8], channels: usize) -> Result<Self, ShapeError> {
        if channels > CHANNELS || channels == 0 && !bytes.is_empty() {
            return Err(ShapeError::Channels(channels));
        }
        let (of, got) = (channels.saturating_mul(4), bytes.len());
        let samples = got.checked_div(of).unwrap_or(0);
        if samples.saturating_mul(of) != got {
            return Err(ShapeError::Length { got, of });
        }
        if samples > SAMPLES {
            return Err(ShapeError::Samples {
                got: samples,
                most: SAMPLES,
            });
        }
        Ok(Self {
            bytes,
            channels,
            samples,
        })
    }

    /// On each channel.
    pub const fn samples(&self) -> usize {
        self.samples
    }

    /// Beds and objects.
    pub const fn channels(&self) -> usize {
        self.channels
    }

    /// As lent.
    pub const fn as_bytes(&self) -> &'a [u8] {
        self.bytes
    }

    pub(crate) const fn count(&self) -> u32 {
        self.samples as u32 // at most 1,536
    }
}

/// Memory in which channels are brought together, for decoders whose channels lie apart or
/// interleaved.
///
/// ```
/// use voqlisna::{Pcm, Stage, Stride};
/// let mut stage = Stage::new(Stride::MAX, 2);
/// let pcm = stage.interleaved(&[1.0, -1.0, 0.5, -0.5], 2)?;
/// assert_eq!((pcm.channels(), pcm.samples()), (2, 2));
/// assert_eq!(pcm.as_bytes()[4..8], 0.5f32.to_le_bytes());
/// # Ok::<(), voqlisna::ShapeError>(())
/// ```
pub struct Stage<M: Floats = OwnFloats>(M);

#[cfg(feature = "alloc")]
impl Stage {
    /// For up to `channels` (34 where more are asked for) of the stride's samples.
    pub fn new(stride: Stride, channels: usize) -> Self {
        Self(zeros(
            stride.samples().saturating_mul(channels.min(CHANNELS)),
        ))
    }
}

impl<M: Floats> Stage<M> {
    /// Over lent memory of channels × samples places.
    pub fn over(memory: M) -> Self {
        Self(memory)
    }

    /// One slice for each channel, all of one length.
    pub fn planes<'a>(&'a mut self, channels: &[&[f32]]) -> Result<Pcm<'a>, ShapeError> {
        let samples = channels.first().map_or(0, |first| first.len());
        let memory = self.lend(samples, channels.len())?;
        for (k, channel) in channels.iter().enumerate() {
            if channel.len() != samples {
                return Err(ShapeError::Uneven {
                    channel: k,
                    got: channel.len(),
                    expected: samples,
                });
            }
        }
        for (place, x) in memory.iter_mut().zip(channels.iter().copied().flatten()) {
            *place = *x;
        }
        Pcm::packed(memory, channels.len())
    }

    /// Sample after sample, as most decoders and files have it.
    pub fn interleaved<'a>(
        &'a mut self,
        samples: &[f32],
        channels: usize,
    ) -> Result<Pcm<'a>, ShapeError> {
        let Some(each) = samples.len().checked_div(channels) else {
            return Err(ShapeError::Channels(0));
        };
        let memory = self.lend(each, channels)?;
        if memory.len() != samples.len() {
            return Err(ShapeError::Length {
                got: samples.len(),
                of: channels,
            });
        }
        for (k, row) in memory.chunks_exact_mut(each.max(1)).enumerate() {
            for (place, x) in row.iter_mut().zip(samples.iter().skip(k).step_by(channels)) {
                *place = *x;
            }
        }
        Pcm::packed(memory, channels)
    }

    /// Places for so many channels of so many samples.
    fn lend(&mut self, samples: usize, channels: usize) -> Result<&mut [f32], ShapeError> {
        if channels > CHANNELS {
            return Err(ShapeError::Channels(channels));
        }
        if samples > SAMPLES {
            return Err(ShapeError::Samples {
                got: samples,
                most: SAMPLES,
            });
        }
        let needed = samples.saturating_mul(channels);
        self.0
            .lend()
            .get_mut(..needed)
            .ok_or(ShapeError::Memory { needed })
    }
}

impl<M: Floats> core::fmt::Debug for Stage<M> {
    fn fmt(&self, f: &mut core::fmt::Formatter<'_>) -> core::fmt::Result {
        f.debug_struct("Stage")
            .field("places", &self.0.get().len())
            .finish_non_exhaustive()
    }
}
