// SPDX-License-Identifier: Apache-2.0
//! Where samples are written.

use crate::memory::{Floats, OwnFloats};
use crate::shape::SAMPLES;
use crate::{Layout, Rendered, ShapeError, Speaker};
use voqlisna_sys::Answer;

/// Places of a channel in the output, and so the most samples of a frame: a multiple of 64 from 64
/// to 1,536.
///
/// ```
/// use voqlisna::Stride;
/// assert_eq!(Stride::for_frames_of(480).map(Stride::samples), Some(512));
/// assert_eq!(Stride::new(500), None);
/// ```
#[derive(Clone, Copy, Debug, PartialEq, Eq, PartialOrd, Ord, Hash)]
pub struct Stride(u32);

impl Stride {
    /// 64.
    pub const MIN: Self = Self(64);

    /// 1,536.
    pub const MAX: Self = Self(SAMPLES as u32);

    /// None where it is no multiple of 64 from 64 to 1,536.
    pub const fn new(places: u32) -> Option<Self> {
        if places % 64 == 0 && places >= Self::MIN.0 && places <= Self::MAX.0 {
            Some(Self(places))
        } else {
            None
        }
    }

    /// The least for frames of up to `samples`. It holds what becomes ready of them, whatever
    /// waited before. None above 1,536.
    pub const fn for_frames_of(samples: u32) -> Option<Self> {
        match samples {
            0 => Some(Self::MIN),
            1..=1536 => Some(Self(samples.next_multiple_of(64))),
            _ => None,
        }
    }

    /// Places of a channel.
    pub const fn samples(self) -> usize {
        self.0 as usize
    }

    pub(crate) const fn places(self) -> u32 {
        self.0
    }

    /// Places of twelve channels.
    pub(crate) const fn of_all_speakers(self) -> usize {
        self.samples().saturating_mul(Speaker::ALL.len())
    }
}

/// Memory for twelve channels of `stride` places, which a call fills and [`Rendered`] reads. The
/// places of channels that a layout lacks keep what they have.
///
/// ```
/// use voqlisna::{Output, ShapeError, Stride};
/// let mut memory = [0.0; 12 * 256];
/// let stride = Stride::new(256).unwrap();
/// assert!(Output::over(&mut memory[..], stride).is_ok());
/// let short = Output::over(&mut memory[1..], stride).err();
/// assert_eq!(short, Some(ShapeError::Memory { needed: 3072 }));
/// ```
pub struct Output<M: Floats = OwnFloats> {
    memory: M,
    stride: Stride,
}

#[cfg(feature = "alloc")]
impl Output {
    /// 48 × stride bytes of its own.
    pub fn new(stride: Stride) -> Self {
        Self {
            memory: crate::memory::zeros(stride.of_all_speakers()),
            stride,
        }
    }
}

impl<M: Floats> Output<M> {
    /// Over lent memory of 12 × stride places or more.
    pub fn over(memory: M, stride: Stride) -> Result<Self, ShapeError> {
        let needed = stride.of_all_speakers();
        if memory.get().len() < needed {
            return Err(ShapeError::Memory { needed });
        }
        Ok(Self { memory, stride })
    }

    /// Its stride.
    pub const fn stride(&self) -> Stride {
        self.stride
    }

    pub(crate) fn lend(&mut self) -> &mut [f32] {
        self.memory.lend()
    }

    pub(crate) fn rendered(&self, answer: Answer, layout: Layout) -> Rendered<'_> {
        Rendered::new(self.memory.get(), self.stride, answer, layout)
    }
}

impl<M: Floats> core::fmt::Debug for Output<M> {
    fn fmt(&self, f: &mut core::fmt::Formatter<'_>) -> core::fmt::Result {
        f.debug_struct("Output")
            .field("stride", &self.stride)
            .finish_non_exhaustive()
    }
}
