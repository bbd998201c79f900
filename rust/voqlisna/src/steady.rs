// SPDX-License-Identifier: Apache-2.0
//! As many samples out as in, for hosts with a callback.

use crate::memory::{Floats, OwnFloats};
use crate::{Rendered, ShapeError, Speaker};

/// The most samples of a callback, and those that may lie beside them: a delay and what waits in
/// the renderer, below 64 each.
const MOST: usize = 65_536;
const SPARE: usize = 128;

/// A short delay after which as many samples come out as go in.
///
/// A push makes whole blocks of 64 samples ready, so 480 samples a callback give 448 or 512.
///
/// ```
/// # use voqlisna::*;
/// # let mut memory = [0; MetadataWriter::bytes_for(1, &[])];
/// # let mut writer = MetadataWriter::new(&mut memory);
/// # writer.update(Update { at: 0, objects: 1, fixed: 0, beds: &[] })?;
/// # let (mut renderer, mut out) = (Renderer::new(Layout::Hall714)?, Output::new(Stride::MAX));
/// # let frame = Frame::new(Rate::HZ_48000, &[], Pcm::packed(&[0.0; 480], 1)?, writer.finish())?;
/// let mut steady = Steady::fixed(480)?;
/// assert_eq!(steady.latency(), 32);
/// let mut device = [0.0; 2 * 480];
/// for _ in 0..10 {
///     steady.put(&renderer.push(&frame, &mut out)?)?;
///     let pair = [Speaker::FrontLeft, Speaker::FrontRight];
///     assert_eq!(steady.take_interleaved(&pair, 480, &mut device), 480);
/// }
/// # Ok::<(), Box<dyn std::error::Error>>(())
/// ```
pub struct Steady<M: Floats = OwnFloats> {
    ring: M,
    /// Places of a channel in the ring.
    room: usize,
    /// The place of the next sample out.
    start: usize,
    held: usize,
    delay: usize,
}

#[cfg(feature = "alloc")]
impl Steady {
    /// For callbacks of always so many samples: the delay is 64 - gcd(samples, 64), the least that
    /// never runs dry.
    pub fn fixed(samples: usize) -> Result<Self, ShapeError> {
        Self::fixed_over(crate::memory::zeros(Self::places_for(samples)?), samples)
    }

    /// For callbacks of any number of samples up to `most`: the delay is 63.
    pub fn up_to(most: usize) -> Result<Self, ShapeError> {
        Self::up_to_over(crate::memory::zeros(Self::places_for(most)?), most)
    }
}

impl<M: Floats> Steady<M> {
    /// Places of lent memory for callbacks of up to so many samples: 12 × (samples + 128). At most
    /// 65,536 samples.
    pub const fn places_for(samples: usize) -> Result<usize, ShapeError> {
        if samples > MOST {
            return Err(ShapeError::Samples {
                got: samples,
                most: MOST,
            });
        }
        Ok(samples
            .saturating_add(SPARE)
            .saturating_mul(Speaker::ALL.len()))
    }

    /// [`Steady::fixed`] over lent memory, which is zeroed.
    pub fn fixed_over(memory: M, samples: usize) -> Result<Self, ShapeError> {
        // The powers of two up to 64 that divide the number.
        let gcd = 1usize << samples.trailing_zeros().min(6);
        Self::over(memory, samples, 64usize.saturating_sub(gcd))
    }

    /// [`Steady::up_to`] over lent memory, which is zeroed.
    pub fn up_to_over(memory: M, most: usize) -> Result<Self, ShapeError> {
        Self::over(memory, most, 63)
    }

    fn over(mut memory: M, samples: usize, delay: usize) -> Result<Self, ShapeError> {
        let needed = Self::places_for(samples)?;
        let ring = memory
            .lend()
            .get_mut(..needed)
            .ok_or(ShapeError::Memory { needed })?;
        ring.fill(0.0);
        let room = samples.saturating_add(SPARE);
        Ok(Self {
            ring: memory,
            room,
            start: 0,
            held: delay,
            delay,
        })
    }

    /// The delay in samples: 0 for multiples of 64, 32 for 480, 63 for odd numbers.
    pub const fn latency(&self) -> usize {
        self.delay
    }

    /// Samples at hand.
    pub const fn held(&self) -> usize {
        self.held
    }

    /// Takes what a call gave; a channel that its layout lacks is silent. Fails, and takes nothing, where it does not fit: after pushes of as
    /// many samples as are taken out it always fits.
    pub fn put(&mut self, rendered: &Rendered<'_>) -> Result<(), ShapeError> {
        let needed = self.held.saturating_add(rendered.ready());
        if needed > self.room {
            return Err(ShapeError::Memory { needed });
        }
        let at = self.place(self.held);
        for speaker in Speaker::ALL {
            let row = self.row(speaker);
            let row = self.ring.lend().get_mut(row).unwrap_or_default();
            let (behind, from) = row.split_at_mut_checked(at).unwrap_or_default();
            for (place, x) in from.iter_mut().chain(behind).zip(rendered.whole(speaker)) {
                *place = x;
            }
        }
        self.held = needed;
        Ok(())
    }

    /// Gives out `frames` samples of the speakers named, interleaved in their order; fewer where
    /// fewer are held or fit. Answers how many.
    pub fn take_interleaved(
        &mut self,
        speakers: &[Speaker],
        frames: usize,
        to: &mut [f32],
    ) -> usize {
        let width = speakers.len().max(1);
        let count = frames
            .min(self.held)
            .min(to.len().checked_div(width).unwrap_or(0));
        for (k, speaker) in speakers.iter().enumerate() {
            let row = self.ring.get().get(self.row(*speaker)).unwrap_or_default();
            let (behind, from) = row.split_at_checked(self.start).unwrap_or_default();
            let places = to.iter_mut().skip(k).step_by(width).take(count);
            for (place, x) in places.zip(from.iter().chain(behind)) {
                *place = *x;
            }
        }
        self.start = self.place(count);
        self.held = self.held.saturating_sub(count);
        count
    }

    /// The places of a channel.
    const fn row(&self, speaker: Speaker) -> core::ops::Range<usize> {
        let start = speaker.channel().saturating_mul(self.room);
        start..start.saturating_add(self.room)
    }

    /// The place `count` behind the start.
    fn place(&self, count: usize) -> usize {
        self.start
            .saturating_add(count)
            .checked_rem(self.room)
            .unwrap_or(0)
    }
}

impl<M: Floats> core::fmt::Debug for Steady<M> {
    fn fmt(&self, f: &mut core::fmt::Formatter<'_>) -> core::fmt::Result {
        f.debug_struct("Steady")
            .field("latency", &self.delay)
            .field("held", &self.held)
            .finish_non_exhaustive()
    }
}
