// SPDX-License-Identifier: Apache-2.0
//! What to push where a frame was refused. A refused call has not moved the clock, so the next try
//! starts from the same state.

use crate::memory::{Bytes, Floats, OwnFloats};
use crate::shape::{BEDS, CHANNELS};
use crate::{
    Bed, Frame, Metadata, Output, Pcm, Rate, Refusal, Rendered, Renderer, ShapeError, Stride,
};
use voqlisna_sys::Answer;

/// Remembers the channels of the last frame that was taken, and has silence at hand.
///
/// ```
/// # use voqlisna::*;
/// # let mut memory = [0; MetadataWriter::bytes_for(1, &[])];
/// # let mut writer = MetadataWriter::new(&mut memory);
/// # writer.update(Update { at: 0, objects: 1, fixed: 0, beds: &[] })?;
/// # let update = writer.finish();
/// let stride = Stride::MAX;
/// let (mut renderer, mut out) = (Renderer::new(Layout::Hall714)?, Output::new(stride));
/// let mut concealer = Concealer::new(stride);
/// let mut sound = [0.5; 256];
/// for broken in [false, true] {
///     if broken {
///         sound[17] = f32::NAN;
///     }
///     let frame = Frame::new(Rate::HZ_48000, &[], Pcm::packed(&sound, 1)?, update)?;
///     let outcome = renderer.push_or_conceal(&frame, &mut out, &mut concealer)?;
///     assert_eq!(outcome.rendered.ready(), 256);
///     assert_eq!(outcome.way, if broken { Way::MetadataOnly } else { Way::Whole });
///     assert_eq!(outcome.refusal, broken.then_some(Refusal::Sample));
/// }
/// # Ok::<(), Box<dyn std::error::Error>>(())
/// ```
pub struct Concealer<M: Floats = OwnFloats> {
    silence: M,
    beds: [Bed; BEDS],
    last: Option<Channels>,
}

/// The channels of a frame; its beds stand in the concealer.
#[derive(Clone, Copy)]
struct Channels {
    rate: Rate,
    beds: usize,
    objects: usize,
}

/// How the sound went on.
#[derive(Clone, Copy, Debug, PartialEq, Eq)]
pub enum Way {
    /// By the frame itself.
    Whole,
    /// By its sound, at the places that stood (after 5, 6 and 25, and after 11, 13 and 14 where it has
    /// metadata): its updates are lost.
    SoundOnly,
    /// By silence with its metadata (after 8): objects move on.
    MetadataOnly,
    /// By silence on the channels of the last frame whose channels were taken, with another number of
    /// objects where an update that waited asks for one: its updates are lost.
    Silence,
}

/// What came of a frame.
#[derive(Clone, Copy, Debug)]
pub struct Outcome<'o> {
    /// What is ready, with the peak and gain of the push that was taken.
    pub rendered: Rendered<'o>,
    /// By which way.
    pub way: Way,
    /// Why not whole.
    pub refusal: Option<Refusal>,
}

#[cfg(feature = "alloc")]
impl Concealer {
    /// For frames of up to the stride's samples.
    pub fn new(stride: Stride) -> Self {
        Self::make(crate::memory::zeros(places(stride)))
    }
}

impl<'m> Concealer<&'m mut [f32]> {
    /// Over lent memory of 34 × stride places or more, which is zeroed.
    pub fn over(memory: &'m mut [f32], stride: Stride) -> Result<Self, ShapeError> {
        let needed = places(stride);
        let silence = memory
            .get_mut(..needed)
            .ok_or(ShapeError::Memory { needed })?;
        silence.fill(0.0);
        Ok(Self::make(silence))
    }
}

const fn places(stride: Stride) -> usize {
    stride.samples().saturating_mul(CHANNELS)
}

impl<M: Floats> Concealer<M> {
    const fn make(silence: M) -> Self {
        Self {
            silence,
            beds: [Bed::Center; BEDS],
            last: None,
        }
    }

    /// A new stream: nothing is remembered.
    pub const fn reset(&mut self) {
        self.last = None;
    }

    fn remember(&mut self, frame: &Frame<'_>) {
        for (place, bed) in self.beds.iter_mut().zip(frame.beds()) {
            *place = *bed;
        }
        self.last = Some(Channels {
            rate: frame.rate(),
            beds: frame.beds().len(),
            objects: frame.objects(),
        });
    }

    /// The frame with zeros for its samples; none where it is longer than the concealer's stride.
    fn silenced<'a>(&'a self, frame: &Frame<'a>) -> Option<Frame<'a>> {
        let pcm = self.zeros(frame.pcm().samples(), frame.pcm().channels())?;
        Frame::new(frame.rate(), frame.beds(), pcm, frame.metadata()).ok()
    }

    /// Silence of so many samples on the last channels, or on their beds and so many objects.
    fn silence(&self, samples: usize, objects: Option<u32>) -> Option<Frame<'_>> {
        let last = self.last?;
        let (rate, beds) = (last.rate, last.beds);
        let objects = objects.map_or(Some(last.objects), |n| usize::try_from(n).ok())?;
        let pcm = self.zeros(samples, beds.saturating_add(objects))?;
        Frame::new(rate, self.beds.get(..beds)?, pcm, Metadata::NONE).ok()
    }

    fn zeros(&self, samples: usize, channels: usize) -> Option<Pcm<'_>> {
        let zeros = self.silence.get().get(..samples.saturating_mul(channels))?;
        Pcm::packed(zeros, channels).ok()
    }
}

impl<B: Bytes> Renderer<B> {
    /// Pushes the frame, or what comes nearest to it, so that the clock moves by its samples. At
    /// most four pushes.
    ///
    /// Refused for good, with the frame's own refusal and nothing changed: 1 to 4 and 12 (the
    /// host's to mend), 9 (flush, reset and push again), 10 (nothing has begun: play silence), and
    /// frames of which each try is refused, as before the first that is taken, or that are longer
    /// than the concealer's stride. Give every frame of a stream to this function and not to
    /// [`Renderer::push`], so that the concealer knows the channels; [`Concealer::reset`] goes
    /// with [`Renderer::reset`].
    pub fn push_or_conceal<'o, M: Floats, S: Floats>(
        &mut self,
        frame: &Frame<'_>,
        out: &'o mut Output<M>,
        concealer: &mut Concealer<S>,
    ) -> Result<Outcome<'o>, Refusal> {
        let (answer, way, refusal) = match self.answer(frame, out) {
            Ok(answer) => (answer, Way::Whole, None),
            Err(refusal) => {
                let (answer, way) = self
                    .conceal(frame, refusal, out, concealer)
                    .ok_or(refusal)?;
                (answer, way, Some(refusal))
            }
        };
        if way != Way::Silence {
            concealer.remember(frame);
        }
        Ok(Outcome {
            rendered: out.rendered(answer, self.layout()),
            way,
            refusal,
        })
    }

    /// A push of which only the answer is kept, so that the output is free again.
    fn answer<M: Floats>(
        &mut self,
        frame: &Frame<'_>,
        out: &mut Output<M>,
    ) -> Result<Answer, Refusal> {
        self.push(frame, out).map(|rendered| rendered.answer())
    }

    /// The second try, and those behind it.
    fn conceal<M: Floats, S: Floats>(
        &mut self,
        frame: &Frame<'_>,
        refusal: Refusal,
        out: &mut Output<M>,
        concealer: &Concealer<S>,
    ) -> Option<(Answer, Way)> {
        let second = match refusal.number() {
            5 | 6 | 11 | 13 | 14 | 25 => {
                let with_metadata = !frame.metadata().is_empty();
                with_metadata.then(|| (frame.without_metadata(), Way::SoundOnly))
            }
            8 => concealer
                .silenced(frame)
                .map(|frame| (frame, Way::MetadataOnly)),
            _ => return None,
        };
        if let Some((nearest, way)) = second {
            if let Ok(answer) = self.answer(&nearest, out) {
                return Some((answer, way));
            }
        }
        let samples = frame.pcm().samples();
        let silence = self.answer(&concealer.silence(samples, None)?, out);
        let answer = match silence {
            // An update that waited falls on the first sample, or has fallen, and asks for so many.
            Err(Refusal::Objects { expected, .. }) => {
                self.answer(&concealer.silence(samples, Some(expected))?, out)
            }
            answer => answer,
        };
        answer.ok().map(|answer| (answer, Way::Silence))
    }
}

impl<M: Floats> core::fmt::Debug for Concealer<M> {
    fn fmt(&self, f: &mut core::fmt::Formatter<'_>) -> core::fmt::Result {
        f.debug_struct("Concealer").finish_non_exhaustive()
    }
}
