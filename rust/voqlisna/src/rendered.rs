// SPDX-License-Identifier: Apache-2.0
//! What a call gave out.

use crate::{Layout, ShapeError, Speaker, Stride};
use voqlisna_sys::Answer;

/// What a call gave out, read from the output, which is lent for as long as it is read:
///
/// ```compile_fail,E0499
/// # use voqlisna::*;
/// # fn f(renderer: &mut Renderer, frame: &Frame<'_>) -> Result<(), Refusal> {
/// let mut out = Output::new(Stride::MAX);
/// let first = renderer.push(frame, &mut out)?;
/// let second = renderer.push(frame, &mut out)?; // `out` is still lent
/// println!("{}", first.ready());
/// # Ok(())
/// # }
/// ```
///
/// ```
/// # use voqlisna::*;
/// # let mut memory = [0; MetadataWriter::bytes_for(1, &[])];
/// # let mut writer = MetadataWriter::new(&mut memory);
/// # writer.update(Update { at: 0, objects: 1, fixed: 0, beds: &[] })?;
/// # let (mut renderer, mut out) = (Renderer::new(Layout::Hall714)?, Output::new(Stride::MAX));
/// # let frame = Frame::new(Rate::HZ_48000, &[], Pcm::packed(&[0.5; 480], 1)?, writer.finish())?;
/// let rendered = renderer.push(&frame, &mut out)?;
/// for (speaker, samples) in rendered.channels() {
///     println!("{speaker}: {:?}", samples.first());
/// }
/// let mut device = [0.0; 12 * 480];
/// assert_eq!(rendered.interleave_into(&mut device)?, 12 * 448);
/// # Ok::<(), Box<dyn std::error::Error>>(())
/// ```
#[derive(Clone, Copy)]
pub struct Rendered<'o> {
    samples: &'o [f32],
    stride: Stride,
    answer: Answer,
    layout: Layout,
}

impl<'o> Rendered<'o> {
    pub(crate) const fn new(
        samples: &'o [f32],
        stride: Stride,
        answer: Answer,
        layout: Layout,
    ) -> Self {
        Self {
            samples,
            stride,
            answer,
            layout,
        }
    }

    /// The output, and its stride.
    pub(crate) const fn lent(&self) -> (&'o [f32], Stride) {
        (self.samples, self.stride)
    }

    pub(crate) const fn answer(&self) -> Answer {
        self.answer
    }

    /// Samples on each channel; 0 where all still wait.
    pub const fn ready(&self) -> usize {
        self.answer.ready
    }

    /// Of the renderer's hall.
    pub const fn layout(&self) -> Layout {
        self.layout
    }

    /// What the limiter met: the largest sample, without its sign, of all channels in the blocks
    /// that this call gave out, before they were scaled. 1 is full level; above it the
    /// limiter had to act. 0 where nothing is ready.
    ///
    /// ```
    /// # use voqlisna::*;
    /// # let mut memory = [0; MetadataWriter::bytes_for(1, &[])];
    /// # let mut writer = MetadataWriter::new(&mut memory);
    /// # writer.update(Update { at: 0, objects: 1, fixed: 1, beds: &[Bed::Center] })?;
    /// # let (mut renderer, mut out) = (Renderer::new(Layout::Hall714)?, Output::new(Stride::MAX));
    /// # let update = writer.finish();
    /// let burst = [4.0; 64]; // on a bed of gain 0.707
    /// let frame = Frame::new(Rate::HZ_48000, &[Bed::Center], Pcm::packed(&burst, 1)?, update)?;
    /// let rendered = renderer.push(&frame, &mut out)?;
    /// assert_eq!(rendered.peak(), 4.0 * 0.707);
    /// assert_eq!(rendered.gain(), 0.9 / rendered.peak());
    /// assert_eq!(rendered.channel(Speaker::Center)[0], rendered.peak() * rendered.gain());
    /// # Ok::<(), Box<dyn std::error::Error>>(())
    /// ```
    pub const fn peak(&self) -> f32 {
        self.answer.peak
    }

    /// What the limiter did: the least gain by which it scaled one of these blocks. 1 lets the
    /// sound pass as it is; below it all channels were turned down, by -20 log10(gain) dB at most.
    /// 1 where nothing is ready.
    ///
    /// It is above 0 and at most 1, but for a renderer from a forged snapshot, whose gain may be any
    /// number.
    pub const fn gain(&self) -> f32 {
        self.answer.gain
    }

    /// One channel's samples; none where the layout lacks it.
    pub fn channel(&self, speaker: Speaker) -> &'o [f32] {
        if !self.layout.has(speaker) {
            return &[];
        }
        let start = speaker.channel().saturating_mul(self.stride.samples());
        let end = start.saturating_add(self.ready());
        self.samples.get(start..end).unwrap_or_default()
    }

    /// The channels of the layout, in their order.
    pub fn channels(&self) -> impl Iterator<Item = (Speaker, &'o [f32])> + use<'o> {
        let rendered = *self;
        let speakers = self.layout.speakers().iter();
        speakers.map(move |speaker| (*speaker, rendered.channel(*speaker)))
    }

    /// Copies sample after sample, a place for each channel of the layout, and answers the places
    /// written.
    ///
    /// ```
    /// # use voqlisna::*;
    /// # let mut memory = [0; MetadataWriter::bytes_for(1, &[])];
    /// # let mut writer = MetadataWriter::new(&mut memory);
    /// # writer.update(Update { at: 0, objects: 1, fixed: 0, beds: &[] })?;
    /// # let frame = Frame::new(Rate::HZ_48000, &[], Pcm::packed(&[0.5; 480], 1)?, writer.finish())?;
    /// # let mut out = Output::new(Stride::MAX);
    /// let mut renderer = Renderer::new(Layout::Hall510)?;
    /// let rendered = renderer.push(&frame, &mut out)?;
    /// let mut device = [0.0; 6 * 480];
    /// assert_eq!(rendered.interleave_into(&mut device)?, 6 * 448);
    /// # Ok::<(), Box<dyn std::error::Error>>(())
    /// ```
    pub fn interleave_into(&self, to: &mut [f32]) -> Result<usize, ShapeError> {
        let width = self.layout.speakers().len();
        let needed = self.ready().saturating_mul(width);
        let to = to.get_mut(..needed).ok_or(ShapeError::Memory { needed })?;
        for (k, (_, samples)) in self.channels().enumerate() {
            for (place, x) in to.iter_mut().skip(k).step_by(width).zip(samples) {
                *place = *x;
            }
        }
        Ok(needed)
    }

    /// Copies twelve channels one after the other, [`ready`](Self::ready) places each, as
    /// [`to_planes`](crate::to_planes) takes them, and answers the places written. A channel that
    /// the layout lacks becomes zeros.
    ///
    /// ```
    /// # use voqlisna::*;
    /// # let mut memory = [0; MetadataWriter::bytes_for(1, &[])];
    /// # let mut writer = MetadataWriter::new(&mut memory);
    /// # writer.update(Update { at: 0, objects: 1, fixed: 0, beds: &[] })?;
    /// # let (mut renderer, mut out) = (Renderer::new(Layout::Hall714)?, Output::new(Stride::MAX));
    /// # let frame = Frame::new(Rate::HZ_48000, &[], Pcm::packed(&[0.5; 480], 1)?, writer.finish())?;
    /// let rendered = renderer.push(&frame, &mut out)?;
    /// let (mut sound, mut planes) = ([0.0; 12 * 512], [0; 48 * 512]);
    /// let places = rendered.pack_into(&mut sound)?;
    /// let samples = to_planes(&sound[..places], rendered.ready(), &mut planes)?;
    /// assert_eq!((places, samples), (12 * 448, 448));
    /// # Ok::<(), Box<dyn std::error::Error>>(())
    /// ```
    pub fn pack_into(&self, to: &mut [f32]) -> Result<usize, ShapeError> {
        let needed = self.ready().saturating_mul(Speaker::ALL.len());
        let to = to.get_mut(..needed).ok_or(ShapeError::Memory { needed })?;
        let channels = Speaker::ALL.into_iter().flat_map(|s| self.whole(s));
        for (place, x) in to.iter_mut().zip(channels) {
            *place = x;
        }
        Ok(needed)
    }

    /// As many samples as are ready; zeros where the layout lacks the channel.
    pub(crate) fn whole(&self, speaker: Speaker) -> impl Iterator<Item = f32> + use<'o> {
        let samples = self.channel(speaker).iter().copied();
        samples.chain(core::iter::repeat(0.0)).take(self.ready())
    }
}

impl core::fmt::Debug for Rendered<'_> {
    fn fmt(&self, f: &mut core::fmt::Formatter<'_>) -> core::fmt::Result {
        f.debug_struct("Rendered")
            .field("layout", &self.layout)
            .field("ready", &self.ready())
            .field("peak", &self.peak())
            .field("gain", &self.gain())
            .finish_non_exhaustive()
    }
}
