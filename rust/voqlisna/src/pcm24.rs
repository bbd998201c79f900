// SPDX-License-Identifier: Apache-2.0
//! Packed 24-bit PCM, as many amplifiers take it.

use crate::memory::{as_bytes, as_bytes_mut};
use crate::{Layout, Refusal, Rendered, Speaker, Stride, with_default_floats};
use voqlisna_sys::{self as sys, Answer};

const CHANNELS: usize = Speaker::ALL.len();
/// Bytes of a sample on all channels.
const ROW: usize = 3 * CHANNELS;
/// Samples that are packed at once where a layout lacks channels.
const PACKED: usize = Stride::MIN.samples();

/// Writes the first `count` samples of each channel as 24-bit integers: three bytes each, two's
/// complement, least first, the twelve channels of a sample one behind the other. Answers `count`.
///
/// `out` is what a push filled: sample i of channel c at place c × `stride` + i. Each sample becomes
/// the whole number nearest to sample × 8,388,608, of two the even one, and at most 8,388,607. `pcm`
/// has 36 × `count` bytes or more, and keeps what it has beyond. Else the refusal is
/// [`Refusal::Memory`] (the stride, or too few places for it), [`Refusal::Frame`] (a count above the
/// stride), [`Refusal::Pcm24Destination`] or [`Refusal::Pcm24Sample`] (NaN, or outside -1 to 1), and
/// nothing is written. [`Rendered::pcm_24_into`](crate::Rendered::pcm_24_into) does it for what a
/// call gave out.
///
/// ```
/// use voqlisna::{Refusal, read_24, write_24};
/// let mut out = [0.0; 12 * 64];
/// (out[0], out[64], out[128]) = (1.0, -1.0, 0.5); // sample 0 of FL, FR and FC
/// let mut pcm = [0; 36];
/// assert_eq!(write_24(&out, 64, 1, &mut pcm)?, 1);
/// assert_eq!(pcm[..9], [0xff, 0xff, 0x7f, 0, 0, 0x80, 0, 0, 0x40]);
///
/// let mut sound = [0.0; 12];
/// assert_eq!(read_24(&pcm, &mut sound)?, 1);
/// assert_eq!(sound[..3], [8_388_607.0 / 8_388_608.0, -1.0, 0.5]);
///
/// out[0] = f32::NAN;
/// assert_eq!(write_24(&out, 64, 1, &mut pcm), Err(Refusal::Pcm24Sample));
/// # Ok::<(), Refusal>(())
/// ```
pub fn write_24(
    out: &[f32],
    stride: usize,
    count: usize,
    pcm: &mut [u8],
) -> Result<usize, Refusal> {
    // What 32 bits do not hold is no stride, and above any.
    let [stride, count] = [stride, count].map(|n| u32::try_from(n).unwrap_or(u32::MAX));
    let out = as_bytes(out);
    // SAFETY: two slices that live through the call; the written one is borrowed mutably, so they
    // do not overlap.
    converted(with_default_floats(|| unsafe {
        sys::hall_write_24(
            out.as_ptr(),
            out.len(),
            stride,
            count,
            pcm.as_mut_ptr(),
            pcm.len(),
        )
    }))
}

/// Reads such bytes: whole number / 8,388,608 exactly, one channel after another, N apart, where
/// `pcm` has 36 × N bytes. Answers N.
///
/// `sound` has 12 × N places or more, and keeps what it has beyond. Else the refusal is
/// [`Refusal::Pcm24Length`] or [`Refusal::Pcm24Destination`], and nothing is written.
pub fn read_24(pcm: &[u8], sound: &mut [f32]) -> Result<usize, Refusal> {
    let sound = as_bytes_mut(sound);
    // SAFETY: as in `write_24`.
    converted(with_default_floats(|| unsafe {
        sys::hall_read_24(pcm.as_ptr(), pcm.len(), sound.as_mut_ptr(), sound.len())
    }))
}

fn converted(answer: Answer) -> Result<usize, Refusal> {
    match Refusal::from_answer(answer) {
        Some(refusal) => Err(refusal),
        None => Ok(answer.ready),
    }
}

impl Rendered<'_> {
    /// Writes what is ready as [`write_24`] does, all twelve channels, and answers the samples
    /// written: [`Refusal::Pcm24Destination`] for less than 36 bytes a sample. A channel that the
    /// layout lacks becomes zeros. [`Refusal::Pcm24Sample`] only for a renderer from a forged snapshot.
    ///
    /// ```
    /// # use voqlisna::*;
    /// # let mut memory = [0; MetadataWriter::bytes_for(1, &[])];
    /// # let mut writer = MetadataWriter::new(&mut memory);
    /// # writer.update(Update { at: 0, objects: 1, fixed: 0, beds: &[] })?;
    /// # let frame = Frame::new(Rate::HZ_48000, &[], Pcm::packed(&[0.5; 480], 1)?, writer.finish())?;
    /// # let (mut renderer, mut out) = (Renderer::new(Layout::Hall714)?, Output::new(Stride::MAX));
    /// let rendered = renderer.push(&frame, &mut out)?;
    /// let mut device = [0; 36 * 512];
    /// assert_eq!(rendered.pcm_24_into(&mut device)?, 448);
    /// # Ok::<(), Box<dyn std::error::Error>>(())
    /// ```
    pub fn pcm_24_into(&self, pcm: &mut [u8]) -> Result<usize, Refusal> {
        if self.layout() == Layout::Hall714 {
            let (out, stride) = self.lent();
            return write_24(out, stride.samples(), self.ready(), pcm);
        }
        let bytes = self.ready().saturating_mul(ROW);
        let pcm = pcm.get_mut(..bytes).ok_or(Refusal::Pcm24Destination)?;
        let in_range = |x: &f32| (-1.0..=1.0).contains(x);
        let mut channels = self.channels();
        if !channels.all(|(_, samples)| samples.iter().all(in_range)) {
            return Err(Refusal::Pcm24Sample);
        }
        let pieces = pcm.chunks_mut(PACKED.saturating_mul(ROW)).enumerate();
        for (k, piece) in pieces {
            let packed = self.piece(k.saturating_mul(PACKED));
            write_24(&packed, PACKED, piece.len() / ROW, piece)?;
        }
        Ok(self.ready())
    }

    /// Samples from one on, of all channels; zeros where there are none.
    fn piece(&self, from: usize) -> [f32; CHANNELS * PACKED] {
        let mut packed = [0.0; CHANNELS * PACKED];
        for (speaker, samples) in self.channels() {
            let row = packed
                .iter_mut()
                .skip(speaker.channel().saturating_mul(PACKED));
            for (place, x) in row.take(PACKED).zip(samples.iter().skip(from)) {
                *place = *x;
            }
        }
        packed
    }
}
