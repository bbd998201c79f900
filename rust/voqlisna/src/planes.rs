// SPDX-License-Identifier: Apache-2.0
//! Planes: like bytes of all samples together, which compress better than the samples.

use crate::Refusal;
use crate::memory::{as_bytes, as_bytes_mut};
use voqlisna_sys::{self as sys, Answer};

/// Writes the sound of twelve channels as planes: the least significant byte of every sample,
/// channel by channel, then the next byte of each, to the most significant. Answers `samples`.
///
/// `sound` has `samples` on each channel, at most 1,536, channel after channel
/// ([`Rendered::pack_into`](crate::Rendered::pack_into) brings them so); `planes` has 48 × `samples`
/// bytes or more, and keeps what it has beyond. Else the refusal is [`Refusal::ConvertedSamples`] or
/// [`Refusal::ConvertedLength`], and nothing is written.
///
/// ```
/// use voqlisna::{Refusal, from_planes, to_planes};
/// let mut sound = [1.0; 12];
/// sound[3] = f32::from_bits(0x7fa0_0001); // a NaN keeps its bits too
/// let mut planes = [0; 48];
/// assert_eq!(to_planes(&sound, 1, &mut planes)?, 1);
/// assert_eq!(planes[..12], [0, 0, 0, 1, 0, 0, 0, 0, 0, 0, 0, 0]);
///
/// let mut back = [0.0; 12];
/// from_planes(&planes, 1, &mut back)?;
/// assert_eq!(back.map(f32::to_bits), sound.map(f32::to_bits));
///
/// assert_eq!(to_planes(&sound, 2, &mut planes), Err(Refusal::ConvertedLength));
/// # Ok::<(), Refusal>(())
/// ```
pub fn to_planes(sound: &[f32], samples: usize, planes: &mut [u8]) -> Result<usize, Refusal> {
    bytes_to_planes(as_bytes(sound), samples, planes)
}

/// Writes planes as sound again, bit for bit: [`to_planes`] turned round. `planes` has exactly
/// 48 × `samples` bytes, `sound` 12 × `samples` places or more.
pub fn from_planes(planes: &[u8], samples: usize, sound: &mut [f32]) -> Result<usize, Refusal> {
    bytes_from_planes(planes, samples, as_bytes_mut(sound))
}

/// [`to_planes`] of samples that are little-endian bytes, of any alignment.
pub fn bytes_to_planes(sound: &[u8], samples: usize, planes: &mut [u8]) -> Result<usize, Refusal> {
    converted(sys::hall_to_planes, sound, samples, planes)
}

/// [`from_planes`] to samples that are little-endian bytes, of any alignment.
pub fn bytes_from_planes(
    planes: &[u8],
    samples: usize,
    sound: &mut [u8],
) -> Result<usize, Refusal> {
    converted(sys::hall_from_planes, planes, samples, sound)
}

type Entry = unsafe extern "C" fn(*const u8, usize, u32, *mut u8, usize) -> Answer;

/// `entry` is one of the two above. It moves bytes and computes no float, so any float mode will do.
fn converted(
    entry: Entry,
    source: &[u8],
    samples: usize,
    dest: &mut [u8],
) -> Result<usize, Refusal> {
    // What 32 bits do not hold is too much by any count.
    let samples = u32::try_from(samples).unwrap_or(u32::MAX);
    // SAFETY: two slices that live through the call; the written one is borrowed mutably, so they
    // do not overlap.
    let answer = unsafe {
        entry(
            source.as_ptr(),
            source.len(),
            samples,
            dest.as_mut_ptr(),
            dest.len(),
        )
    };
    match Refusal::from_answer(answer) {
        Some(refusal) => Err(refusal),
        None => Ok(answer.ready),
    }
}
