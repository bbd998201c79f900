//! Document 01's refusals 1 to 6 and 8, and document 02's 25.

use super::STREAM_END;
use super::waits::{self, Settled, Waiting};
use crate::calls::Call;
use crate::records;
use crate::{floats, ranges};
use oracle::frame::Frame;
use oracle::state::State;

/// What document 01's 1 asks of the memory that push and flush are lent.
pub fn rightly_lent(block: &[u8], room: usize, stride: u32) -> bool {
    stride.is_multiple_of(64)
        && (64..=1_536).contains(&stride)
        && room >= 48 * stride as usize
        && ranges::hold(block)
}

/// Document 01's 2: no more than allowed, and as much PCM as there are samples.
fn counts_fit(call: &Call, stride: usize) -> bool {
    let samples = call.samples as usize;
    let channels = call.codes.len() + call.objects as usize;
    samples <= stride
        && call.codes.len() <= 18
        && call.objects <= 16
        && call.codes.iter().all(|&code| code <= 17)
        && call.pcm.len() == 4 * channels * samples
        && (samples == 0 || channels > 0)
}

/// The frame with the updates that are due in it, how many of these waited, and what waits after it; or
/// the least of 2 to 6 and 8 that refuses it, else 25.
pub fn judged(
    state: &State,
    before: u64,
    waits: &[Waiting],
    call: &Call,
    stride: usize,
) -> Result<(Frame, usize, Vec<Waiting>), u32> {
    if !counts_fit(call, stride) {
        return Err(2);
    }
    if !(8_000..=192_000).contains(&call.rate) {
        return Err(3);
    }
    let position = before + state.stream_sample_offset as u64;
    if position + u64::from(call.samples) > STREAM_END {
        return Err(4);
    }
    let Ok((updates, outside)) = records::read(&call.meta) else {
        return Err(5);
    };
    if outside != 0 {
        return Err(outside);
    }
    let pcm = floats(&call.pcm);
    if !pcm.iter().all(|x| x.abs() <= 16.0) {
        return Err(8);
    }
    let Settled { due, fallen, next } =
        waits::settled(waits, position, call.samples.into(), &updates, &call.meta);
    if !waits::fit(&next) {
        return Err(25);
    }
    let frame = Frame {
        rate: call.rate,
        samples: call.samples as usize,
        beds: call.codes.clone(),
        objects: call.objects as usize,
        pcm,
        updates: due,
    };
    Ok((frame, fallen, next))
}
