//! What a push and a flush give out, by the reading.

use oracle::frame::Frame;
use oracle::reading::{BASS, mix, present, silence};
use oracle::state::State;
use oracle::{Hall, leaf};

/// The channels of a frame without updates, before the limiter.
fn mixed(hall: &Hall, state: &State, frame: &Frame) -> Vec<Vec<f32>> {
    let mut output = silence(hall, frame.samples);
    mix(hall, &state.metadata, frame, 0..frame.samples, &mut output);
    leaf::lowpass_process_in_place(&mut state.lfe_lowpass.unwrap(), &mut output[BASS]);
    output
}

/// What a push of that frame gives out and then a flush, and the limiter's gain after them.
pub fn given(hall: &Hall, state: &State, frame: &Frame) -> ([Vec<Vec<f32>>; 2], f32) {
    let mut waiting = mixed(hall, state, frame);
    for &channel in present(hall) {
        waiting[channel].splice(..0, state.limiter_pending[channel].iter().copied());
    }
    let (mut pushed, mut gain) = (vec![Vec::new(); 12], state.limiter_gain);
    while waiting[0].len() >= 64 {
        let first = |samples: &mut Vec<f32>| samples.drain(..samples.len().min(64)).collect();
        let mut block: Vec<Vec<f32>> = waiting.iter_mut().map(first).collect();
        limit(&mut block, &mut gain, frame.rate);
        for (samples, block) in pushed.iter_mut().zip(block) {
            samples.extend(block);
        }
    }
    limit(&mut waiting, &mut gain, frame.rate);
    ([pushed, waiting], gain)
}

/// Document 01's item 6 on one block; one of no samples changes nothing.
fn limit(channels: &mut [Vec<f32>], gain: &mut f32, rate: u32) {
    let samples = channels.iter().flatten();
    let peak = samples.fold(0.0f32, |peak, sample| peak.max(sample.abs()));
    if peak * *gain > 1.0 {
        *gain = 0.9 / peak;
    }
    for sample in channels.iter_mut().flatten() {
        *sample *= *gain;
    }
    *gain = (*gain + channels[0].len() as f32 / rate as f32).min(1.0);
}
