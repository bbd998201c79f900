use crate::floats;

unsafe extern "C" {
    fn probe_max_abs_slice(samples: *const f32, length: usize) -> f32;
    fn probe_scale_slice_into(
        samples: *const f32,
        length: usize,
        gain: f32,
        out: *mut u8,
        out_length: usize,
    );
    fn probe_apply_output_limiter_block(
        gain: f32,
        places: *const u8,
        places_length: usize,
        samples: usize,
        rate: u32,
        out: *mut u8,
        out_length: usize,
        step: usize,
        to: usize,
    ) -> f32;
}

pub fn max_abs_slice(samples: &[f32]) -> f32 {
    // SAFETY: the pointer and the length are those of a slice.
    unsafe { probe_max_abs_slice(samples.as_ptr(), samples.len()) }
}

/// The samples times the gain, by way of the output's bytes.
pub fn scale_slice_into(samples: &[f32], gain: f32) -> Vec<f32> {
    let mut out = vec![0; 4 * samples.len()];
    // SAFETY: as above.
    unsafe {
        probe_scale_slice_into(
            samples.as_ptr(),
            samples.len(),
            gain,
            out.as_mut_ptr(),
            out.len(),
        )
    }
    floats(&out)
}

/// From the bytes of twelve channels of 64 places to the output, channel c at `to` + c x `step`;
/// gives the next gain.
pub fn apply_output_limiter_block(
    gain: f32,
    places: &[u8; 3072],
    samples: usize,
    rate: u32,
    out: &mut [u8],
    step: usize,
    to: usize,
) -> f32 {
    // SAFETY: as above.
    unsafe {
        probe_apply_output_limiter_block(
            gain,
            places.as_ptr(),
            places.len(),
            samples,
            rate,
            out.as_mut_ptr(),
            out.len(),
            step,
            to,
        )
    }
}

/// A block of floats, laid over itself: the next gain, and the block with the first `samples`
/// places of each channel limited.
pub fn limited(gain: f32, block: &[f32; 768], samples: usize, rate: u32) -> (f32, Vec<f32>) {
    let places = bytes(block);
    let mut out = places;
    let next = apply_output_limiter_block(gain, &places, samples, rate, &mut out, 256, 0);
    (next, floats(&out))
}

/// The bytes of a block's places.
pub fn bytes(block: &[f32; 768]) -> [u8; 3072] {
    let mut places = [0; 3072];
    for (to, x) in places.chunks_mut(4).zip(block) {
        to.copy_from_slice(&x.to_bits().to_le_bytes());
    }
    places
}
