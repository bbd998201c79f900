// Where the lengths do not fit, nothing is done.

unsafe extern "C" {
    fn probe_mix_add_scaled(
        input: *const f32,
        length: usize,
        output: *mut f32,
        places: usize,
        gain: f32,
    );
    fn probe_mix_full_channel(
        input: *const f32,
        length: usize,
        output: *mut f32,
        places: usize,
        gain: f32,
    );
    fn probe_mix_segment(
        input: *const f32,
        length: usize,
        output: *mut f32,
        places: usize,
        offset: usize,
        gain: f32,
    );
    fn probe_samples_pass(pcm: *const u8, length: usize, count: usize) -> bool;
    fn probe_read_row(pcm: *const u8, length: usize, row: *mut f32, places: usize);
}

pub fn mix_add_scaled(input: &[f32], output: &mut [f32], gain: f32) {
    unsafe {
        probe_mix_add_scaled(
            input.as_ptr(),
            input.len(),
            output.as_mut_ptr(),
            output.len(),
            gain,
        );
    }
}

pub fn mix_full_channel(input: &[f32], output: &mut [f32], gain: f32) {
    unsafe {
        probe_mix_full_channel(
            input.as_ptr(),
            input.len(),
            output.as_mut_ptr(),
            output.len(),
            gain,
        );
    }
}

pub fn mix_segment(input: &[f32], output: &mut [f32], offset: usize, gain: f32) {
    unsafe {
        probe_mix_segment(
            input.as_ptr(),
            input.len(),
            output.as_mut_ptr(),
            output.len(),
            offset,
            gain,
        );
    }
}

pub fn samples_pass(pcm: &[u8], count: usize) -> bool {
    unsafe { probe_samples_pass(pcm.as_ptr(), pcm.len(), count) }
}

/// Samples that refusal 8 stops are not read either.
pub fn read_row(pcm: &[u8], row: &mut [f32]) {
    unsafe { probe_read_row(pcm.as_ptr(), pcm.len(), row.as_mut_ptr(), row.len()) }
}
