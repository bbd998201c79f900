/// Fields in the order of the source; as an array: a1 a2 b0 b1 b2 x1 x2 y1 y2.
#[repr(C)]
#[derive(Clone, Copy)]
struct Filter([f32; 9]);

unsafe extern "C" {
    safe fn probe_lowpass_new(rate: u32) -> Filter;
    fn probe_lowpass_process_in_place(filter: Filter, samples: *mut f32, length: usize) -> Filter;
}

pub fn new(rate: u32) -> [f32; 9] {
    probe_lowpass_new(rate).0
}

pub fn process_in_place(filter: &mut [f32; 9], samples: &mut [f32]) {
    let next = unsafe {
        probe_lowpass_process_in_place(Filter(*filter), samples.as_mut_ptr(), samples.len())
    };
    *filter = next.0;
}
