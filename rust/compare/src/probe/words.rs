unsafe extern "C" {
    safe fn probe_bits_of(x: f32) -> u32;
    safe fn probe_f32_of(n: u32) -> f32;
    fn probe_i64_at(s: *const u8, length: usize, at: usize) -> i64;
    fn probe_put_u64(s: *mut u8, length: usize, at: usize, n: u64);
}

pub fn bits_of(x: f32) -> u32 {
    probe_bits_of(x)
}

pub fn f32_of(n: u32) -> f32 {
    probe_f32_of(n)
}

pub fn i64_at(s: &[u8], at: usize) -> i64 {
    unsafe { probe_i64_at(s.as_ptr(), s.len(), at) }
}

pub fn put_u64(s: &mut [u8], at: usize, n: u64) {
    unsafe { probe_put_u64(s.as_mut_ptr(), s.len(), at, n) }
}
