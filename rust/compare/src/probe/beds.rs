use oracle::Vector;

#[repr(C)]
struct Vec3 {
    x: f32,
    y: f32,
    z: f32,
}

#[derive(Clone, Copy, Debug, PartialEq, Eq)]
pub enum Route {
    Bass,
    Folded,
    Direct(usize),
    Unsupported,
}

unsafe extern "C" {
    safe fn probe_route_of(code: u8) -> u64;
    safe fn probe_route_in(layout: u32, code: u8) -> u64;
    safe fn probe_bass_gain(gain: f32) -> f32;
    safe fn probe_bed_channel_position(code: u8) -> Vec3;
    safe fn probe_bed_channel_matches_input(requested: u8, provided: u8) -> bool;
    fn probe_find_matching_input_bed_channel(
        requested: u8,
        inputs: *const u8,
        length: usize,
    ) -> u64;
    fn probe_count_matching(requested: u8, codes: *const u8, length: usize) -> u32;
}

fn route(number: u64) -> Route {
    match number {
        100 => Route::Bass,
        101 => Route::Folded,
        102 => Route::Unsupported,
        channel => Route::Direct(channel as usize),
    }
}

pub fn route_of(code: u8) -> Route {
    route(probe_route_of(code))
}

/// `layout` is a code.
pub fn route_in(layout: u32, code: u8) -> Route {
    route(probe_route_in(layout, code))
}

pub fn bass_gain(gain: f32) -> f32 {
    probe_bass_gain(gain)
}

pub fn bed_channel_position(code: u8) -> Vector {
    let v = probe_bed_channel_position(code);
    [v.x, v.y, v.z]
}

pub fn bed_channel_matches_input(requested: u8, provided: u8) -> bool {
    probe_bed_channel_matches_input(requested, provided)
}

pub fn find_matching_input_bed_channel(requested: u8, inputs: &[u8]) -> Option<usize> {
    let place =
        unsafe { probe_find_matching_input_bed_channel(requested, inputs.as_ptr(), inputs.len()) };
    (place != u64::MAX).then_some(place as usize)
}

/// 0 for more than 18 codes.
pub fn count_matching(requested: u8, codes: &[u8]) -> u32 {
    unsafe { probe_count_matching(requested, codes.as_ptr(), codes.len()) }
}
