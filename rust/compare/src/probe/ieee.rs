unsafe extern "C" {
    safe fn probe_abs(x: f32) -> f32;
    safe fn probe_max(a: f32, b: f32) -> f32;
    safe fn probe_min(a: f32, b: f32) -> f32;
    safe fn probe_clamp(x: f32, lo: f32, hi: f32) -> f32;
    safe fn probe_is_infinite(x: f32) -> bool;
}

pub fn abs(x: f32) -> f32 {
    probe_abs(x)
}

pub fn max(a: f32, b: f32) -> f32 {
    probe_max(a, b)
}

pub fn min(a: f32, b: f32) -> f32 {
    probe_min(a, b)
}

pub fn clamp(x: f32, lo: f32, hi: f32) -> f32 {
    probe_clamp(x, lo, hi)
}

pub fn is_infinite(x: f32) -> bool {
    probe_is_infinite(x)
}
