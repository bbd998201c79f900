#[repr(C)]
struct Coefficients {
    a1: f32,
    a2: f32,
    b0: f32,
    b1: f32,
    b2: f32,
}

#[repr(C)]
struct Turn {
    cos: f32,
    sin: f32,
}

unsafe extern "C" {
    safe fn probe_coefficients(rate: u32) -> Coefficients;
    safe fn probe_angle(rate: u32) -> Turn;
}

/// a1 a2 b0 b1 b2 at a rate that is accepted.
pub fn coefficients(rate: u32) -> [f32; 5] {
    let c = probe_coefficients(rate);
    [c.a1, c.a2, c.b0, c.b1, c.b2]
}

/// The cosine and sine of w0 at a rate that is accepted.
pub fn angle(rate: u32) -> [f32; 2] {
    let w = probe_angle(rate);
    [w.cos, w.sin]
}
