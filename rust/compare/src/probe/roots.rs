unsafe extern "C" {
    safe fn probe_sqrt(x: f32) -> f32;
    safe fn probe_fourth_root(y: f32) -> f32;
    safe fn probe_half_power(y: f32) -> f32;
    safe fn probe_first_power(y: f32) -> f32;
    safe fn probe_second_power(y: f32) -> f32;
}

pub fn sqrt(x: f32) -> f32 {
    probe_sqrt(x)
}

pub fn fourth_root(y: f32) -> f32 {
    probe_fourth_root(y)
}

/// The power rule at 0.5, 1 and 2.
pub fn half_power(y: f32) -> f32 {
    probe_half_power(y)
}

pub fn first_power(y: f32) -> f32 {
    probe_first_power(y)
}

pub fn second_power(y: f32) -> f32 {
    probe_second_power(y)
}
