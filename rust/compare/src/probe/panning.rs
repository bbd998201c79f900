use crate::block::has;
use crate::setup::Setup;

/// `Panned` of crates/panning.
#[repr(C)]
#[derive(Clone, Copy, Debug)]
pub struct Panned {
    pub corners: [usize; 8],
    pub coefficients: [f32; 8],
    pub extra: f32,
}

unsafe extern "C" {
    safe fn probe_pan(x: f32, y: f32, z: f32, gain: f32, size: f32) -> Panned;
    safe fn probe_pan_in(layout: u32, x: f32, y: f32, z: f32, gain: f32, size: f32) -> Panned;
    fn probe_pan_with(
        layout: u32,
        table: *const u8,
        table_length: usize,
        x: f32,
        y: f32,
        z: f32,
        gain: f32,
        size: f32,
    ) -> Panned;
}

pub fn pan(position: [f32; 3], gain: f32, size: f32) -> Panned {
    let [x, y, z] = position;
    probe_pan(x, y, z, gain, size)
}

/// `layout` is a code.
pub fn pan_in(layout: u32, position: [f32; 3], gain: f32, size: f32) -> Panned {
    let [x, y, z] = position;
    probe_pan_in(layout, x, y, z, gain, size)
}

/// With the speakers of a table that is accepted.
pub fn pan_with(setup: &Setup, position: [f32; 3], gain: f32, size: f32) -> Panned {
    let (Setup { layout, table }, [x, y, z]) = (setup, position);
    // SAFETY: one slice that lives through the call.
    unsafe { probe_pan_with(*layout, table.as_ptr(), table.len(), x, y, z, gain, size) }
}

impl Panned {
    /// The terms in the order in which they are mixed: a channel and its coefficient.
    pub fn terms(&self) -> impl Iterator<Item = (usize, f32)> {
        self.terms_in(0)
    }

    /// The same in a hall of that layout.
    pub fn terms_in(&self, layout: u32) -> impl Iterator<Item = (usize, f32)> {
        let extra = self.extra;
        (0..12)
            .filter(move |&channel| channel != 3 && has(layout, channel))
            .map(move |channel| (channel, extra))
            .chain(self.corners.into_iter().zip(self.coefficients))
            .filter(|&(_, coefficient)| coefficient != 0.0)
    }
}
