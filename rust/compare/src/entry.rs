//! The entries that crates/hall exports, over slices, with no guard around them.

use crate::calls::Call;
use voqlisna_sys::{
    hall_find, hall_flush, hall_from_planes, hall_hold, hall_make, hall_make_with_table, hall_push,
    hall_read_24, hall_release, hall_reset, hall_to_planes, hall_write_24,
};

pub use voqlisna_sys::{Answer, Place};

/// Equal word for word: the two zeros differ.
pub fn same_answer(a: Answer, b: Answer) -> bool {
    let meters = |x: Answer| [x.peak, x.gain].map(f32::to_bits);
    a == b && meters(a) == meters(b)
}

/// Bytes of a state block.
pub const BLOCK: usize = voqlisna_sys::STATE_SIZE;

pub fn push(state: &mut [u8], call: &Call, out: &mut [u8], stride: u32) -> Answer {
    let Call {
        pcm, meta, codes, ..
    } = call;
    // SAFETY: five slices that live through the call; the two written ones overlap nothing.
    unsafe {
        hall_push(
            state.as_mut_ptr(),
            state.len(),
            pcm.as_ptr(),
            pcm.len(),
            meta.as_ptr(),
            meta.len(),
            out.as_mut_ptr(),
            out.len(),
            codes.as_ptr(),
            codes.len(),
            call.rate,
            call.samples,
            call.objects,
            stride,
        )
    }
}

pub fn flush(state: &mut [u8], out: &mut [u8], stride: u32) -> Answer {
    // SAFETY: two slices that live through the call and do not overlap.
    unsafe {
        hall_flush(
            state.as_mut_ptr(),
            state.len(),
            out.as_mut_ptr(),
            out.len(),
            stride,
        )
    }
}

/// `layout` is a code.
pub fn make(state: &mut [u8], layout: u32) -> Answer {
    // SAFETY: one slice that lives through the call.
    unsafe { hall_make(state.as_mut_ptr(), state.len(), layout) }
}

/// `layout` is a code.
pub fn make_with(state: &mut [u8], layout: u32, table: &[u8]) -> Answer {
    // SAFETY: two slices that live through the call and do not overlap.
    unsafe {
        hall_make_with_table(
            state.as_mut_ptr(),
            state.len(),
            layout,
            table.as_ptr(),
            table.len(),
        )
    }
}

pub fn reset(state: &mut [u8]) -> Answer {
    // SAFETY: one slice that lives through the call.
    unsafe { hall_reset(state.as_mut_ptr(), state.len()) }
}

/// R-11's two calls: a hold is wanted, or none.
pub fn mark(state: &mut [u8], object: u32, wanted: bool) -> Answer {
    let entry = if wanted { hall_hold } else { hall_release };
    // SAFETY: one slice that lives through the call.
    unsafe { entry(state.as_mut_ptr(), state.len(), object) }
}

pub fn find(state: &[u8], mask: u32) -> Place {
    // SAFETY: one slice that lives through the call.
    unsafe { hall_find(state.as_ptr(), state.len(), mask) }
}

/// R-10's two calls, by which of them it is.
#[derive(Clone, Copy, Debug, PartialEq)]
pub enum Planes {
    To,
    From,
}

pub fn planes(way: Planes, source: &[u8], samples: u32, dest: &mut [u8]) -> Answer {
    let entry = match way {
        Planes::To => hall_to_planes,
        Planes::From => hall_from_planes,
    };
    // SAFETY: two slices that live through the call and do not overlap.
    unsafe {
        entry(
            source.as_ptr(),
            source.len(),
            samples,
            dest.as_mut_ptr(),
            dest.len(),
        )
    }
}

pub fn write_24(out: &[u8], stride: u32, count: u32, dest: &mut [u8]) -> Answer {
    // SAFETY: two slices that live through the call and do not overlap.
    unsafe {
        hall_write_24(
            out.as_ptr(),
            out.len(),
            stride,
            count,
            dest.as_mut_ptr(),
            dest.len(),
        )
    }
}

pub fn read_24(source: &[u8], dest: &mut [u8]) -> Answer {
    // SAFETY: two slices that live through the call and do not overlap.
    unsafe { hall_read_24(source.as_ptr(), source.len(), dest.as_mut_ptr(), dest.len()) }
}
