// SPDX-License-Identifier: Apache-2.0
//! The entries over slices, in the default float mode.

use crate::memory::as_bytes_mut;
use crate::{Bed, Frame, HallTable, Layout, Stride, with_default_floats};
use voqlisna_sys::{self as sys, Answer, Place};

pub(crate) fn push(state: &mut [u8], frame: &Frame<'_>, out: &mut [f32], stride: Stride) -> Answer {
    let out = as_bytes_mut(out);
    let (pcm, meta) = (frame.pcm().as_bytes(), frame.metadata().as_bytes());
    let codes = Bed::codes(frame.beds());
    let (samples, objects) = (frame.pcm().count(), frame.object_count());
    // SAFETY: five slices that live through the call; the two written ones are borrowed mutably, so
    // they overlap nothing.
    with_default_floats(|| unsafe {
        sys::hall_push(
            state.as_mut_ptr(),
            state.len(),
            pcm.as_ptr(),
            pcm.len(),
            meta.as_ptr(),
            meta.len(),
            out.as_mut_ptr(),
            out.len(),
            codes.as_ptr(),
            codes.len(),
            frame.rate().hertz(),
            samples,
            objects,
            stride.places(),
        )
    })
}

pub(crate) fn flush(state: &mut [u8], out: &mut [f32], stride: Stride) -> Answer {
    let out = as_bytes_mut(out);
    // SAFETY: two slices that live through the call, borrowed mutably, so they do not overlap.
    with_default_floats(|| unsafe {
        sys::hall_flush(
            state.as_mut_ptr(),
            state.len(),
            out.as_mut_ptr(),
            out.len(),
            stride.places(),
        )
    })
}

pub(crate) fn make(state: &mut [u8], layout: Layout) -> Answer {
    let code = layout.code();
    // SAFETY: one slice that lives through the call.
    with_default_floats(|| unsafe { sys::hall_make(state.as_mut_ptr(), state.len(), code) })
}

pub(crate) fn make_with_table(state: &mut [u8], layout: Layout, table: &HallTable) -> Answer {
    let (code, table) = (layout.code(), table.to_bytes());
    // SAFETY: two slices that live through the call; the written one is borrowed mutably.
    with_default_floats(|| unsafe {
        sys::hall_make_with_table(
            state.as_mut_ptr(),
            state.len(),
            code,
            table.as_ptr(),
            table.len(),
        )
    })
}

pub(crate) fn reset(state: &mut [u8]) -> Answer {
    // SAFETY: one slice that lives through the call.
    with_default_floats(|| unsafe { sys::hall_reset(state.as_mut_ptr(), state.len()) })
}

pub(crate) fn hold(state: &mut [u8], object: u32) -> Answer {
    // SAFETY: one slice that lives through the call.
    with_default_floats(|| unsafe { sys::hall_hold(state.as_mut_ptr(), state.len(), object) })
}

pub(crate) fn release(state: &mut [u8], object: u32) -> Answer {
    // SAFETY: one slice that lives through the call.
    with_default_floats(|| unsafe { sys::hall_release(state.as_mut_ptr(), state.len(), object) })
}

pub(crate) fn find(state: &[u8], mask: u32) -> Place {
    // SAFETY: one slice that lives through the call, and is only read.
    with_default_floats(|| unsafe { sys::hall_find(state.as_ptr(), state.len(), mask) })
}
