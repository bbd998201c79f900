// SPDX-License-Identifier: Apache-2.0
//! The entries over slices of any length, with no guard around them.

use voqlisna::sys::{
    Answer, Place, hall_find, hall_flush, hall_hold, hall_make, hall_make_with_table, hall_push,
    hall_release, hall_reset,
};
use voqlisna::*;

pub fn push(state: &mut [u8], frame: &Frame<'_>, out: &mut [u8], stride: u32) -> Answer {
    let codes: Vec<u8> = frame.beds().iter().map(|bed| bed.code()).collect();
    let call = Arguments {
        state_length: state.len(),
        out_length: out.len(),
        pcm: frame.pcm().as_bytes(),
        metadata: frame.metadata().as_bytes(),
        codes: &codes,
        samples: frame.pcm().samples() as u32,
        objects: frame.objects() as u32,
        stride,
    };
    push_any(state, &call, frame.rate().hertz(), out)
}

/// A push with any arguments.
pub fn push_any(state: &mut [u8], call: &Arguments<'_>, rate: u32, out: &mut [u8]) -> Answer {
    let Arguments {
        pcm,
        metadata,
        codes,
        samples,
        objects,
        stride,
        ..
    } = *call;
    // SAFETY: five slices that live through the call; the two written ones overlap nothing.
    unsafe {
        hall_push(
            state.as_mut_ptr(),
            state.len(),
            pcm.as_ptr(),
            pcm.len(),
            metadata.as_ptr(),
            metadata.len(),
            out.as_mut_ptr(),
            out.len(),
            codes.as_ptr(),
            codes.len(),
            rate,
            samples,
            objects,
            stride,
        )
    }
}

pub fn flush(state: &mut [u8], out: &mut [u8], stride: u32) -> Answer {
    // SAFETY: two slices that live through the call and do not overlap.
    unsafe {
        hall_flush(
            state.as_mut_ptr(),
            state.len(),
            out.as_mut_ptr(),
            out.len(),
            stride,
        )
    }
}

pub fn reset(state: &mut [u8]) -> Answer {
    // SAFETY: one slice that lives through the call.
    unsafe { hall_reset(state.as_mut_ptr(), state.len()) }
}

pub fn hold(state: &mut [u8], object: u32) -> Answer {
    // SAFETY: one slice that lives through the call.
    unsafe { hall_hold(state.as_mut_ptr(), state.len(), object) }
}

pub fn release(state: &mut [u8], object: u32) -> Answer {
    // SAFETY: one slice that lives through the call.
    unsafe { hall_release(state.as_mut_ptr(), state.len(), object) }
}

pub fn find(state: &[u8], mask: u32) -> Place {
    // SAFETY: one slice that lives through the call, and is only read.
    unsafe { hall_find(state.as_ptr(), state.len(), mask) }
}

/// `layout` is a code.
pub fn make(state: &mut [u8], layout: u32) -> Answer {
    // SAFETY: one slice that lives through the call.
    unsafe { hall_make(state.as_mut_ptr(), state.len(), layout) }
}

/// The same with a table's bytes.
pub fn make_with(state: &mut [u8], layout: u32, table: &[u8]) -> Answer {
    // SAFETY: two slices that live through the call and do not overlap.
    unsafe {
        hall_make_with_table(
            state.as_mut_ptr(),
            state.len(),
            layout,
            table.as_ptr(),
            table.len(),
        )
    }
}

/// What making, reset, a hold and a release answer.
pub const DONE: Answer = Answer {
    kind: 3,
    number: 0,
    first: 0,
    second: 0,
    ready: 0,
    peak: 0.0,
    gain: 1.0,
};

/// A new block of that layout.
pub fn fresh(layout: Layout) -> Vec<u8> {
    let mut state = vec![0xa5; sys::hall_state_size()];
    assert_eq!(make(&mut state, layout.code()), DONE);
    state
}

/// A new block of that layout with that table.
pub fn fresh_with(layout: Layout, table: &HallTable) -> Vec<u8> {
    let mut state = vec![0xa5; sys::hall_state_size()];
    assert_eq!(
        make_with(&mut state, layout.code(), &table.to_bytes()),
        DONE
    );
    state
}
