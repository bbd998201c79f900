// SPDX-License-Identifier: Apache-2.0
//! The model beside the fuzzer's calls: the harness hands over each call that it has made, and a
//! difference from what the documents and the Rust have it come to aborts. Compiled with coverage,
//! it also tells the fuzzer which branches of the Rust a call has taken.

use compare::calls::{Call, Step};
use compare::case::{Case, Seen};
use compare::entry::Answer;
use std::slice;

/// A call that was made, as `made` of made.h.
#[repr(C)]
pub struct Made {
    entry: u32,
    rate: u32,
    samples: u32,
    objects: u32,
    stride: u32,
    layout: u32,
    object: u32,
    state: *const u8,
    out: *const u8,
    before: *const u8,
    kept: *const u8,
    pcm: *const u8,
    meta: *const u8,
    codes: *const u8,
    table: *const u8,
    state_length: usize,
    out_length: usize,
    pcm_length: usize,
    meta_length: usize,
    codes_length: usize,
    table_length: usize,
    answer: Answer,
}

/// A copy of so many bytes.
///
/// # Safety
/// `bytes` is good for reading `length` bytes.
unsafe fn copy(bytes: *const u8, length: usize) -> Vec<u8> {
    // SAFETY: as this function's own.
    unsafe { slice::from_raw_parts(bytes, length) }.to_vec()
}

/// # Safety
/// Each pointer of `made` is good for reading as many bytes as its length says.
#[unsafe(no_mangle)]
pub unsafe extern "C" fn beside(made: &Made) {
    // SAFETY: as this function's own.
    let (case, seen) = unsafe {
        let step = match made.entry {
            0 => Step::Push(Call {
                rate: made.rate,
                samples: made.samples,
                codes: copy(made.codes, made.codes_length),
                objects: made.objects,
                meta: copy(made.meta, made.meta_length),
                pcm: copy(made.pcm, made.pcm_length),
            }),
            1 => Step::Flush,
            2 => Step::Reset,
            3 => Step::Make(made.layout),
            4 => Step::MakeWith(made.layout, copy(made.table, made.table_length)),
            5 => Step::Hold(made.object),
            _ => Step::Release(made.object),
        };
        let case = Case {
            state: copy(made.before, made.state_length),
            out: copy(made.kept, made.out_length),
            stride: made.stride,
            step,
        };
        let seen = Seen {
            answer: made.answer,
            state: copy(made.state, made.state_length),
            out: copy(made.out, made.out_length),
        };
        (case, seen)
    };
    case.check(&seen, "the fuzzer's call");
}
