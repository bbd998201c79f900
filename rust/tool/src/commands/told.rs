// SPDX-License-Identifier: Apache-2.0
//! A refused frame, for people.
use crate::hall::Refused;
use crate::numbers::grouped;
use voqlisna::{Arguments, Refusal, Speaker, Stride, sys};

/// "frame 33 at 0.171 s: refused 5 (programme): .."
pub fn line(what: &Refused<'_>) -> String {
    let (number, refusal) = (grouped(what.number), what.refusal);
    let (at, k, who) = (what.at, refusal.number(), refusal.blame());
    format!(
        "frame {number} at {at:.3} s: refused {k} ({who}): {}",
        cause(what)
    )
}

/// What is behind the refusal: the record, the sample, the argument; else what the refusal says.
pub fn cause(what: &Refused<'_>) -> String {
    let (frame, stride) = (what.frame, Stride::MAX.samples());
    let arguments = Arguments {
        state_length: sys::hall_state_size(),
        out_length: 4 * Speaker::ALL.len() * stride,
        pcm: &frame.pcm,
        metadata: &frame.metadata,
        codes: &frame.codes,
        samples: frame.samples as u32,
        objects: frame.objects as u32,
        stride: stride as u32,
    };
    match arguments.explain(what.refusal) {
        Some(cause) => cause.to_string(),
        None if what.refusal == Refusal::Rate => {
            format!("{}; it is {}", what.refusal, grouped(frame.rate.into()))
        }
        None => what.refusal.to_string(),
    }
}
