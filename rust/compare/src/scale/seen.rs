// SPDX-License-Identifier: Apache-2.0
//! What is reached by a call that is accepted, from the renderer before it and after it.

use super::reached::{Reached, What};
use crate::floats;
use crate::model::{Meters, Outcome, met};
use oracle::frame::{DEPTHS, Frame, Object, Update};
use oracle::state::{Element, Metadata, State};

/// An accepted push, with the state before it and after it.
pub struct Push<'a> {
    pub before: &'a Metadata,
    pub after: &'a State,
    pub frame: &'a Frame,
    /// The last applied update, of this push or an earlier one.
    pub last: Option<&'a Update>,
}

impl Push<'_> {
    pub fn count(&self, reached: &mut Reached) {
        let updates = self.frame.applied();
        reached.one(What::Frame);
        reached.one(What::Rate(self.frame.rate));
        reached.add(What::Limited, (self.after.limiter_gain < 1.0).into());
        for &code in &self.frame.beds {
            reached.one(What::Input(code));
        }
        for &code in &self.after.metadata.bed_channels {
            reached.one(What::Bed(code));
        }
        let dropped = self.frame.updates.len() - updates.len();
        reached.add(What::Dropped, dropped as u64);
        reached.add(What::Silence, self.silent(&updates).into());
        elements(reached, self.before, &updates);
        self.objects(reached, !updates.is_empty());
        self.ramps(reached, !updates.is_empty());
    }

    /// Samples come before the first update.
    fn silent(&self, updates: &[&Update]) -> bool {
        let first = updates.first().map(|update| update.offset.into());
        !self.before.initialized && first.unwrap_or(self.frame.samples) > 0
    }

    /// The object records of the blocks that were applied to dynamic objects.
    fn objects(&self, reached: &mut Reached, updated: bool) {
        let Some(last) = self.last else {
            return;
        };
        let metadata = &self.after.metadata;
        for (e, element) in metadata.elements.iter().enumerate() {
            let blocks = applied(self.before.elements.get(e), element, updated);
            let objects = last.elements[e].objects.iter();
            for object in objects.skip(metadata.bed_or_isf_objects) {
                blocks.iter().for_each(|&b| record(reached, &object[b]));
            }
        }
    }

    /// Ramps that were going before the push.
    fn ramps(&self, reached: &mut Reached, updated: bool) {
        // A slot starts at most every 64 samples, one more at offset 0.
        let most = 64 * (self.frame.samples as i64 / 64 + 2);
        for (e, was) in self.before.elements.iter().enumerate() {
            let left = was.future_distance;
            if left <= 0 || !was.update_now.contains(&true) {
                continue;
            }
            let is = self.after.metadata.elements.get(e);
            let over = is.is_none_or(|is| is.future_distance <= 0);
            let newly = is.is_some_and(|is| !applied(Some(was), is, updated).is_empty());
            reached.add(What::RampEnded, (over && !newly && !updated).into());
            reached.add(What::RampCut, (left > most && (newly || over)).into());
        }
    }
}

fn elements(reached: &mut Reached, before: &Metadata, updates: &[&Update]) {
    for met in met(before, updates) {
        let kept = if met.lifted { 0 } else { met.kept };
        reached.add(What::Kept, kept as u64);
        reached.add(What::New, (met.all - kept) as u64);
        reached.add(What::Lift, met.lifted.into());
    }
}

/// The samples that a push or a flush gives, and its meters.
pub fn samples(reached: &mut Reached, outcome: &Outcome) {
    if let Outcome::Ready(channels, Meters { peak, gain }) = outcome {
        let all: usize = channels.iter().map(Vec::len).sum();
        reached.add(What::Sample, all as u64);
        reached.add(What::Loud, (*peak > 1.0).into());
        reached.add(What::Infinite, peak.is_infinite().into());
        reached.add(What::Down, (*gain < 1.0 && *gain > 0.0).into());
        reached.add(What::Up, (*gain > 1.0).into());
        reached.add(What::Low, (*gain <= 0.0).into());
    }
}

/// A call that gives samples of a block whose limiter gain is NaN.
pub fn nan_gain(reached: &mut Reached, block: &[u8], outcome: &Outcome) {
    if let Outcome::Ready(channels, _) = outcome {
        let gain = floats(&block[24..28])[0];
        let passed = gain.is_nan() && !channels[0].is_empty();
        reached.add(What::NanGain, passed.into());
    }
}

/// The blocks of an element that were applied since `before`; after an update all that were.
fn applied(before: Option<&Element>, after: &Element, updated: bool) -> Vec<usize> {
    let was = |b: usize| !updated && before.is_some_and(|element| element.block_used[b]);
    let blocks = 0..after.block_used.len();
    blocks.filter(|&b| after.block_used[b] && !was(b)).collect()
}

fn record(reached: &mut Reached, object: &Object) {
    for (flag, place) in object.flags().into_iter().zip(0..) {
        reached.add(What::Flag(place), flag.into());
    }
    reached.one(What::Anchor(object.anchor as u8));
    let depth = DEPTHS.iter().position(|&depth| depth == object.depth);
    reached.one(What::Depth(depth.unwrap() as u8));
    let send = match object.send {
        0.0 => 0,
        1.0 => 1,
        _ => 2,
    };
    reached.one(What::Send(send));
}
