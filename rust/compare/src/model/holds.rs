// SPDX-License-Identifier: Apache-2.0
//! Document 02's R-11, read apart from the Rust's loops: where a slot leaves the dynamic objects. What
//! else a slot does, holds do not change, and it is the Rust's.

use crate::{all_same, same};
use oracle::Vector;
use oracle::amended::leaf::{self, Timed};
use oracle::frame::Anchor;
use oracle::state::{Element, Info, Metadata, Source};

/// The object of that number: "24, an object number not below the last applied update's count, 0
/// without one".
pub fn object(metadata: &Metadata, number: u32) -> Option<&Source> {
    let sources = metadata.dynamic_sources.get(number as usize);
    sources.filter(|_| metadata.initialized)
}

/// Some object is held, or is to be.
pub fn any(metadata: &Metadata) -> bool {
    let mut sources = metadata.dynamic_sources.iter();
    sources.any(|source| source.wanted || source.held)
}

/// The objects of both, where they are, with gains, sizes, sends and marks.
pub fn same_sources(a: &Metadata, b: &Metadata) -> bool {
    let same_source = |a: &Source, b: &Source| {
        all_same(&a.cubical_position, &b.cubical_position)
            && same(a.gain, b.gain)
            && same(a.size, b.size)
            && same(a.send, b.send)
            && (a.position_valid, a.wanted, a.held) == (b.position_valid, b.wanted, b.held)
    };
    let (a, b) = (&a.dynamic_sources, &b.dynamic_sources);
    a.len() == b.len() && a.iter().zip(b).all(|(a, b)| same_source(a, b))
}

/// What holds did to objects in slots.
#[derive(Clone, Copy, Debug, Default, PartialEq)]
pub struct Effects {
    /// A held one stayed where it was, and would have been moved elsewhere.
    pub stopped: u64,
    /// A released one went on with its ramp; one with no ramp left was put elsewhere, at its target.
    pub goes_on: u64,
    pub jumps: u64,
}

impl Effects {
    fn add(&mut self, of_one: &Effects) {
        self.stopped += of_one.stopped;
        self.goes_on += of_one.goes_on;
        self.jumps += of_one.jumps;
    }
}

/// What a slot that starts there leaves.
pub fn slot(before: &Metadata, start: i64, effects: &mut Effects) -> Metadata {
    let mut after = without_holds(before, start);
    let timecode = start - before.payload_stream_sample;
    let taken = taken(&before.elements, timecode);
    for (d, source) in before.dynamic_sources.iter().enumerate() {
        let mut moving = Moving::new(source);
        if let Some(e) = taken {
            let (was, is) = (&before.elements[e], &after.elements[e]);
            let infos = &is.info_blocks[d + before.bed_or_isf_objects];
            let target = moving.slot(d, was, infos, timecode);
            after.elements[e].future[d] = target;
        }
        effects.add(&moving.effects);
        let left = &mut after.dynamic_sources[d];
        left.cubical_position = moving.place;
        left.position_valid = moving.placed;
        // "takes effect at the next slot"
        (left.wanted, left.held) = (source.wanted, source.wanted);
    }
    after
}

/// The slot where no object is held.
fn without_holds(before: &Metadata, start: i64) -> Metadata {
    let mut free = before.clone();
    for source in &mut free.dynamic_sources {
        (source.wanted, source.held) = (false, false);
    }
    let mut timed = Timed::in_state(&free);
    timed.update_timeslot(start, 64);
    timed.state()
}

/// "take the last element whose first block offset is from 0 up to the timecode, ending the search
/// there, else element 0. An element with no blocks, or a first offset below 0, does nothing."
fn taken(elements: &[Element], timecode: i64) -> Option<usize> {
    let first = |element: &Element| element.block_offsets.first().copied().unwrap_or(-1);
    let begins = |element: &Element| (0..=timecode).contains(&first(element));
    let taken = elements.iter().rposition(begins).unwrap_or(0);
    let element = elements.get(taken)?;
    (first(element) >= 0).then_some(taken)
}

/// An object in a slot.
struct Moving {
    place: Vector,
    /// A position was given.
    placed: bool,
    /// "Hold .. the object's panned position stops"
    stops: bool,
    /// "Release takes effect" in this slot.
    released: bool,
    effects: Effects,
}

impl Moving {
    fn new(source: &Source) -> Self {
        Moving {
            place: source.cubical_position,
            placed: source.position_valid,
            stops: source.wanted,
            released: source.held && !source.wanted,
            effects: Effects::default(),
        }
    }

    /// By the element that the slot takes, as it was, and the object's infos as they are after the
    /// slot. Gives the target.
    fn slot(&mut self, d: usize, was: &Element, infos: &[Info], timecode: i64) -> Vector {
        let mut target = was.future[d];
        let (mut moved, mut left) = (was.update_now[d], was.future_distance);
        for (b, info) in infos.iter().enumerate() {
            // "A block is applied when the timecode is greater than its offset .. once per update."
            let past = timecode - was.block_offsets[b];
            if was.block_used[b] || past <= 0 {
                continue;
            }
            (moved, left) = (info.valid_position, was.ramp_duration[b] - past);
            target = aim(info).unwrap_or(self.place);
            if moved && left <= 0 {
                self.goes_to(target);
            }
        }
        if moved && left > 0 {
            // "when the object was also being moved before (its flag set at this element's previous
            // slot, and a position already given); otherwise it goes straight to the target"
            let next = match was.update_now[d] && self.placed {
                true => leaf::lerp_vec3(self.place, target, (64.0 / left as f32).min(1.0)),
                false => target,
            };
            self.goes_to(next);
            self.effects.goes_on += u64::from(self.released);
        }
        // "an unfinished ramp goes on .., a finished one puts the object at its target"
        if moved && left <= 0 && self.released {
            self.effects.jumps += u64::from(self.place != target);
            self.place = target;
        }
        target
    }

    fn goes_to(&mut self, place: Vector) {
        self.placed = true;
        if self.stops {
            self.effects.stopped |= u64::from(self.place != place);
        } else {
            self.place = place;
        }
    }
}

/// The place that a block gives, where it gives another than the object's own. The info has the
/// position that was used.
fn aim(info: &Info) -> Option<Vector> {
    let [x, y, z] = match info.anchor {
        _ if !info.valid_position => return None,
        Anchor::Speaker => return None,
        Anchor::Room => leaf::room_anchored_position(info.position, info.distance),
        Anchor::Screen => {
            leaf::screen_anchored_position(info.position, info.screen_factor, info.depth_factor)
        }
    };
    Some([x * 2.0 - 1.0, z, y * -2.0 + 1.0])
}
