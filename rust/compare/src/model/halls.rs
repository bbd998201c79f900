// SPDX-License-Identifier: Apache-2.0
//! Document 02's R-5, read apart from the Rust's loops: a frame's channels in a hall. Which beds and
//! objects sound where and how loud is the Rust's metadata state, which knows no hall; the rest is
//! document 01's items 3 to 6 read over the hall's speakers (`oracle::reading`).

use super::holds::{self, Effects};
use oracle::Hall;
use oracle::amended::leaf::{self, Timed};
use oracle::frame::{Frame, Update};
use oracle::reading::{BASS, mix, silence};
use oracle::state::{Metadata, Source, State};

/// What an accepted frame comes to.
pub struct Read {
    /// Before the limiter; channels that the hall lacks have no samples.
    pub channels: Vec<Vec<f32>>,
    pub metadata: Metadata,
    /// What holds did to it.
    pub effects: Effects,
}

/// The frame's channels. Where an object is held, the places are those that `holds` reads. None where a gain is not finite, as it may be in a handed-in block: times a share of 0 it is a NaN
/// in the Rust, which has terms of share 0, and the reading has none.
pub fn mixed(hall: &Hall, state: &State, frame: &Frame) -> Option<Read> {
    let mut output = silence(hall, frame.samples);
    let mut time = Time::new(state);
    let updates = frame.applied();
    let mut updates = updates.as_slice();
    let mut at = 0;
    while at < frame.samples {
        let due = updates.iter().take_while(|u| usize::from(u.offset) <= at);
        let (due, later) = updates.split_at(due.count());
        due.iter().for_each(|update| time.apply(update));
        updates = later;
        let next = later.first().map_or(frame.samples, |u| u.offset.into());
        let part = at..time.end_of_part(at).min(frame.samples).min(next);
        at = part.end;
        // "Samples before the first update are silent."
        if time.begun {
            time.slot();
            let metadata = time.timed.state();
            if !is_finite(&metadata) {
                return None;
            }
            mix(hall, &metadata, frame, part.clone(), &mut output);
            time.goes_on(part.len());
        }
    }
    let mut filter = state
        .lfe_lowpass
        .unwrap_or_else(|| leaf::lowpass_new(frame.rate));
    leaf::lowpass_process_in_place(&mut filter, &mut output[BASS]);
    Some(Read {
        channels: output,
        metadata: time.timed.state(),
        effects: time.effects,
    })
}

/// Every gain is, and what its size leaves for the corners.
fn is_finite(metadata: &Metadata) -> bool {
    let inner = |source: &Source| source.gain * (1.0 - source.size);
    let mut sources = metadata.dynamic_sources.iter();
    metadata.bed_sources.iter().all(|gain| gain.is_finite())
        && sources.all(|source| source.gain.is_finite() && inner(source).is_finite())
}

/// Document 01's item 5: slots of 64 samples, and where they start.
struct Time {
    timed: Timed,
    /// Some object is held, or is to be.
    held: bool,
    effects: Effects,
    begun: bool,
    /// The frame's start in the stream.
    frame: i64,
    /// That of the slot, and the samples since then.
    slot: i64,
    phase: usize,
}

impl Time {
    fn new(state: &State) -> Self {
        Time {
            timed: Timed::in_state(&state.metadata),
            held: holds::any(&state.metadata),
            effects: Effects::default(),
            begun: state.metadata.initialized,
            frame: state.stream_sample_offset,
            slot: state.metadata_timeslot_stream_sample,
            phase: state.metadata_timeslot_phase,
        }
    }

    /// "The first update, and any at a frame's offset 0, starts a new slot there."
    fn apply(&mut self, update: &Update) {
        let at = self.frame + i64::from(update.offset);
        self.timed.apply_update(update, at);
        if update.offset == 0 || !self.begun {
            (self.slot, self.phase) = (at, 0);
        }
        self.begun = true;
    }

    fn end_of_part(&self, at: usize) -> usize {
        if self.begun {
            at + 64 - self.phase
        } else {
            usize::MAX
        }
    }

    fn slot(&mut self) {
        if self.phase != 0 {
            return;
        }
        if self.held {
            let after = holds::slot(&self.timed.state(), self.slot, &mut self.effects);
            self.timed = Timed::in_state(&after);
            self.held = holds::any(&after);
        } else {
            self.timed.update_timeslot(self.slot, 64);
        }
    }

    fn goes_on(&mut self, samples: usize) {
        self.phase += samples;
        if self.phase == 64 {
            (self.slot, self.phase) = (self.slot + 64, 0);
        }
    }
}
