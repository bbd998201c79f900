//! Frames as a decoder sends them, from a seed.

mod layout;
mod loudest;
mod parts;
mod rates;

pub use loudest::{loudest_frame, set};

use crate::Generator;
use layout::{Layout, changed, layout, layout_up_to, lifted};
use oracle::frame::{Frame, Update};
use oracle::state::State;
use parts::{input_beds, offset, pcm, samples, slow_down, update};
use rates::rate;

/// A seeded stream of frames that document 01's checks 1 to 6 and 8 let pass: mostly accepted,
/// now and then refused by 9 to 14.
pub struct Frames {
    inputs: Generator,
    most_samples: u64,
    most_records: u64,
    rate: u32,
    layout: Layout,
    /// Channels are lifted often.
    lifting: bool,
    /// Objects are sent to the bass feed; drawn anew at each reset unless it is fixed.
    sends: bool,
    sends_fixed: bool,
    /// Few updates, in which objects move for many slots.
    moving: bool,
    /// An update was sent.
    started: bool,
}

/// Metadata records that a frame of `hallrender` has at most.
const PROGRAM_RECORDS: u64 = 1_200;
/// Those of document 01's largest frame: 16 updates of 32 objects, 2 elements, 8 blocks.
const ENTRY_RECORDS: u64 = 16 * (1 + 2 * (1 + 8 + 8 * 32));

impl Frames {
    /// Frames of up to `most_samples` samples.
    pub fn new(seed: u64, most_samples: u64) -> Self {
        let mut inputs = Generator::new(seed);
        let rate = rate(&mut inputs);
        let layout = layout(&mut inputs);
        let sends = inputs.chance(2);
        Frames {
            inputs,
            most_samples,
            most_records: PROGRAM_RECORDS,
            rate,
            layout,
            lifting: false,
            sends,
            sends_fixed: false,
            moving: false,
            started: false,
        }
    }

    /// Frames in which bed channels become objects, and objects bed channels, one time in three,
    /// most of them of as many objects in all; one or two elements that would be kept.
    pub fn lifting(seed: u64, most_samples: u64) -> Self {
        let mut frames = Frames::new(seed, most_samples);
        frames.set_lifting();
        let Frames { inputs, layout, .. } = &mut frames;
        layout.objects = layout.objects.max(1 + inputs.below(4) as u8);
        layout.blocks = (0..1 + inputs.below(2))
            .map(|_| 1 + inputs.below(3))
            .collect();
        frames
    }

    /// Frames with sends, up to the first reset of at least one object.
    pub fn sending(seed: u64, most_samples: u64) -> Self {
        let mut frames = Frames::new(seed, most_samples);
        frames.set_sends(true);
        let Frames { inputs, layout, .. } = &mut frames;
        layout.objects = layout.objects.max(1);
        layout.bed_or_isf_objects = layout.bed_or_isf_objects.min(layout.objects - 1);
        layout.blocks = vec![1 + inputs.below(3)];
        frames
    }

    /// Frames in which objects move for many slots, up to the first change of one to three of them.
    pub fn moving(seed: u64, most_samples: u64) -> Self {
        let mut frames = Frames::new(seed, most_samples);
        frames.moving = true;
        let Frames { inputs, layout, .. } = &mut frames;
        let beds = layout.beds.len() as u8;
        (layout.objects, layout.bed_or_isf_objects) = (beds + 1 + inputs.below(3) as u8, beds);
        layout.blocks = (0..1 + inputs.below(2))
            .map(|_| 1 + inputs.below(2))
            .collect();
        frames
    }

    /// Frames for the entries, with as many metadata records as document 01 allows.
    pub fn for_entries(seed: u64, most_samples: u64) -> Self {
        let mut frames = Frames {
            most_records: ENTRY_RECORDS,
            ..Frames::new(seed, most_samples)
        };
        if frames.inputs.chance(4) {
            frames.layout = layout_up_to(&mut frames.inputs, [18, 16, 8]);
        }
        frames
    }

    /// Frames for a renderer in that state: its rate, its counts, its elements' blocks.
    pub fn after(state: &State, seed: u64, most_samples: u64) -> Self {
        let mut frames = Frames::for_entries(seed, most_samples);
        let metadata = &state.metadata;
        let blocks = metadata.elements.iter().map(|e| e.block_used.len() as u64);
        frames.layout = Layout {
            beds: metadata.bed_channels.clone(),
            objects: metadata.object_count as u8,
            bed_or_isf_objects: metadata.bed_or_isf_objects as u8,
            blocks: blocks.collect(),
        };
        frames.rate = state.sample_rate.unwrap_or(frames.rate);
        frames.started = metadata.initialized;
        frames
    }

    /// The frames that follow have up to so many samples.
    pub fn set_most_samples(&mut self, most_samples: u64) {
        self.most_samples = most_samples;
    }

    /// The frames that follow have sends, or none has.
    pub fn set_sends(&mut self, sends: bool) {
        (self.sends, self.sends_fixed) = (sends, true);
    }

    /// The frames that follow lift channels.
    pub fn set_lifting(&mut self) {
        self.lifting = true;
    }

    /// After a reset: another rate, and often another layout; the same where channels are lifted.
    pub fn restart(&mut self) {
        self.rate = rate(&mut self.inputs);
        if !self.lifting && self.inputs.chance(2) {
            self.layout = layout(&mut self.inputs);
        }
        if !self.sends_fixed {
            self.sends = self.inputs.chance(2);
        }
        self.started = false;
    }

    /// An update was sent since the last reset.
    pub fn has_started(&self) -> bool {
        self.started
    }

    /// Dynamic objects of the frames.
    pub fn dynamic(&self) -> u32 {
        self.layout.dynamic() as u32
    }

    pub fn next_frame(&mut self) -> Frame {
        let updates = self.updates();
        let inputs = &mut self.inputs;
        let (samples, updates) = updates;
        let mut beds = input_beds(inputs, &self.layout.beds);
        let mut objects = self.layout.dynamic();
        if inputs.chance(30) {
            objects = inputs.below(4) as usize;
        }
        if beds.is_empty() && objects == 0 {
            beds.push(2);
        }
        let rate = if inputs.chance(40) {
            rate(inputs)
        } else {
            self.rate
        };
        let pcm = pcm(inputs, (beds.len() + objects) * samples);
        Frame {
            rate,
            samples,
            beds,
            objects,
            pcm,
            updates,
        }
    }

    /// The offset of an update that brings another layout, or that starts a stream.
    fn first(&mut self, samples: u64) -> Option<u64> {
        let inputs = &mut self.inputs;
        if inputs.chance(if self.lifting { 3 } else { 12 }) {
            let next = if self.lifting { lifted } else { changed };
            self.layout = next(inputs, &self.layout);
            return Some(0);
        }
        if self.started || inputs.chance(20) {
            return None;
        }
        // Leading silence one time in three.
        let silence = inputs.chance(3);
        Some(if silence {
            inputs.below(samples + 70)
        } else {
            0
        })
    }

    /// The frame's samples and updates.
    fn updates(&mut self) -> (usize, Vec<Update>) {
        let samples = samples(&mut self.inputs, self.most_samples);
        let first = self.first(samples);
        let inputs = &mut self.inputs;
        let mut updates = Vec::new();
        let mut records = 0;
        let mut add = |inputs: &mut Generator, layout: &Layout, offset: u64| {
            records += layout.records();
            if records <= self.most_records {
                let mut next = update(inputs, layout, offset as u16, self.sends);
                if self.moving {
                    slow_down(inputs, &mut next);
                }
                updates.push(next);
            }
        };
        if let Some(offset) = first {
            add(inputs, &self.layout, offset);
        }
        // At the entries now and then as many as there can be.
        let many = self.most_records == ENTRY_RECORDS && inputs.chance(20);
        for _ in 0..15 {
            let one_in = if self.moving { 4 } else { 2 };
            if !many && inputs.chance(one_in) != self.moving {
                break;
            }
            let offset = offset(inputs, samples);
            let layout = if inputs.chance(30) {
                &changed(inputs, &self.layout)
            } else {
                &self.layout
            };
            add(inputs, layout, offset);
        }
        self.started |= !updates.is_empty();
        (samples as usize, updates)
    }
}

/// Document 01's largest: 18 bed channels, 14 dynamic objects, 16 updates, 8,496 records.
pub fn largest_frame(seed: u64) -> Frame {
    let mut inputs = Generator::new(seed);
    let layout = Layout {
        beds: (0..18).map(|i| if i == 6 { 2 } else { i }).collect(),
        objects: 32,
        bed_or_isf_objects: 18,
        blocks: vec![8, 8],
    };
    let samples = 1_536;
    Frame {
        rate: rate(&mut inputs),
        samples,
        beds: layout.beds.clone(),
        objects: layout.dynamic(),
        pcm: pcm(&mut inputs, (18 + layout.dynamic()) * samples),
        updates: (0..16)
            .map(|i| update(&mut inputs, &layout, 90 * i, true))
            .collect(),
    }
}
