//! A state block (docs/STATE-BLOCK.md) beside the Rust's own state.

use crate::setup::{Setup, Table};
use crate::{all_same, floats, same};
use oracle::frame::{ANCHORS, DEPTHS};
use oracle::state::{Element, Info, Metadata, Source, State};

/// Where the sources, elements, infos and places stand, and how long one of each is.
pub const SOURCES: usize = 240;
pub const SOURCE: usize = 28;
pub const ELEMENTS: usize = SOURCES + 16 * SOURCE;
pub const ELEMENT: usize = 368;
pub const INFOS: usize = ELEMENTS + 2 * ELEMENT;
pub const INFO: usize = 48;
pub const PLACES: usize = INFOS + 512 * INFO;
/// The places of a channel.
pub const ROW: usize = 256;
/// Where the layout's code stands, and the hall table.
pub const LAYOUT: usize = PLACES + 12 * ROW;
pub const TABLE: usize = LAYOUT + 4;
/// Where the area of updates that wait begins, behind the renderer's part.
pub const AREA: usize = TABLE + 144;
/// Where a source has its marks: 1 it was given a place, 2 a hold is wanted, 4 one is in effect.
pub const SOURCE_MARKS: usize = 20;
pub const WANTED: u32 = 2;
pub const HELD: u32 = 4;
/// Where the send stands in a source and in an info.
pub const SOURCE_SEND: usize = 24;
pub const INFO_SEND: usize = 44;

struct Block<'a>(&'a [u8]);

impl Block<'_> {
    fn word(&self, at: usize) -> u32 {
        u32::from_le_bytes(self.0[at..at + 4].try_into().unwrap())
    }

    fn count(&self, at: usize) -> usize {
        self.word(at) as usize
    }

    fn flag(&self, at: usize) -> bool {
        self.word(at) == 1
    }

    fn long(&self, at: usize) -> i64 {
        i64::from_le_bytes(self.0[at..at + 8].try_into().unwrap())
    }

    /// The floats from `at` on are these.
    fn holds(&self, at: usize, floats: &[f32]) -> bool {
        let held = |i: usize| f32::from_bits(self.word(at + 4 * i));
        floats.iter().enumerate().all(|(i, &x)| same(held(i), x))
    }

    fn same_clock(&self, state: &State) -> bool {
        self.word(0) == state.sample_rate.unwrap_or(0)
            && self.count(4) == state.metadata_timeslot_phase
            && self.long(8) == state.stream_sample_offset
            && self.long(16) == state.metadata_timeslot_stream_sample
            && self.holds(24, &[state.limiter_gain])
            && state
                .lfe_lowpass
                .is_none_or(|filter| self.holds(28, &filter))
    }

    fn same_pending(&self, channels: &[Vec<f32>]) -> bool {
        let places = |(c, channel): (usize, &Vec<f32>)| self.holds(PLACES + ROW * c, channel);
        self.count(64) == channels[0].len() && channels.iter().enumerate().all(places)
    }

    fn same_counts(&self, state: &State) -> bool {
        let metadata = &state.metadata;
        let code = |(i, &code): (usize, &u8)| self.word(96 + 4 * i) == code.into();
        self.flag(68) == metadata.initialized
            && self.long(72) == metadata.payload_stream_sample
            && self.count(80) == metadata.object_count
            && self.count(84) == metadata.bed_or_isf_objects
            && self.count(88) == metadata.bed_channels.len()
            && self.count(92) == metadata.elements.len()
            && metadata.bed_channels.iter().enumerate().all(code)
            && self.holds(168, &metadata.bed_sources)
    }

    fn same_source(&self, at: usize, source: &Source) -> bool {
        self.holds(at, &[source.gain, source.size])
            && self.holds(at + 8, &source.cubical_position)
            && self.word(at + SOURCE_MARKS) == marks(source)
            && self.holds(at + SOURCE_SEND, &[source.send])
    }

    fn same_element(&self, index: usize, element: &Element) -> bool {
        let at = ELEMENTS + ELEMENT * index;
        let raised = |at: usize| i64::from(self.word(at)) - (1 << 20);
        let block = |b: usize| {
            raised(at + 16 + 12 * b) == element.block_offsets[b]
                && raised(at + 20 + 12 * b) == element.ramp_duration[b]
                && self.flag(at + 24 + 12 * b) == element.block_used[b]
        };
        let track = |t: usize| {
            self.flag(at + 112 + 16 * t) == element.update_now[t]
                && self.holds(at + 116 + 16 * t, &element.future[t])
        };
        let infos = |(o, infos): (usize, &Vec<Info>)| {
            let at = |b: usize| INFOS + INFO * (256 * index + 8 * o + b);
            infos
                .iter()
                .enumerate()
                .all(|(b, i)| self.same_info(at(b), i))
        };
        self.count(at) == element.block_used.len()
            && self.count(at + 4) == element.update_now.len()
            && self.long(at + 8) - (1 << 47) == element.future_distance
            && (0..element.block_used.len()).all(block)
            && (0..element.update_now.len()).all(track)
            && element.info_blocks.iter().enumerate().all(infos)
    }

    /// An infinite distance stands in the block as it was sent, in the Rust as 100.
    fn same_info(&self, at: usize, info: &Info) -> bool {
        let [flags, anchor, depth, _] = self.word(at).to_le_bytes();
        let present =
            |bit: u8, at: usize| (flags & bit != 0).then_some(f32::from_bits(self.word(at)));
        let same_value = |a: Option<f32>, b: Option<f32>| match (a, b) {
            (Some(a), Some(b)) => same(a, b),
            (a, b) => a.is_none() && b.is_none(),
        };
        let distance = present(16, at + 12).map(|x| if x.is_infinite() { 100.0 } else { x });
        (flags & 1 != 0) == info.valid_position
            && (flags & 2 != 0) == info.differential_position
            && ANCHORS[usize::from(anchor)] == info.anchor
            && DEPTHS[usize::from(depth)] == info.depth_factor
            && same_value(present(4, at + 4), info.gain)
            && same_value(present(32, at + 8), info.size)
            && same_value(distance, info.distance)
            && self.holds(at + 16, &[info.screen_factor])
            && self.holds(at + 20, &info.position)
            && self.holds(at + 32, &info.last_precise)
            && self.holds(at + INFO_SEND, &[info.send])
    }
}

/// The part of the block that is not the Rust's, in that hall. What waits in absent channels is not
/// looked at.
pub fn difference(block: &[u8], setup: &Setup, state: &State) -> Option<&'static str> {
    let hall = Setup::of_block(block) == *setup;
    let block = Block(block);
    let metadata = &state.metadata;
    let source = |(i, s): (usize, &Source)| block.same_source(SOURCES + SOURCE * i, s);
    let element = |(i, e): (usize, &Element)| block.same_element(i, e);
    let parts = [
        ("clock, gain, low-pass", block.same_clock(state)),
        (
            "pending samples",
            block.same_pending(&state.limiter_pending),
        ),
        ("counts, beds", block.same_counts(state)),
        (
            "sources",
            metadata.dynamic_sources.iter().enumerate().all(source),
        ),
        (
            "elements",
            metadata.elements.iter().enumerate().all(element),
        ),
        ("layout, table", hall),
    ];
    parts.iter().find(|(_, same)| !same).map(|(name, _)| *name)
}

/// The word of a source's marks.
fn marks(source: &Source) -> u32 {
    let marks = [source.position_valid, source.wanted, source.held];
    (0..3).map(|k| u32::from(marks[k]) << k).sum()
}

/// The block after a hold or a release that is not known: another mark of that object, and all NaNs
/// being equal nothing else.
pub fn marked(block: &[u8], object: usize, wanted: bool) -> Vec<u8> {
    let at = SOURCES + SOURCE * object + SOURCE_MARKS;
    let marks = Block(block).word(at);
    let marks = if wanted {
        marks | WANTED
    } else {
        marks & !WANTED
    };
    let mut marked = block.to_vec();
    marked[at..at + 4].copy_from_slice(&marks.to_le_bytes());
    marked
}

/// The same words, all NaNs being equal.
pub fn same_words(a: &[u8], b: &[u8]) -> bool {
    a == b || all_same(&floats(a), &floats(b))
}

/// The code that a block holds.
pub fn layout(block: &[u8]) -> u32 {
    Block(block).word(LAYOUT)
}

/// The hall table that it holds.
pub fn table(block: &[u8]) -> Table {
    block[TABLE..AREA].try_into().unwrap()
}

/// Whether a layout has a channel (document 02, R-5).
pub fn has(layout: u32, channel: usize) -> bool {
    const LACKS: [&[usize]; 4] = [&[], &[4, 5], &[8, 9, 10, 11], &[4, 5, 8, 9, 10, 11]];
    !LACKS[layout as usize].contains(&channel)
}

/// The state of the Rust that a block in range holds; also what waits in channels that its layout
/// lacks.
pub fn state(block: &[u8]) -> State {
    let block = Block(block);
    let rate = block.word(0);
    let pending = block.count(64);
    State {
        sample_rate: (rate != 0).then_some(rate),
        limiter_gain: block.float(24),
        stream_sample_offset: block.long(8),
        metadata_timeslot_phase: block.count(4),
        metadata_timeslot_stream_sample: block.long(16),
        lfe_lowpass: (rate != 0).then(|| block.floats(28)),
        metadata: block.metadata(),
        limiter_pending: (0..12)
            .map(|c| {
                (0..pending)
                    .map(|i| block.float(PLACES + ROW * c + 4 * i))
                    .collect()
            })
            .collect(),
    }
}

impl Block<'_> {
    fn float(&self, at: usize) -> f32 {
        f32::from_bits(self.word(at))
    }

    fn floats<const N: usize>(&self, at: usize) -> [f32; N] {
        std::array::from_fn(|i| self.float(at + 4 * i))
    }

    fn metadata(&self) -> Metadata {
        let (objects, isf, beds) = (self.count(80), self.count(84), self.count(88));
        Metadata {
            initialized: self.flag(68),
            payload_stream_sample: self.long(72),
            object_count: objects,
            bed_or_isf_objects: isf,
            bed_channels: (0..beds).map(|i| self.word(96 + 4 * i) as u8).collect(),
            bed_sources: (0..beds).map(|i| self.float(168 + 4 * i)).collect(),
            elements: (0..self.count(92))
                .map(|e| self.element(e, objects))
                .collect(),
            dynamic_sources: (0..objects.saturating_sub(isf))
                .map(|i| self.source(SOURCES + SOURCE * i))
                .collect(),
        }
    }

    fn source(&self, at: usize) -> Source {
        let marks = self.word(at + SOURCE_MARKS);
        Source {
            gain: self.float(at),
            size: self.float(at + 4),
            cubical_position: self.floats(at + 8),
            position_valid: marks & 1 != 0,
            send: self.float(at + SOURCE_SEND),
            wanted: marks & WANTED != 0,
            held: marks & HELD != 0,
        }
    }

    /// The flags of the slot before are written before they are read.
    fn element(&self, index: usize, objects: usize) -> Element {
        let at = ELEMENTS + ELEMENT * index;
        let (blocks, flags) = (self.count(at), self.count(at + 4));
        let raised = |at: usize| i64::from(self.word(at)) - (1 << 20);
        let offsets: Vec<i64> = (0..blocks).map(|b| raised(at + 16 + 12 * b)).collect();
        let info = |o: usize, b: usize| self.info(INFOS + INFO * (256 * index + 8 * o + b));
        Element {
            min_offset: offsets.first().copied().unwrap_or(-1),
            block_used: (0..blocks).map(|b| self.flag(at + 24 + 12 * b)).collect(),
            update_last: vec![false; flags],
            update_now: (0..flags).map(|t| self.flag(at + 112 + 16 * t)).collect(),
            block_offsets: offsets,
            ramp_duration: (0..blocks).map(|b| raised(at + 20 + 12 * b)).collect(),
            info_blocks: (0..objects)
                .map(|o| (0..blocks).map(|b| info(o, b)).collect())
                .collect(),
            future: (0..flags).map(|t| self.floats(at + 116 + 16 * t)).collect(),
            future_distance: self.long(at + 8) - (1 << 47),
        }
    }

    fn info(&self, at: usize) -> Info {
        let [flags, anchor, depth, _] = self.word(at).to_le_bytes();
        let present = |bit: u8, at: usize| (flags & bit != 0).then(|| self.float(at));
        Info {
            valid_position: flags & 1 != 0,
            differential_position: flags & 2 != 0,
            gain: present(4, at + 4),
            // An infinite distance stands in the block as it was sent.
            distance: present(16, at + 12).map(|x| if x.is_infinite() { 100.0 } else { x }),
            size: present(32, at + 8),
            screen_factor: self.float(at + 16),
            depth_factor: DEPTHS[usize::from(depth)],
            anchor: ANCHORS[usize::from(anchor)],
            position: self.floats(at + 20),
            last_precise: self.floats(at + 32),
            send: self.float(at + INFO_SEND),
        }
    }
}
