//! Calls as a host makes them, over bytes.

use crate::entry::{self, Answer};
use crate::setup::{self, Setup};
use crate::{Frames, Generator, records, tables};
use oracle::frame::Frame;

/// The arguments of a push but for what is lent to write.
#[derive(Clone, Debug, PartialEq)]
pub struct Call {
    pub rate: u32,
    pub samples: u32,
    /// Code of each bed channel.
    pub codes: Vec<u8>,
    pub objects: u32,
    pub meta: Vec<u8>,
    pub pcm: Vec<u8>,
}

impl From<&Frame> for Call {
    fn from(frame: &Frame) -> Self {
        Call {
            rate: frame.rate,
            samples: frame.samples as u32,
            codes: frame.beds.clone(),
            objects: frame.objects as u32,
            meta: records::write(&frame.updates),
            pcm: frame.pcm.iter().flat_map(|x| x.to_le_bytes()).collect(),
        }
    }
}

#[derive(Clone, Debug, PartialEq)]
pub enum Step {
    Push(Call),
    Flush,
    Reset,
    /// By the layout's code, and with a table's bytes.
    Make(u32),
    MakeWith(u32, Vec<u8>),
    /// Of a dynamic object.
    Hold(u32),
    Release(u32),
}

impl Step {
    /// What the entry answers.
    pub fn call(&self, state: &mut [u8], out: &mut [u8], stride: u32) -> Answer {
        match self {
            Step::Push(call) => entry::push(state, call, out, stride),
            Step::Flush => entry::flush(state, out, stride),
            Step::Reset => entry::reset(state),
            Step::Make(layout) => entry::make(state, *layout),
            Step::MakeWith(layout, table) => entry::make_with(state, *layout, table),
            Step::Hold(object) => entry::mark(state, *object, true),
            Step::Release(object) => entry::mark(state, *object, false),
        }
    }

    /// The hall behind the call, which is accepted.
    pub fn setup(&self, state: &[u8]) -> Setup {
        match self {
            Step::Make(layout) => Setup::built_in(*layout),
            Step::MakeWith(layout, table) => Setup {
                layout: *layout,
                table: table[..].try_into().unwrap(),
            },
            _ => Setup::of_block(state),
        }
    }

    /// The refusal of a making call on a block as long as a block is, else 0: 15 before 16 to 18.
    pub fn made(&self) -> u32 {
        match self {
            Step::Make(4..) | Step::MakeWith(4.., _) => 15,
            Step::MakeWith(_, table) => setup::fault(table),
            _ => 0,
        }
    }
}

/// A bed of code 2 with an update that names it at offset 0.
pub fn bed_frame(samples: usize) -> Call {
    let mut meta = vec![0; 40];
    meta[..9].copy_from_slice(&[1, 0, 0, 0, 1, 1, 1, 0, 2]);
    Call {
        rate: 48_000,
        samples: samples as u32,
        codes: vec![2],
        objects: 0,
        meta,
        pcm: (0..samples).flat_map(|_| 0.5f32.to_le_bytes()).collect(),
    }
}

/// A seeded list of calls: frames, one in six of them spoilt, flushes and resets.
pub struct Calls {
    inputs: Generator,
    frames: Frames,
    /// The layout that most making calls have, where there are such calls.
    makes: Option<u32>,
    /// Objects are held and released.
    holds: bool,
    /// The last one that was to be held.
    held: u32,
    /// Updates are sent that lie far ahead.
    far: bool,
}

impl Calls {
    pub fn new(seed: u64, most_samples: u64) -> Self {
        Calls {
            inputs: Generator::new(!seed),
            frames: Frames::new(seed, most_samples),
            makes: None,
            holds: false,
            held: 0,
            far: false,
        }
    }

    /// Calls of the entries, with as many metadata records as document 01 allows.
    pub fn for_entries(seed: u64, most_samples: u64) -> Self {
        Calls {
            inputs: Generator::new(!seed),
            frames: Frames::for_entries(seed, most_samples),
            makes: None,
            holds: false,
            held: 0,
            far: false,
        }
    }

    /// Calls in which bed channels are lifted.
    pub fn lifting(seed: u64, most_samples: u64) -> Self {
        Calls {
            inputs: Generator::new(!seed),
            frames: Frames::lifting(seed, most_samples),
            makes: None,
            holds: false,
            held: 0,
            far: false,
        }
    }

    /// Calls in which objects are sent to the bass feed.
    pub fn sending(seed: u64, most_samples: u64) -> Self {
        Calls {
            inputs: Generator::new(!seed),
            frames: Frames::sending(seed, most_samples),
            makes: None,
            holds: false,
            held: 0,
            far: false,
        }
    }

    /// Calls in which moving objects are held and released.
    pub fn holding(seed: u64, most_samples: u64) -> Self {
        Calls {
            inputs: Generator::new(!seed),
            frames: Frames::moving(seed, most_samples),
            makes: None,
            holds: true,
            held: 0,
            far: false,
        }
    }

    /// All frames have sends to the bass feed, or none has.
    pub fn with_sends(mut self, sends: bool) -> Self {
        self.frames.set_sends(sends);
        self
    }

    /// Three in four of the resets are making calls, mostly of that layout, also of others and of
    /// none; two of these three have a table, one in four of them with something wrong.
    pub fn with_making(mut self, layout: u32) -> Self {
        self.makes = Some(layout);
        self
    }

    /// The frames that follow have up to so many samples.
    pub fn set_most_samples(&mut self, most_samples: u64) {
        self.frames.set_most_samples(most_samples);
    }

    /// One call in three is a hold or a release, before frames, between them, and twice in a row.
    pub fn with_holds(mut self) -> Self {
        self.holds = true;
        self
    }

    /// Two updates in three are of kind 9, at or past the frame's end, or in it.
    pub fn with_far(mut self) -> Self {
        self.far = true;
        self
    }

    pub fn next_step(&mut self) -> Step {
        let likely = if self.frames.has_started() { 3 } else { 30 };
        if self.holds && self.inputs.chance(likely) {
            return self.mark();
        }
        match self.inputs.below(24) {
            0 => self.new_renderer(),
            1..4 => Step::Flush,
            _ => {
                let mut call = Call::from(&self.frames.next_frame());
                if self.far {
                    send_ahead(&mut self.inputs, &mut call);
                }
                if self.inputs.chance(6) {
                    spoil(&mut self.inputs, &mut call);
                }
                Step::Push(call)
            }
        }
    }
}

impl Calls {
    /// Mostly of an object of the frame before; most releases of the one that was held last.
    fn mark(&mut self) -> Step {
        let (inputs, count) = (&mut self.inputs, self.frames.dynamic());
        let any = inputs.below(u64::from(count.max(1))) as u32;
        let object = match inputs.below(24) {
            0 => inputs.pick(&[count, count + 1, 16, 255, 1 << 31, u32::MAX]),
            _ => any,
        };
        if !inputs.chance(3) {
            self.held = object;
            return Step::Hold(object);
        }
        Step::Release(inputs.pick(&[object, self.held, self.held, self.held]))
    }

    fn new_renderer(&mut self) -> Step {
        let Calls { inputs, makes, .. } = self;
        let made = makes
            .filter(|_| !inputs.chance(4))
            .map(|layout| match inputs.below(8) {
                0 => inputs.pick(&[4, 5, 256, 1 << 31, u32::MAX]),
                1 => inputs.below(4) as u32,
                _ => layout,
            });
        let step = match made {
            None => Step::Reset,
            Some(layout) if inputs.chance(3) => Step::Make(layout),
            Some(layout) => Step::MakeWith(layout, any_table(inputs)),
        };
        // A refused one starts nothing.
        if step.made() == 0 {
            self.frames.restart();
        }
        step
    }
}

/// Mostly accepted, one time in twelve the built-in one.
fn any_table(inputs: &mut Generator) -> Vec<u8> {
    match inputs.below(12) {
        0..3 => tables::spoilt(inputs),
        3 => setup::built_in().to_vec(),
        _ => tables::accepted(inputs).to_vec(),
    }
}

/// Makes kind 9 of two in three of a frame's updates, and gives these other offsets.
pub fn send_ahead(inputs: &mut Generator, call: &mut Call) {
    let samples = u64::from(call.samples);
    let updates = call.meta.as_chunks_mut::<40>().0.iter_mut();
    for update in updates.filter(|record| record[0] == 1) {
        if inputs.chance(3) {
            continue;
        }
        let offset = match inputs.below(24) {
            0 => inputs.pick(&[u32::MAX.into(), 1 << 31, 65_536]),
            1 => inputs.bits() & 0xffff_ffff,
            2..5 => inputs.below(samples + 1),
            5..8 => samples.saturating_sub(1),
            8..13 => samples,
            13..15 => samples + 1,
            15..18 => samples + 64 * inputs.below(6),
            _ => samples + inputs.below(400),
        };
        update[0] = 9;
        update[2..4].fill(0);
        update[28..32].copy_from_slice(&(offset as u32).to_le_bytes());
    }
}

/// Changes one thing, mostly to what a check refuses; what a frame of `hallrender` can hold.
pub fn spoil(inputs: &mut Generator, call: &mut Call) {
    match inputs.below(12) {
        0 => call.rate = inputs.pick(&[0, 7_999, 192_001, u32::MAX]),
        1 => {
            if let Some(code) = call.codes.last_mut() {
                *code = 18 + inputs.below(238) as u8;
            }
        }
        2 => {
            call.codes.clear();
            call.objects = 0;
            call.pcm.clear();
        }
        3 | 4 => spoil_sample(inputs, &mut call.pcm),
        5 | 6 => spoil_record(inputs, &mut call.meta),
        7 => spoil_order(inputs, &mut call.meta),
        _ => spoil_value(inputs, &mut call.meta),
    }
}

fn spoil_sample(inputs: &mut Generator, pcm: &mut [u8]) {
    let edges = [
        0x7fc0_0000,
        0x7f80_0001,
        0x7f80_0000,
        0xff80_0000,
        0x4180_0000,
        0x4180_0001,
        0xc180_0000,
        0xc180_0001,
        0x7f7f_ffff,
    ];
    if !pcm.is_empty() {
        let at = inputs.below(pcm.len() as u64 / 4) as usize;
        put_word(pcm, 4 * at, inputs.pick(&edges));
    }
}

/// Up to three bytes, anywhere.
pub fn spoil_record(inputs: &mut Generator, bytes: &mut [u8]) {
    if bytes.is_empty() {
        return;
    }
    for _ in 0..1 + inputs.below(3) {
        let at = inputs.below(bytes.len() as u64) as usize;
        bytes[at] = if inputs.chance(2) {
            inputs.bits() as u8
        } else {
            bytes[at] ^ 1 << inputs.below(8)
        };
    }
}

/// A record dropped, doubled, swapped with another, or all doubled.
pub fn spoil_order(inputs: &mut Generator, bytes: &mut Vec<u8>) {
    let records = bytes.len() as u64 / 40;
    if records == 0 {
        return;
    }
    let at = 40 * inputs.below(records) as usize;
    match inputs.below(4) {
        0 => _ = bytes.drain(at..at + 40),
        1 if records < 1_200 => bytes.extend_from_within(at..at + 40),
        2 if records <= 64 => {
            // Past 16 updates.
            while bytes.len() / 40 <= 17 {
                bytes.extend_from_within(..);
            }
        }
        _ => {
            let to = 40 * inputs.below(records) as usize;
            for k in 0..40 {
                bytes.swap(at + k, to + k);
            }
        }
    }
}

/// A value of one record at, or past, the end of its range.
fn spoil_value(inputs: &mut Generator, meta: &mut [u8]) {
    let records = meta.len() as u64 / 40;
    if records == 0 {
        return;
    }
    let mut at = 40 * inputs.below(records) as usize;
    if inputs.chance(3) {
        at = 0;
    }
    let r = &mut meta[at..at + 40];
    let spans = [
        1_048_576,
        1_048_577,
        -1_048_576,
        -1_048_577,
        i64::MIN,
        i64::MAX,
    ];
    match r[0] {
        9 if inputs.chance(2) => r[inputs.pick(&[2, 3, 26, 27, 32, 39])] = 1,
        1 | 9 => {
            let (place, most) = inputs.pick(&[(4, 33), (4, 32), (5, 255), (6, 19), (7, 3), (2, 0)]);
            r[place] = most;
        }
        2 => r[1] = inputs.pick(&[0, 8, 9]),
        3 => {
            let place = inputs.pick(&[8, 16]);
            r[place..place + 8].copy_from_slice(&inputs.pick(&spans).to_le_bytes());
        }
        _ => {
            let (bit, place, bits) = inputs.pick(&[
                (4, 4, 0x4100_0000),   // gain 8.0
                (4, 4, 0x4100_0001),   // the next f32
                (4, 4, 0x8000_0000),   // -0.0
                (4, 4, 0x8000_0001),   // below 0
                (4, 4, 0x7fc0_0000),   // NaN
                (32, 24, 0x3f80_0000), // size 1.0
                (32, 24, 0x3f80_0001),
                (32, 24, 0x8000_0000),
                (32, 24, 0xffc0_0000),
                (0, 32, 0x3f40_0000), // a depth factor of 0.75
                (0, 32, 0xbf80_0000),
                (0, 32, 0x7fc0_0000),
                (0, 32, 0),
                (0, 36, 0x3f80_0000), // send 1.0
                (0, 36, 0x3f80_0001),
                (0, 36, 0x8000_0000),
                (0, 36, 0x8000_0001),
                (0, 36, 0x7fc0_0000),
                (0, 36, 0x7f80_0000),
                (16, 20, 0x7f80_0000), // an infinite distance
                (16, 20, 0xff80_0000),
            ]);
            r[2] |= bit;
            put_word(r, place, bits);
        }
    }
}

fn put_word(bytes: &mut [u8], at: usize, word: u32) {
    bytes[at..at + 4].copy_from_slice(&word.to_le_bytes());
}
