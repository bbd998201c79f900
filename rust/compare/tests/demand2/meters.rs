// SPDX-License-Identifier: Apache-2.0
//! Document 02's R-2 on blocks that a host hands in, whose limiter gain, pending samples and bed gain
//! have any bits: peak and gain as the document has them, and on every case as the model reads them.
//! On all other runs the model's reading is compared with each answer.

use compare::block::PLACES;
use compare::calls::{Call, Step, bed_frame};
use compare::case::Case;
use compare::entry::{self, Answer};
use compare::host::fresh;
use compare::{EDGES, Generator, ranges, seeds};

const STRIDE: usize = 256;
/// Where the pending samples and the bed are heard.
const CENTER: usize = 2;

/// A block with one bed in the center: the limiter's gain, what waits in the center, the bed's gain.
#[derive(Clone, Debug)]
struct Handed {
    gain: f32,
    pending: Vec<f32>,
    bed: f32,
}

/// Nothing waits, and the bed is heard as it is.
const PLAIN: Handed = Handed {
    gain: 1.0,
    pending: Vec::new(),
    bed: 1.0,
};

impl Handed {
    fn block(&self) -> Vec<u8> {
        let (mut state, mut out) = (fresh(0), vec![0; 48 * 64]);
        entry::push(&mut state, &bed_frame(64), &mut out, 64);
        let mut put = |at: usize, word: u32| state[at..at + 4].copy_from_slice(&word.to_le_bytes());
        put(24, self.gain.to_bits());
        put(64, self.pending.len() as u32);
        put(168, self.bed.to_bits());
        for (i, x) in self.pending.iter().enumerate() {
            put(PLACES + 256 * CENTER + 4 * i, x.to_bits());
        }
        assert!(ranges::hold(&state));
        state
    }

    /// The answer. Where the Rust is at hand it is also the model's.
    fn answered(&self, step: &Step) -> Answer {
        let case = Case {
            state: self.block(),
            out: vec![0x5a; 48 * STRIDE],
            stride: STRIDE as u32,
            step: step.clone(),
        };
        let seen = case.called();
        if !cfg!(no_sources) {
            case.check(&seen, &format!("{self:?}"));
        }
        seen.answer
    }
}

/// The bed's samples, with no metadata.
fn sound(samples: &[f32]) -> Step {
    Step::Push(Call {
        meta: Vec::new(),
        pcm: samples.iter().flat_map(|x| x.to_le_bytes()).collect(),
        ..bed_frame(samples.len())
    })
}

/// The kind, peak and gain that a call on the block must answer, bit for bit.
fn answers(handed: &Handed, step: Step, kind: u32, peak: f32, gain: f32) {
    let answer = handed.answered(&step);
    let found = (answer.kind, answer.peak.to_bits(), answer.gain.to_bits());
    let expected = (kind, peak.to_bits(), gain.to_bits());
    assert_eq!(found, expected, "{handed:?}, {step:?}: {answer:?}");
}

const INFINITY: f32 = f32::INFINITY;
const NAN: f32 = f32::NAN;

/// "its peak before scaling and the gain that was used", of a flush's one block. "A NaN from a
/// handed-in block is passed over; with no other .. they are 0 and 1."
#[test]
fn one_block() {
    let cases: [(f32, &[f32], f32, f32); 18] = [
        (1.0, &[0.5, -0.75], 0.75, 1.0),
        (1.0, &[1.0], 1.0, 1.0),
        (1.0, &[-3.0, NAN, 2.0], 3.0, 0.9 / 3.0),
        (0.5, &[1.0], 1.0, 0.5),
        (0.5, &[4.0], 4.0, 0.9 / 4.0),
        (5.0, &[0.125], 0.125, 5.0),
        (5.0, &[0.5], 0.5, 0.9 / 0.5),
        (f32::MAX, &[0.0], 0.0, f32::MAX),
        (-2.0, &[4.0], 4.0, -2.0),
        (0.0, &[4.0], 4.0, 0.0),
        (-0.0, &[-4.0], 4.0, -0.0),
        (INFINITY, &[-0.0], 0.0, INFINITY),
        (INFINITY, &[0.5], 0.5, 0.9 / 0.5),
        (-INFINITY, &[0.5], 0.5, -INFINITY),
        (NAN, &[0.5], 0.5, 1.0),
        (1.0, &[-INFINITY, 0.5], INFINITY, 0.0),
        (0.5, &[NAN, -NAN], 0.0, 0.5),
        (NAN, &[NAN], 0.0, 1.0),
    ];
    for (gain, pending, peak, used) in cases {
        let pending = pending.to_vec();
        let handed = Handed {
            gain,
            pending,
            ..PLAIN
        };
        answers(&handed, Step::Flush, 0, peak, used);
    }
}

/// So many samples of a, then of b.
fn parts(a: (usize, f32), b: (usize, f32)) -> Step {
    sound(&[vec![a.1; a.0], vec![b.1; b.0]].concat())
}

/// "the greatest peak and the least gain of the call", whichever block has them; samples that wait
/// from before count in the first block, those that still wait in none.
#[test]
fn several_blocks() {
    let quiet = |gain: f32| Handed { gain, ..PLAIN };
    let both = [(64, 0.5), (64, 0.25)];
    answers(&PLAIN, parts((64, 4.0), (64, 0.5)), 0, 4.0, 0.9 / 4.0);
    answers(&PLAIN, parts((64, 0.5), (64, 4.0)), 0, 4.0, 0.9 / 4.0);
    answers(&PLAIN, parts(both[0], both[1]), 0, 0.5, 1.0);
    answers(&PLAIN, parts((64, 4.0), (63, 16.0)), 0, 4.0, 0.9 / 4.0);
    answers(&quiet(0.25), parts(both[1], both[0]), 0, 0.5, 0.25);
    // 5 over the first block, and 1, to which it falls, over the second.
    answers(&quiet(5.0), parts((64, 0.125), (10, 0.0)), 0, 0.125, 5.0);
    answers(&quiet(5.0), parts((64, 0.125), (64, 0.0)), 0, 0.125, 1.0);
    // 2 × 0.5 is not above 1, and 2 x the gain that has grown over the first block is.
    answers(&quiet(0.5), parts((64, 0.0), (64, 2.0)), 0, 2.0, 0.9 / 2.0);
    let waits = Handed {
        pending: vec![8.0; 10],
        ..PLAIN
    };
    answers(&waits, sound(&[0.5; 54]), 0, 8.0, 0.9 / 8.0);
    answers(&waits, sound(&[0.5; 128]), 0, 8.0, 0.9 / 8.0);
    // Every sample is infinite: -0 over the first block, 0.9 / infinity over the second. Of equal
    // ones the earlier block's.
    let infinite = Handed {
        gain: -0.0,
        bed: INFINITY,
        ..PLAIN
    };
    answers(&infinite, sound(&[1.0; 128]), 0, INFINITY, -0.0);
    // A NaN gain stays one.
    answers(&quiet(NAN), parts((64, 4.0), (64, 0.5)), 0, 4.0, 1.0);
}

/// "with no block ready, they are 0 and 1", whatever waits and whatever the gain is.
#[test]
fn no_block() {
    let loud = Handed {
        gain: 0.25,
        pending: vec![8.0; 10],
        ..PLAIN
    };
    answers(&loud, sound(&[4.0; 53]), 0, 0.0, 1.0);
    answers(&loud, sound(&[NAN; 64]), 1, 0.0, 1.0);
    answers(&loud, sound(&[4.0; 257]), 1, 0.0, 1.0);
    answers(&loud, Step::Reset, 3, 0.0, 1.0);
    let idle = Handed {
        gain: 0.25,
        ..PLAIN
    };
    answers(&idle, Step::Flush, 2, 0.0, 1.0);
}

/// What the drawn cases come to: calls that gave out a block, by what they answered and met.
#[derive(Debug, Default)]
struct Tally {
    calls: u64,
    idle: u64,
    nan_gains: u64,
    infinite_gains: u64,
    infinite_peaks: u64,
    above_1: u64,
    below_0: u64,
    minus_0: u64,
    silent: u64,
}

impl Tally {
    fn count(&mut self, handed: &Handed, answer: &Answer) {
        if answer.ready == 0 {
            self.idle += 1;
            return;
        }
        let add = |count: &mut u64, holds: bool| *count += u64::from(holds);
        let Answer { peak, gain, .. } = *answer;
        self.calls += 1;
        add(&mut self.nan_gains, handed.gain.is_nan());
        add(&mut self.infinite_gains, gain.is_infinite());
        add(&mut self.infinite_peaks, peak.is_infinite());
        add(&mut self.above_1, gain > 1.0 && gain.is_finite());
        add(&mut self.below_0, gain < 0.0);
        add(&mut self.minus_0, gain == 0.0 && gain.is_sign_negative());
        add(&mut self.silent, peak == 0.0);
    }

    fn least(&self) -> u64 {
        let gains = [self.nan_gains, self.infinite_gains, self.above_1];
        let others = [self.infinite_peaks, self.below_0, self.minus_0, self.silent];
        let all = gains.into_iter().chain(others).chain([self.idle]);
        all.min().unwrap_or(0)
    }
}

/// Gains that a block may hold, and sizes of samples beside them.
fn edge(inputs: &mut Generator) -> f32 {
    match inputs.below(4) {
        0 => f32::from_bits(inputs.pick(&EDGES)),
        1 => inputs.float(),
        _ => inputs.between(-2.0, 4.0),
    }
}

fn drawn(inputs: &mut Generator) -> (Handed, Step) {
    let way = inputs.below(4);
    let sample = |inputs: &mut Generator| match way {
        0 => inputs.between(-0.5, 0.5),
        1 => inputs.pick(&[NAN, 0.0, -0.0]),
        _ => inputs.near(-2.0, 2.0),
    };
    let waiting = inputs.below(64);
    let handed = Handed {
        gain: edge(inputs),
        pending: (0..waiting).map(|_| sample(inputs)).collect(),
        bed: if way < 2 { 1.0 } else { edge(inputs) },
    };
    let step = match inputs.below(4) {
        0 => Step::Flush,
        _ => {
            let samples = inputs.below(STRIDE as u64) + 1;
            let loud = inputs.pick(&[0.0, 0.5, 16.0]);
            let pcm: Vec<f32> = (0..samples).map(|_| inputs.between(-loud, loud)).collect();
            sound(&pcm)
        }
    };
    (handed, step)
}

#[test]
#[cfg_attr(no_sources, ignore = "Rust sources not at hand")]
fn drawn_blocks_are_met_as_the_model_has_it() {
    let mut tally = Tally::default();
    for seed in seeds!(0..20_000) {
        let (handed, step) = drawn(&mut Generator::new(seed));
        tally.count(&handed, &handed.answered(&step));
    }
    println!("{tally:?}");
    assert!(!seeds::all() || tally.least() >= 100, "{tally:?}");
}
