// SPDX-License-Identifier: Apache-2.0
//! Document 02's R-5 at the entries, beside the runs of `entries`: which channels a bed and an object
//! sound on in each layout, and that what stands in the places of absent channels counts for
//! nothing and stays.

use compare::block::{self, PLACES, ROW, has};
use compare::calls::{Call, Step};
use compare::case::{Case, Seen};
use compare::entry::BLOCK;
use compare::host::used_block;
use compare::setup::Setup;
use compare::{EDGES, Frames, Generator, floats, ranges, seeds, set};
use oracle::Vector;
use oracle::frame::{Frame, Object, Update};
use std::collections::BTreeSet;

const STRIDE: usize = 64;
const SAMPLE: f32 = 0.5;

/// What a sample of 1 of one bed, or of one object, is on each channel of a new renderer of that layout.
fn heard(layout: u32, bed: Option<u8>, object: Object) -> Vec<Option<f32>> {
    heard_in(&Setup::built_in(layout), bed, object)
}

/// The same in any hall; none on channels that are absent. The output's other places keep their bytes.
pub fn heard_in(setup: &Setup, bed: Option<u8>, object: Object) -> Vec<Option<f32>> {
    let beds = Vec::from_iter(bed);
    let update = Update {
        offset: 0,
        objects: 1,
        bed_or_isf_objects: beds.len() as u8,
        beds: beds.clone(),
        elements: vec![set(vec![object])],
    };
    let frame = Frame {
        rate: 48_000,
        samples: STRIDE,
        objects: 1 - beds.len(),
        beds,
        pcm: vec![SAMPLE; STRIDE],
        updates: vec![update],
    };
    let case = Case {
        state: setup.fresh(),
        out: vec![0x5a; 48 * STRIDE],
        stride: STRIDE as u32,
        step: Step::Push(Call::from(&frame)),
    };
    let seen = case.called();
    assert_eq!(seen.answer.ready, STRIDE, "{bed:?} {object:?}");
    if !cfg!(no_sources) {
        case.check(&seen, "heard");
    }
    let channels = seen.out.chunks(4 * STRIDE).enumerate();
    let channel = |(c, bytes): (usize, &[u8])| {
        if has(setup.layout, c) {
            return Some(floats(bytes)[STRIDE - 1] / SAMPLE);
        }
        assert!(bytes.iter().all(|&byte| byte == 0x5a), "channel {c}");
        None
    };
    channels.map(channel).collect()
}

/// `value` on the channels named, 0 on the others that the layout has.
pub fn on(layout: u32, channels: &[usize], value: f32) -> Vec<Option<f32>> {
    let sounds = |c: usize| if channels.contains(&c) { value } else { 0.0 };
    let channel = |c: usize| has(layout, c).then(|| sounds(c));
    (0..12).map(channel).collect()
}

pub fn of_gain(gain: f32) -> Object {
    Object {
        gain: Some(gain),
        ..Object::default()
    }
}

/// An object of gain 1 that is panned there.
pub fn panned_at([x, y, z]: Vector) -> Object {
    Object {
        position_valid: true,
        position: Some([(x + 1.0) / 2.0, (1.0 - z) / 2.0, y]),
        ..of_gain(1.0)
    }
}

/// A bed whose speaker is there has its gain; one whose speaker is absent is panned at its
/// `bed_channel_position`, and has the root of it.
#[test]
fn beds_without_a_speaker_are_panned() {
    let cases: [(u8, [usize; 4]); 15] = [
        (0, [0; 4]),
        (1, [1; 4]),
        (2, [2; 4]),
        (4, [6; 4]),
        (5, [7; 4]),
        (7, [4, 6, 4, 6]),
        (8, [5, 7, 5, 7]),
        (9, [8, 8, 0, 0]),
        (10, [9, 9, 1, 1]),
        (13, [10, 10, 4, 6]),
        (14, [11, 11, 5, 7]),
        // Panned in every layout: see below.
        (11, [12; 4]),
        (12, [12; 4]),
        (15, [12; 4]),
        (16, [12; 4]),
    ];
    for (code, channels) in cases {
        for (layout, channel) in (0..).zip(channels) {
            let found = heard(layout, Some(code), of_gain(0.25));
            if channel == 12 {
                let squares: f32 = found.iter().flatten().map(|x| x * x).sum();
                assert!((squares - 0.25).abs() < 1e-6, "{layout} {code}: {found:?}");
                continue;
            }
            let own = channel == channels[0];
            let expected = on(layout, &[channel], if own { 0.25 } else { 0.5 });
            assert_eq!(found, expected, "{layout} {code}");
        }
    }
}

/// At gain 0 neither a direct bed nor a panned one is heard.
#[test]
fn beds_of_gain_0_are_silent() {
    for code in (0..18).filter(|&code| code != 6) {
        for layout in 0..4 {
            let found = heard(layout, Some(code), of_gain(0.0));
            assert_eq!(found, on(layout, &[], 0.0), "{layout} {code}");
        }
    }
}

/// Places as panned, the channels that sound, and how loud.
#[test]
fn objects_are_panned_over_the_speakers_that_are_there() {
    let (half, nan) = (0.5f32.sqrt(), f32::NAN);
    let cases: [(u32, Vector, &[usize], f32); 15] = [
        (0, [0.0, 0.0, -1.0], &[4, 5], half),
        (1, [0.0, 0.0, -1.0], &[6, 7], half),
        (2, [0.0, 0.0, -1.0], &[4, 5], half),
        (3, [0.0, 0.0, -1.0], &[6, 7], half),
        (0, [0.0, 0.5, -1.0], &[4, 5, 10, 11], 0.5),
        (1, [0.0, 0.5, -1.0], &[6, 7, 10, 11], 0.5),
        (2, [0.0, 0.5, -1.0], &[4, 5], half),
        (3, [0.0, 0.5, -1.0], &[6, 7], half),
        (1, [0.0, 2.0, -1.0], &[10, 11], half),
        (2, [0.0, 2.0, -1.0], &[4, 5], half),
        (3, [-1.0, 1.0, 1.0], &[0], 1.0),
        (0, [nan; 3], &[4], 1.0),
        (1, [nan; 3], &[6], 1.0),
        (2, [nan; 3], &[4], 1.0),
        (3, [nan; 3], &[6], 1.0),
    ];
    for (layout, place, channels, value) in cases {
        let found = heard(layout, None, panned_at(place));
        assert_eq!(found, on(layout, channels, value), "{layout} {place:?}");
    }
}

/// "The size term divides by 12, 10, 8 or 6": an object of size 1 is on every full-range speaker.
#[test]
fn a_wide_object_is_on_all_that_are_there() {
    for (layout, divisor) in (0..).zip([12.0f32, 10.0, 8.0, 6.0]) {
        let object = Object {
            position_valid: true,
            position: Some([0.3, 0.4, 0.5]),
            size: Some(1.0),
            ..of_gain(0.25)
        };
        let full: Vec<usize> = (0..12).filter(|&channel| channel != 3).collect();
        let around = 0.25 * (1.0 / divisor).sqrt();
        assert_eq!(heard(layout, None, object), on(layout, &full, around));
    }
}

/// The bytes of a block's absent channels, and where they stand.
fn absent_places(layout: u32) -> impl Iterator<Item = usize> {
    let absent = (0..12).filter(move |&channel| !has(layout, channel));
    absent.flat_map(|channel| PLACES + ROW * channel..PLACES + ROW * (channel + 1))
}

/// A block of a smaller layout in which samples wait, of a run or drawn from all that are in range.
fn waiting(inputs: &mut Generator) -> Vec<u8> {
    loop {
        let mut block = match inputs.below(2) {
            0 => ranges::drawn(inputs),
            _ => used_block(inputs.below(400)),
        };
        let layout = 1 + inputs.below(3);
        ranges::layout().put(&mut block, layout);
        if block[64] > 0 {
            assert!(ranges::hold(&block));
            return block;
        }
    }
}

/// The block with other bits in its absent channels' places, most of them loud.
fn other_absent(inputs: &mut Generator, block: &[u8]) -> Vec<u8> {
    let mut other = block.to_vec();
    let places: Vec<usize> = absent_places(block::layout(block)).step_by(4).collect();
    for at in places {
        let word = match inputs.below(4) {
            0 => inputs.bits() as u32,
            1 => inputs.pick(&EDGES),
            _ => inputs.between(2.0, 1e9).to_bits(),
        };
        other[at..at + 4].copy_from_slice(&word.to_le_bytes());
    }
    other
}

/// What the pairs of calls come to.
#[derive(Debug, Default)]
struct Tally {
    pushes: u64,
    flushes: u64,
    refused: u64,
    /// Those that leave a gain below 1.
    limited: u64,
}

/// The call on both blocks: the same answer, the same output, the same block but for the absent
/// channels' places, whose bytes stay.
fn alike(cases: &[Case; 2], name: &str) -> Seen {
    let [seen, other] = cases.each_ref().map(Case::called);
    assert_eq!(seen.answer, other.answer, "{name}");
    assert!(seen.out == other.out, "{name}: the output");
    let absent: BTreeSet<usize> = absent_places(block::layout(&cases[0].state)).collect();
    for at in 0..BLOCK {
        if absent.contains(&at) {
            let stays = |case: &Case, seen: &Seen| case.state[at] == seen.state[at];
            assert!(
                stays(&cases[0], &seen) && stays(&cases[1], &other),
                "{name}"
            );
        } else {
            assert!(seen.state[at] == other.state[at], "{name}: byte {at}");
        }
    }
    if !cfg!(no_sources) {
        cases[0].check(&seen, name);
        cases[1].check(&other, name);
    }
    seen
}

/// "Any bits in absent channels' places must not turn the hall down."
#[test]
fn absent_channels_count_for_nothing() {
    let mut tally = Tally::default();
    for seed in seeds!(0..6_000) {
        let inputs = &mut Generator::new(seed);
        let state = waiting(inputs);
        let mut frames = Frames::after(&block::state(&state), seed, 256);
        let step = match inputs.below(4) {
            0 => Step::Flush,
            _ => Step::Push(Call::from(&frames.next_frame())),
        };
        let out: Vec<u8> = (0..48 * 256).map(|_| inputs.bits() as u8).collect();
        let states = [other_absent(inputs, &state), state];
        let cases = states.map(|state| Case {
            state,
            out: out.clone(),
            stride: 256,
            step: step.clone(),
        });
        let seen = alike(&cases, &format!("seed {seed}"));
        let add = |count: &mut u64, holds: bool| *count += u64::from(holds);
        let given = seen.answer.kind == 0;
        add(&mut tally.pushes, given && step != Step::Flush);
        add(&mut tally.flushes, given && step == Step::Flush);
        add(&mut tally.refused, !given);
        add(&mut tally.limited, seen.answer.gain < 1.0);
    }
    println!("{tally:?}");
    let found = [tally.pushes, tally.flushes, tally.limited];
    assert!(
        !seeds::all() || found.iter().all(|&n| n > 1_000),
        "{tally:?}"
    );
}
