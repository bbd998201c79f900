//! Arguments of any bytes and lengths, and arguments that are right but for some of them, so that
//! every answer arises.

use compare::block::{AREA, TABLE};
use compare::calls::{Call, Step, send_ahead, spoil, spoil_record};
use compare::case::{Case, Seen};
use compare::entry::{Answer, BLOCK};
use compare::host::{fresh, used_block};
use compare::{Frames, Generator, block, ranges, seeds, tables};
use std::collections::BTreeMap;

const CASES: u64 = 20_000;

/// Any bytes, or zeros.
fn bytes(inputs: &mut Generator, length: usize) -> Vec<u8> {
    let zeros = inputs.chance(3);
    let mut byte = || if zeros { 0 } else { inputs.bits() as u8 };
    (0..length).map(|_| byte()).collect()
}

fn any_bytes_up_to(inputs: &mut Generator, most: u64) -> Vec<u8> {
    let length = inputs.below(most + 1) as usize;
    bytes(inputs, length)
}

/// Any bytes, a new renderer's, one in use, or one drawn from all that are in range; one with another
/// table.
fn any_state(inputs: &mut Generator) -> Vec<u8> {
    match inputs.below(12) {
        0 => any_bytes_up_to(inputs, 60_000),
        1 => bytes(inputs, BLOCK),
        2 => {
            let mut block = ranges::drawn(inputs);
            spoil_record(inputs, &mut block);
            block
        }
        3 => {
            let mut block = ranges::drawn(inputs);
            let table = any_table(inputs);
            let places = block[TABLE..AREA].iter_mut().zip(table);
            places.for_each(|(place, byte)| *place = byte);
            block
        }
        4 => fresh(inputs.below(4) as u32),
        5..8 => used_block(inputs.below(20)),
        _ => ranges::drawn(inputs),
    }
}

/// Half of the PCM lengths are right.
fn any_call(inputs: &mut Generator) -> Call {
    let mut call = Call {
        rate: inputs.pick(&[48_000, 0, 44_100, 7_999, 192_001, 8_000, 192_000]),
        samples: inputs.pick(&[0, 1, 10, 64, 1_536, u32::MAX]),
        codes: any_bytes_up_to(inputs, 20),
        objects: inputs.pick(&[0, 1, 16, 17, u32::MAX]),
        meta: any_bytes_up_to(inputs, 400),
        pcm: any_bytes_up_to(inputs, 2_000),
    };
    if inputs.chance(2) {
        call.codes.iter_mut().for_each(|code| *code %= 18);
        call.samples = inputs.below(257) as u32;
        call.objects = inputs.below(17) as u32;
        let channels = call.codes.len() + call.objects as usize;
        call.pcm = bytes(inputs, 4 * channels * call.samples as usize);
    }
    call
}

/// A frame for the renderer in the block, one in three with something wrong.
fn fitting_call(inputs: &mut Generator, state: &[u8]) -> Call {
    let mut frames = Frames::after(&block::state(state), inputs.bits(), 256);
    let mut call = Call::from(&frames.next_frame());
    if inputs.chance(3) {
        send_ahead(inputs, &mut call);
    }
    if inputs.chance(3) {
        spoil(inputs, &mut call);
    }
    call
}

/// Any bytes, of any length or the right one, floats of any bits or in their range.
fn any_table(inputs: &mut Generator) -> Vec<u8> {
    match inputs.below(6) {
        0 => any_bytes_up_to(inputs, 400),
        1 => bytes(inputs, 144),
        2 | 3 => tables::spoilt(inputs),
        _ => tables::accepted(inputs).to_vec(),
    }
}

fn any_object(inputs: &mut Generator) -> u32 {
    match inputs.below(8) {
        0 => inputs.bits() as u32,
        1 => inputs.pick(&[15, 16, 17, 255, u32::MAX]),
        _ => inputs.below(4) as u32,
    }
}

fn any_step(inputs: &mut Generator, state: &[u8]) -> Step {
    match inputs.below(18) {
        16 => Step::Hold(any_object(inputs)),
        17 => Step::Release(any_object(inputs)),
        0 if inputs.chance(2) => Step::Reset,
        1 if inputs.chance(4) => Step::Make(inputs.pick(&[0, 1, 2, 3, 4, u32::MAX])),
        0 => {
            let layout = inputs.pick(&[0, 1, 2, 3, 4, u32::MAX]);
            Step::MakeWith(layout, any_table(inputs))
        }
        1 | 2 => Step::Flush,
        3..7 => Step::Push(any_call(inputs)),
        _ if ranges::hold(state) => Step::Push(fitting_call(inputs, state)),
        _ => Step::Push(any_call(inputs)),
    }
}

fn case(seed: u64) -> Case {
    let inputs = &mut Generator::new(seed);
    let state = any_state(inputs);
    let step = any_step(inputs, &state);
    let stride = match inputs.below(8) {
        0 => inputs.pick(&[0, 63, 65, 1_600, u32::MAX]),
        1 => inputs.bits() as u32,
        _ => 64 * (1 + inputs.below(24)) as u32,
    };
    let out = match stride as usize {
        stride @ ..2_000 if !inputs.chance(8) => {
            let more = inputs.pick(&[0, 0, 1, 48, 400]);
            bytes(inputs, 48 * stride + more)
        }
        _ => any_bytes_up_to(inputs, 80_000),
    };
    Case {
        state,
        out,
        stride,
        step,
    }
}

/// The samples that are ready, and those that are pending after the call.
fn ready_and_pending(case: &Case) -> (usize, usize) {
    let pending = usize::from(case.state[64]);
    match &case.step {
        Step::Push(call) => {
            let all = pending + call.samples as usize;
            (all / 64 * 64, all % 64)
        }
        _ => (pending, 0),
    }
}

/// The kind of an answer with that number.
fn kind(case: &Case, number: u32) -> u32 {
    match &case.step {
        _ if number != 0 => 1,
        Step::Flush if case.state[64] == 0 => 2,
        Step::Push(_) | Step::Flush => 0,
        _ => 3,
    }
}

/// What a call that renders leaves: the output but for the ready samples of the layout's channels,
/// a block in range with the pending samples counted.
fn check_rendered(case: &Case, ready: usize, state: &[u8], out: &[u8]) {
    assert_eq!(
        (ready, usize::from(state[64])),
        ready_and_pending(case),
        "ready and pending"
    );
    assert!(ranges::hold(state), "the block is out of range");
    let (stride, layout) = (case.stride as usize, block::layout(&case.state));
    let is_ready = |at: usize| {
        at < 48 * stride && at / 4 % stride < ready && block::has(layout, at / 4 / stride)
    };
    let written = (0..out.len()).find(|&at| !is_ready(at) && out[at] != case.out[at]);
    assert_eq!(written, None, "a byte beside the ready samples");
}

/// a peak is +0 or more, a gain no NaN; "with no block ready, they are 0 and 1".
fn check_meters(answer: Answer) {
    let Answer { peak, gain, .. } = answer;
    let is_level = peak >= 0.0 && peak.is_sign_positive();
    assert!(is_level && !gain.is_nan(), "{answer:?}");
    let idle = [peak, gain].map(f32::to_bits) == [0.0, 1.0].map(f32::to_bits);
    assert!(idle || answer.ready > 0, "{answer:?}");
}

/// What a new renderer, a hold or a release leaves.
fn check_done(case: &Case, state: &[u8]) {
    let wanted = match case.step {
        Step::Hold(object) => Some((object, true)),
        Step::Release(object) => Some((object, false)),
        _ => None,
    };
    let Some((object, wanted)) = wanted else {
        let setup = case.step.setup(&case.state);
        assert!(state == setup.fresh(), "a new renderer");
        return;
    };
    let marked = block::marked(&case.state, object as usize, wanted);
    let known = marked == case.state;
    assert!(!known || state == case.state, "a known mark");
    assert!(block::same_words(state, &marked), "a mark");
}

/// Every call is answered: 1 to 8, 15 to 18 and 24 where the documents say so, each other number only where none
/// of these holds, 7 never; what is not to be written stays. Every other answer arises.
#[test]
fn any_bytes() {
    let mut answers = BTreeMap::new();
    for seed in seeds!(0..CASES) {
        let case = case(seed);
        let Seen { answer, state, out } = case.called();
        let number = case.early();
        if number != 0 || !(9..15).contains(&answer.number) {
            assert_eq!(answer.number, number, "{answer:?}");
        }
        assert_eq!(answer.kind, kind(&case, answer.number), "{answer:?}");
        check_meters(answer);
        match answer.kind {
            0 => check_rendered(&case, answer.ready, &state, &out),
            3 => {
                check_done(&case, &state);
                assert!(out == case.out, "{answer:?}");
            }
            _ => assert!(state == case.state && out == case.out, "{answer:?}"),
        }
        *answers.entry((answer.kind, answer.number)).or_insert(0u64) += 1;
    }
    println!("{answers:?}");
    let kinds = [(0, 0), (2, 0), (3, 0)].into_iter();
    for kind in kinds.chain((1..=18).chain([24, 25]).map(|number| (1, number))) {
        let arises = kind != (1, 7);
        let seen = answers.contains_key(&kind);
        assert!(seen == arises || !seeds::all() && !seen, "{kind:?}");
    }
}

/// The same calls: the answer with its counts, the samples and the renderer are the Rust's.
#[test]
#[cfg_attr(no_sources, ignore = "Rust sources not at hand")]
fn any_bytes_as_in_the_rust() {
    for seed in seeds!(0..CASES) {
        let case = case(seed);
        case.check(&case.called(), "any bytes");
    }
}
