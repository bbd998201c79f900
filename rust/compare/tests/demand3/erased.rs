//! Demand 3 on the running entries: every sample given out is finite and from -1 to 1, peaks and gains
//! are in range and fit the samples, and a list without its refused calls gives the same
//! answers, the same samples and the same block.

use compare::calls::{Calls, Step};
use compare::entry::Answer;
use compare::setup::Setup;
use compare::{Generator, block, seeds, tables};

const RUNS: u64 = 4_000;
const CALLS: usize = 24;

/// A call and what is lent to it besides the block.
struct Turn {
    step: Step,
    stride: usize,
    /// Bytes of the output.
    room: usize,
}

/// What the host sees of a call.
#[derive(PartialEq)]
struct Seen {
    answer: Answer,
    out: Vec<u8>,
    /// The block's, after it.
    layout: u32,
}

/// A list begins with a renderer of each layout in turn, every second four with a table of their own;
/// making calls stand in it too.
fn first(seed: u64) -> Setup {
    let mut setup = Setup::built_in(seed as u32 % 4);
    if seed / 4 % 2 == 1 {
        setup.table = tables::accepted(&mut Generator::new(!seed));
    }
    setup
}

/// A list whose stride changes, with outputs that are longer than they must be, or too short; in every
/// second objects are held, in every third updates wait.
fn list(seed: u64) -> Vec<Turn> {
    let mut inputs = Generator::new(seed);
    let calls = Calls::for_entries(seed + 5_000_000, 64);
    let mut calls = calls.with_making(first(seed).layout);
    if seed % 2 == 1 {
        calls = calls.with_holds();
    }
    if seed % 3 == 1 {
        calls = calls.with_far();
    }
    let mut stride = 64;
    let mut turn = || {
        if inputs.chance(4) {
            stride = 64 * (1 + inputs.below(24)) as usize;
            calls.set_most_samples(stride as u64);
        }
        let room = match inputs.below(20) {
            0 => 48 * stride - 1,
            1..4 => 48 * stride + inputs.below(400) as usize,
            _ => 48 * stride,
        };
        Turn {
            step: calls.next_step(),
            stride,
            room,
        }
    };
    (0..CALLS).map(|_| turn()).collect()
}

/// What is seen of each call, and the block at the end.
fn played<'a>(setup: &Setup, turns: impl Iterator<Item = &'a Turn>) -> (Vec<Seen>, Vec<u8>) {
    let mut state = setup.fresh();
    let seen = |turn: &Turn| {
        let mut out = vec![0x5a; turn.room];
        let stride = turn.stride as u32;
        let answer = turn.step.call(&mut state, &mut out, stride);
        let layout = block::layout(&state);
        Seen {
            answer,
            out,
            layout,
        }
    };
    (turns.map(seen).collect(), state)
}

/// The samples given out, of the layout's channels.
fn samples(seen: &Seen, stride: usize) -> impl Iterator<Item = f32> {
    let sample = |at: usize| f32::from_le_bytes(seen.out[4 * at..][..4].try_into().unwrap());
    let ready = move |c: usize| (0..seen.answer.ready).map(move |i| c * stride + i);
    let channels = (0..12).filter(|&channel| block::has(seen.layout, channel));
    channels.flat_map(ready).map(sample)
}

fn in_range(seen: &Seen, stride: usize) -> bool {
    samples(seen, stride).all(|x| (-1.0..=1.0).contains(&x))
}

/// the peak is finite, the gain above 0 and at most 1, and 0 and 1 are answered where nothing is
/// ready. No sample is larger than peak x gain of its block: seen where a call gives out one block,
/// whose largest sample has that very size, since rounding keeps the order.
fn meters_hold(seen: &Seen, stride: usize) -> bool {
    let Answer {
        ready, peak, gain, ..
    } = seen.answer;
    let largest = samples(seen, stride).fold(0f32, |most, x| most.max(x.abs()));
    let told = match ready {
        0 => (peak, gain) == (0.0, 1.0),
        1..=64 => largest == peak * gain,
        _ => largest <= peak,
    };
    told && peak.is_finite() && peak >= 0.0 && gain > 0.0 && gain <= 1.0
}

#[test]
fn refused_calls_count_as_never_sent() {
    let (mut refused, mut given, mut limited, mut marked) = (0, 0, 0, [0; 2]);
    for seed in seeds!(0..RUNS) {
        let turns = list(seed);
        let setup = first(seed);
        let (all, block) = played(&setup, turns.iter());
        let both = || turns.iter().zip(&all);
        assert!(both().all(|(turn, seen)| in_range(seen, turn.stride)));
        assert!(both().all(|(turn, seen)| meters_hold(seen, turn.stride)));
        let kept = || both().filter(|(_, seen)| seen.answer.kind != 1);
        let (again, same) = played(&setup, kept().map(|(turn, _)| turn));
        assert!(
            again.iter().eq(kept().map(|(_, seen)| seen)),
            "an answer or a sample"
        );
        assert!(block == same, "the block");
        refused += all.len() - again.len();
        given += all.iter().map(|seen| seen.answer.ready).sum::<usize>();
        let is_limited = |seen: &&Seen| seen.answer.ready <= 64 && seen.answer.gain < 1.0;
        limited += all.iter().filter(is_limited).count();
        for (turn, seen) in both() {
            let is_mark = matches!(turn.step, Step::Hold(_) | Step::Release(_));
            let accepted = usize::from(seen.answer.kind == 3);
            marked[accepted] += usize::from(is_mark);
        }
    }
    println!("{refused} refused calls, {given} samples a channel, {limited} single blocks limited");
    let [refused_marks, marks] = marked;
    println!("{marks} holds and releases accepted, {refused_marks} refused");
    assert!(!seeds::all() || refused > 10_000 && given > 1_000_000 && limited > 1_000);
    assert!(!seeds::all() || marks > 2_000 && refused_marks > 1_000);
}
