//! Document 01, "Listening positions and edges", and document 02's rates and lifted channel: each
//! case on the entries, and on the Rust where its sources are at hand; both must give what the
//! document says.

use compare::calls::{Call, Step, bed_frame};
use compare::entry::{self, Answer};
use compare::floats;
use compare::host::Host;
use compare::model::{Model, Outcome};
use compare::probe::{limiter, panning, roots};
use oracle::frame::{Block, Element, Frame, Object, Update};
use oracle::reading::source;
use oracle::{exact, leaf};

/// What a document says of a call.
#[derive(Clone, Copy, Debug, PartialEq)]
enum Said {
    /// So many samples.
    Ready(usize),
    Refused(u32),
    Nothing,
}

fn said(answer: Answer) -> Said {
    match answer.kind {
        0 => Said::Ready(answer.ready),
        1 => Said::Refused(answer.number),
        2 => Said::Nothing,
        kind => panic!("kind {kind}"),
    }
}

/// The entries, then the Rust beside the entries, bit for bit.
fn both_say(stride: usize, list: &[(Step, Said)]) {
    let mut host = Host::new(stride);
    for (k, (step, expected)) in list.iter().enumerate() {
        let answer = step.call(&mut host.state, &mut host.out, stride as u32);
        assert_eq!(said(answer), *expected, "call {k}");
    }
    if cfg!(no_sources) {
        return;
    }
    let (mut host, mut model) = (Host::new(stride), Model::new());
    for (k, (step, expected)) in list.iter().enumerate() {
        let outcome = host.step(&mut model, step, &format!("call {k}"));
        assert_eq!(said(outcome.answer()), *expected, "call {k}, the Rust");
    }
}

fn push(call: Call) -> Step {
    Step::Push(call)
}

/// "100 samples: 64 ready; flush gives 36, a second flush none."
#[test]
fn a_hundred_samples() {
    both_say(
        1_536,
        &[
            (push(bed_frame(100)), Said::Ready(64)),
            (Step::Flush, Said::Ready(36)),
            (Step::Flush, Said::Nothing),
        ],
    );
}

/// "At stride 1,536, 1,536 samples accepted, 1,537 refused."
#[test]
fn the_most_samples() {
    both_say(
        1_536,
        &[
            (push(bed_frame(1_536)), Said::Ready(1_536)),
            (push(bed_frame(1_537)), Said::Refused(2)),
        ],
    );
}

/// A bed with a gain of these bits, due at the second slot.
fn bed_with_gain(bits: u32) -> Call {
    let mut call = bed_frame(128);
    call.meta[7] = 1;
    let mut records = [0; 120];
    records[..2].copy_from_slice(&[2, 1]);
    records[40] = 3;
    records[80] = 4;
    records[82] = 4;
    records[84..88].copy_from_slice(&bits.to_le_bytes());
    records[112..116].copy_from_slice(&1f32.to_le_bytes());
    call.meta.extend(records);
    call
}

/// "Gain 8 accepted, the next f32 refused."
#[test]
fn the_largest_gain() {
    let largest = 8f32.to_bits();
    both_say(
        128,
        &[
            (push(bed_with_gain(largest + 1)), Said::Refused(6)),
            (push(bed_with_gain(largest)), Said::Ready(128)),
            (push(bed_with_gain(largest + 1)), Said::Refused(6)),
        ],
    );
}

/// The rates at both ends are accepted, their neighbours outside are not; and so in a block.
#[test]
fn the_ends_of_the_rates() {
    for (rate, expected) in [
        (7_999, Said::Refused(3)),
        (8_000, Said::Ready(64)),
        (192_000, Said::Ready(64)),
        (192_001, Said::Refused(3)),
    ] {
        let call = Call {
            rate,
            ..bed_frame(64)
        };
        both_say(64, &[(push(call), expected)]);
        let mut host = Host::new(64);
        host.state[..4].copy_from_slice(&rate.to_le_bytes());
        let in_block = said(entry::flush(&mut host.state, &mut host.out, 64));
        let expected = match expected {
            Said::Ready(_) => Said::Nothing,
            _ => Said::Refused(1),
        };
        assert_eq!(in_block, expected, "{rate} in a block");
    }
}

/// What a sample of 1 at the position adds to each channel, by the Rust.
fn rust_coefficients(position: [f32; 3], gain: f32) -> Vec<f32> {
    let mut channels = vec![vec![0.0]; 12];
    let source = source(position, gain, 0.0);
    leaf::render_object_timeslot_to_714(&[1.0], &mut channels, 0, &source);
    channels.concat()
}

fn coefficients(position: [f32; 3], gain: f32) -> Vec<f32> {
    let mut channels = vec![0.0; 12];
    for (channel, coefficient) in panning::pan(position, gain, 0.0).terms() {
        channels[channel] += coefficient;
    }
    channels
}

/// The listening positions, as panned: the coefficient, and the channels that have it.
#[test]
fn listening_positions() {
    let half = 0.5f32.sqrt();
    let nan = f32::NAN;
    let cases: [([f32; 3], f32, f32, &[usize]); 7] = [
        ([0.0, 0.0, 1.0], 1.0, 1.0, &[2]),
        ([0.0, 0.0, 1.0], 0.25, 0.5, &[2]),
        ([0.0, 0.0, -1.0], 1.0, half, &[4, 5]),
        ([0.0, 0.5, -1.0], 1.0, 0.5, &[4, 5, 10, 11]),
        ([0.0, 2.0, -1.0], 1.0, half, &[10, 11]),
        ([nan, nan, nan], 1.0, 1.0, &[4]),
        ([0.0, 0.0, 1.0], 0.0, 0.0, &[]),
    ];
    for (position, gain, coefficient, channels) in cases {
        let mut expected = vec![0.0; 12];
        channels.iter().for_each(|&c| expected[c] = coefficient);
        assert_eq!(coefficients(position, gain), expected, "{position:?}");
        if !cfg!(no_sources) {
            assert_eq!(rust_coefficients(position, gain), expected, "{position:?}");
        }
    }
}

/// "Block offset 0: not applied at timecode 0, applied at 64": a bed's first gain, then its block's.
#[test]
fn a_block_at_offset_0() {
    let call = bed_with_gain(1f32.to_bits());
    let mut expected = vec![0.5 * 0.707; 64];
    expected.extend([0.5; 64]);
    let mut host = Host::new(128);
    let answer = entry::push(&mut host.state, &call, &mut host.out, 128);
    assert_eq!(said(answer), Said::Ready(128));
    let found = floats(&host.out[4 * 2 * 128..][..4 * 128]);
    assert_eq!(found, expected);
    if !cfg!(no_sources) {
        let Outcome::Ready(channels, _) = Model::new().push(&call, 128) else {
            panic!("refused");
        };
        assert_eq!(channels[2], expected);
    }
}

/// 64 samples, a half each, of one channel: a bed's, or a dynamic object's. Its object is due at
/// once, with that position.
fn of_one_channel(dynamic: bool, position: Option<[f32; 3]>) -> Call {
    let object = Object {
        position_valid: true,
        position,
        ..Object::default()
    };
    let blocks = [0, -1].map(|offset| Block { offset, ramp: 0 });
    let update = Update {
        offset: 0,
        objects: 1,
        bed_or_isf_objects: u8::from(!dynamic),
        beds: vec![2; usize::from(!dynamic)],
        elements: vec![Element {
            blocks: blocks.to_vec(),
            objects: vec![vec![Object::default(), object]],
        }],
    };
    Call::from(&Frame {
        rate: 48_000,
        samples: 64,
        beds: update.beds.clone(),
        objects: usize::from(dynamic),
        pcm: vec![0.5; 64],
        updates: vec![update],
    })
}

/// a bed channel becomes an object, and a bed channel again, and is accepted. It starts afresh:
/// without a position it is at the origin, front left, and not where the bed's object was said to be.
#[test]
fn a_lifted_channel() {
    let (bed, object) = (
        of_one_channel(false, Some([0.5; 3])),
        of_one_channel(true, None),
    );
    let calls = [&bed, &object, &bed, &object];
    let list = calls.map(|call| (push(call.clone()), Said::Ready(64)));
    both_say(64, &list);
    let mut host = Host::new(64);
    for (call, heard, sample) in [(&bed, 2, 0.707), (&object, 0, 0.707f32.sqrt())] {
        entry::push(&mut host.state, call, &mut host.out, 64);
        let found = floats(&host.out);
        let mut expected = [[0.0; 64]; 12];
        expected[heard] = [0.5 * sample; 64];
        assert_eq!(found, expected.concat());
    }
}

/// "Peak 1, gain 1: unchanged. Peak 2, gain 1: scaled by 0.9 / 2."
#[test]
fn peaks() {
    for (peak, scale) in [(1.0, 1.0), (2.0, 0.9f32 / 2.0)] {
        let mut places = [0.25; 768];
        places[700] = -peak;
        let expected = places.map(|x| x * scale);
        let mut channels: Vec<Vec<f32>> = places.chunks(64).map(<[f32]>::to_vec).collect();
        let (_, limited) = limiter::limited(1.0, &places, 64, 48_000);
        assert_eq!(limited, expected, "peak {peak}");
        if !cfg!(no_sources) {
            leaf::apply_output_limiter_block(&mut channels, &mut 1.0, 48_000, 0, 64);
            assert_eq!(channels.concat(), expected, "peak {peak}");
        }
    }
}

/// "Fourth root of 16: 2."
#[test]
fn the_fourth_root_of_16() {
    assert_eq!(roots::fourth_root(16.0), 2.0);
    assert_eq!(exact::root(4, 16.0), 2.0);
}
