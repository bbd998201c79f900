//! Document 01's cases that the Rust alone can run, and the oracle's own rules: a refused frame
//! counts as never sent, a panic is an outcome.

use oracle::frame::{Block, Element, Frame, Object, Update};
use oracle::{Oracle, Pushed, Refusal, amended};

const CENTER: u8 = 2;
const LFE: u8 = 3;
const REAR_CENTER: u8 = 6;
const LFE2: u8 = 17;

/// Every sample is 0.5.
fn frame(samples: usize, beds: &[u8], objects: usize, updates: Vec<Update>) -> Frame {
    Frame {
        rate: 48_000,
        samples,
        beds: beds.to_vec(),
        objects,
        pcm: vec![0.5; (beds.len() + objects) * samples],
        updates,
    }
}

/// An update without elements: each bed is an object, and `dynamic` more.
fn update(offset: u16, beds: &[u8], dynamic: u8) -> Update {
    let bed_or_isf_objects = beds.len() as u8;
    Update {
        offset,
        objects: bed_or_isf_objects + dynamic,
        bed_or_isf_objects,
        beds: beds.to_vec(),
        elements: Vec::new(),
    }
}

fn refused(number: u8, first: u64, second: u64) -> Pushed {
    Pushed::Refused(Refusal {
        number,
        counts: [first, second],
    })
}

fn ready(pushed: Pushed) -> Vec<Vec<f32>> {
    match pushed {
        Pushed::Ready(channels) => channels,
        other => panic!("{other:?}"),
    }
}

fn lengths(channels: &[Vec<f32>]) -> Vec<usize> {
    channels.iter().map(Vec::len).collect()
}

#[test]
#[cfg_attr(no_sources, ignore = "Rust sources not at hand")]
fn a_hundred_samples_are_64_ready_and_36_flushed() {
    let mut oracle = Oracle::new();
    let input = frame(100, &[CENTER], 0, vec![update(0, &[CENTER], 0)]);
    let channels = ready(oracle.push(&input));
    assert_eq!(lengths(&channels), [64; 12]);
    assert_eq!(channels[2], [0.5 * 0.707; 64]);
    assert_eq!(lengths(&oracle.flush().unwrap()), [36; 12]);
    assert_eq!(oracle.flush(), None);
    oracle.reset();
    assert_eq!(oracle.state(), Oracle::new().state());
}

#[test]
#[cfg_attr(no_sources, ignore = "Rust sources not at hand")]
fn refusals_give_their_number_and_counts() {
    let mut oracle = Oracle::new();
    assert_eq!(
        oracle.push(&frame(1, &[CENTER], 0, vec![])),
        refused(10, 0, 0)
    );
    let few = frame(1, &[CENTER], 1, vec![update(0, &[CENTER], 2)]);
    assert_eq!(oracle.push(&few), refused(11, 2, 1));
    let empty = frame(0, &[CENTER], 0, vec![update(0, &[CENTER], 0)]);
    assert_eq!(oracle.push(&empty), refused(12, 0, 0));
    // The two LFE codes match each other: both count as wanted.
    let no_bass = frame(1, &[CENTER], 0, vec![update(0, &[LFE, CENTER, LFE2], 0)]);
    assert_eq!(oracle.push(&no_bass), refused(13, 2, 0));
    let rear = frame(1, &[REAR_CENTER], 0, vec![update(0, &[REAR_CENTER], 0)]);
    assert_eq!(oracle.push(&rear), refused(14, 6, 0));

    ready(oracle.push(&frame(1, &[CENTER], 0, vec![update(0, &[CENTER], 0)])));
    let rate = Frame {
        rate: 44_100,
        ..frame(1, &[CENTER], 0, vec![])
    };
    assert_eq!(oracle.push(&rate), refused(9, 48_000, 44_100));
    assert_eq!(
        oracle.push(&frame(1, &[CENTER], 3, vec![])),
        refused(11, 0, 3)
    );
    // In time: 11 at sample 2 comes before 13 at sample 3.
    let later = vec![update(3, &[LFE], 0), update(2, &[CENTER], 1)];
    assert_eq!(
        oracle.push(&frame(4, &[CENTER], 0, later)),
        refused(11, 1, 0)
    );
}

#[test]
#[cfg_attr(no_sources, ignore = "Rust sources not at hand")]
fn a_refused_frame_leaves_no_trace() {
    let good = || frame(100, &[CENTER], 1, vec![update(0, &[CENTER], 1)]);
    let refusals = [
        Frame {
            rate: 44_100,
            ..frame(1, &[CENTER], 1, vec![])
        },
        frame(70, &[CENTER], 2, vec![update(0, &[CENTER], 1)]),
        frame(0, &[CENTER], 1, vec![update(0, &[CENTER], 1)]),
        frame(70, &[CENTER], 1, vec![update(65, &[LFE], 1)]),
        frame(
            70,
            &[CENTER, REAR_CENTER],
            1,
            vec![update(65, &[REAR_CENTER], 1)],
        ),
    ];
    let (mut plain, mut disturbed) = (Oracle::new(), Oracle::new());
    for refusal in &refusals {
        assert!(matches!(disturbed.push(refusal), Pushed::Refused(_)));
    }
    for _ in 0..3 {
        assert_eq!(disturbed.state(), plain.state());
        assert_eq!(disturbed.push(&good()), plain.push(&good()));
        for refusal in &refusals {
            assert!(matches!(disturbed.push(refusal), Pushed::Refused(_)));
        }
    }
    assert_eq!(disturbed.flush(), plain.flush());
}

/// An update at the frame's end is dropped: 64 silent samples are ready and no row is.
#[test]
#[cfg_attr(no_sources, ignore = "Rust sources not at hand")]
fn leading_silence_panics_unless_rows_are_in_store() {
    let silent = frame(64, &[CENTER], 0, vec![update(64, &[CENTER], 0)]);
    let mut oracle = Oracle::new();
    let before = oracle.state();
    assert_eq!(oracle.push(&silent), Pushed::Panicked);
    assert_eq!(oracle.state(), before);
    oracle.store_debug_rows(1);
    assert_eq!(oracle.push(&silent), Pushed::Ready(vec![vec![0.0; 64]; 12]));
}

/// An update of these objects, each in the second of two blocks, due at timecode `due`.
fn moved(bed_or_isf_objects: u8, due: i64, ramp: i64, objects: &[Object]) -> Update {
    let blocks = [(0, 0), (due - 1, ramp)].map(|(offset, ramp)| Block { offset, ramp });
    let pair = |&object: &Object| vec![Object::default(), object];
    Update {
        offset: 0,
        objects: objects.len() as u8,
        bed_or_isf_objects,
        beds: Vec::new(),
        elements: vec![Element {
            blocks: blocks.to_vec(),
            objects: objects.iter().map(pair).collect(),
        }],
    }
}

fn at(position: [f32; 3]) -> Object {
    Object {
        position_valid: true,
        position: Some(position),
        ..Object::default()
    }
}

/// Document 02's R-1, a rise: the second update keeps an element that has no flag for its dynamic
/// object. Amended, the element starts afresh: an absent position is the origin.
#[test]
#[cfg_attr(no_sources, ignore = "Rust sources not at hand")]
fn a_kept_element_without_flags_panics_when_used() {
    let absent = Object {
        position: None,
        ..at([0.0; 3])
    };
    let bed = frame(1, &[CENTER], 0, vec![moved(1, 0, 0, &[at([0.5; 3])])]);
    let lifted = frame(1, &[], 1, vec![moved(0, 0, 0, &[absent])]);
    let mut oracle = Oracle::new();
    ready(oracle.push(&bed));
    let before = oracle.state();
    assert_eq!(oracle.push(&lifted), Pushed::Panicked);
    assert_eq!(oracle.state(), before);

    let mut amended = amended::Oracle::in_state(&before);
    ready(amended.push(&lifted));
    let source = amended.state().metadata.dynamic_sources[0];
    assert_eq!(source.cubical_position, [-1.0, 0.0, 1.0]);
    assert!(source.position_valid);
}

/// R-1, a fall: the Rust keeps flag, target and ramp of the object that is gone, and moves the one
/// that is left. Amended, no object moves before its block is due.
#[test]
#[cfg_attr(no_sources, ignore = "Rust sources not at hand")]
fn a_fall_keeps_old_flags() {
    let silent = Object::default();
    let two = frame(1, &[], 2, vec![moved(0, 0, 129, &[at([1.0; 3]), silent])]);
    let one = frame(1, &[], 1, vec![moved(1, 6, 0, &[silent; 2])]);
    let (mut oracle, mut amended) = (Oracle::new(), amended::Oracle::new());
    assert_eq!(oracle.push(&two), amended.push(&two));
    assert_eq!(oracle.state(), amended.state());
    ready(oracle.push(&one));
    ready(amended.push(&one));
    let [kept, afresh] = [oracle.state(), amended.state()].map(|state| {
        let metadata = state.metadata;
        let element = &metadata.elements[0];
        assert_eq!(metadata.dynamic_sources.len(), 1);
        (
            metadata.dynamic_sources[0].cubical_position,
            element.update_now.clone(),
            element.future.clone(),
            element.future_distance,
        )
    });
    let target = [1.0, 1.0, -1.0];
    assert_eq!(kept, (target, vec![true, false], vec![target, [0.0; 3]], 0));
    assert_eq!(afresh, ([0.0; 3], vec![false], vec![[0.0; 3]], 0));
}

/// Document 02's R-3: what an object adds to the bass feed, as it enters the low-pass: sample ×
/// (gain × send), behind the bed's sample × (gain × 0.31622776), whatever its size. The unchanged
/// Rust adds nothing.
#[test]
#[cfg_attr(no_sources, ignore = "Rust sources not at hand")]
fn a_send_goes_to_the_bass_feed() {
    let fed = |send: f32, gain: f32, size: f32| -> [f32; 2] {
        let object = Object {
            send,
            gain: Some(gain),
            size: Some(size),
            ..at([0.5; 3])
        };
        let bed = Object {
            send: 1.0,
            ..Object::default()
        };
        let mut update = moved(1, 0, 0, &[bed, object]);
        update.beds = vec![LFE];
        let frame = frame(1, &[LFE], 1, vec![update]);
        let (mut oracle, mut amended) = (Oracle::new(), amended::Oracle::new());
        ready(oracle.push(&frame));
        ready(amended.push(&frame));
        // x1 of the filter is the last sample that it was fed.
        [oracle.state(), amended.state()].map(|state| state.lfe_lowpass.unwrap()[5])
    };
    let bed = 0.5 * (0.707 * 0.316_227_76f32);
    for (send, gain, size) in [(1.0, 1.0, 0.0), (0.3, 0.7, 1.0), (1e-45, 8.0, 0.5)] {
        assert_eq!(fed(send, gain, size), [bed, bed + 0.5 * (gain * send)]);
    }
    assert_eq!(fed(1.0, 0.0, 1.0), [bed; 2]);
    assert_eq!(fed(-0.0, 1.0, 1.0), [bed; 2]);
}

/// an object starts with send 0, keeps its send until a block is applied, which sets it, and
/// starts again where the number of objects changes.
#[test]
#[cfg_attr(no_sources, ignore = "Rust sources not at hand")]
fn a_block_that_is_applied_sets_the_send() {
    let send = |amended: &amended::Oracle| amended.state().metadata.dynamic_sources[0].send;
    let of = |send: f32| Object {
        send,
        ..Object::default()
    };
    let mut amended = amended::Oracle::new();
    let mut push = |updates: Vec<Update>, objects: usize| {
        ready(amended.push(&frame(1, &[], objects, updates)));
        send(&amended)
    };
    // Due at timecode 1: not yet.
    assert_eq!(push(vec![moved(0, 1, 0, &[of(0.5)])], 1), 0.0);
    assert_eq!(push(vec![moved(0, 0, 0, &[of(0.5)])], 1), 0.5);
    assert_eq!(push(vec![], 1), 0.5);
    assert_eq!(push(vec![moved(0, 1, 0, &[of(0.25)])], 1), 0.5);
    assert_eq!(push(vec![moved(0, 0, 0, &[of(0.0)])], 1), 0.0);
    assert_eq!(push(vec![moved(0, 0, 0, &[of(1.0)])], 1), 1.0);
    assert_eq!(push(vec![moved(0, 1, 0, &[of(1.0); 2])], 2), 0.0);
}

#[test]
#[cfg_attr(no_sources, ignore = "Rust sources not at hand")]
fn debug_rows_tell_each_slot() {
    let mut oracle = Oracle::new();
    let input = frame(100, &[LFE], 1, vec![update(0, &[LFE], 1)]);
    let (_, slots) = oracle.push_with_debug(&input);
    assert_eq!(slots.len(), 1);
    let [bass, object] = slots[0].sources.as_slice() else {
        panic!()
    };
    assert_eq!(
        (bass.static_channel, bass.lfe, bass.gain),
        (Some(LFE), true, 0.707)
    );
    assert_eq!(
        (object.static_channel, object.position, object.gain),
        (None, [0.0; 3], 0.707)
    );
}
