//! The oracle over whole streams: 400 of 25 frames in each test.

use compare::model::lifts;
use compare::{Frames, all_same, seeds};
use oracle::{Oracle, Pushed, amended};
use std::collections::BTreeMap;

/// A refused frame, or one at which the Rust panics, counts as never sent.
#[test]
#[cfg_attr(no_sources, ignore = "Rust sources not at hand")]
fn refused_frames_leave_no_trace() {
    let mut outcomes = BTreeMap::new();
    for seed in seeds!(0..400) {
        let mut frames = Frames::new(seed, 200);
        let (mut all, mut accepted) = (Oracle::new(), Oracle::new());
        let (mut of_all, mut of_accepted) = (Vec::new(), Vec::new());
        for _ in 0..25 {
            let frame = frames.next_frame();
            let outcome = match all.push(&frame) {
                Pushed::Ready(ready) => {
                    of_all.extend(ready);
                    let Pushed::Ready(ready) = accepted.push(&frame) else {
                        panic!("seed {seed}: a refusal left a trace");
                    };
                    of_accepted.extend(ready);
                    "ready".to_string()
                }
                Pushed::Refused(refusal) => refusal.number.to_string(),
                Pushed::Panicked => "panicked".to_string(),
            };
            *outcomes.entry(outcome).or_insert(0) += 1;
        }
        of_all.extend(all.flush().unwrap_or_default());
        of_accepted.extend(accepted.flush().unwrap_or_default());
        assert_eq!(of_all.len(), of_accepted.len(), "seed {seed}");
        assert!(
            of_all.iter().zip(&of_accepted).all(|(a, b)| all_same(a, b)),
            "seed {seed}"
        );
    }
    assert!(!seeds::all() || outcomes.len() == 8, "{outcomes:?}");
}

/// Frames that the amended Rust takes as the unchanged one does, those that lift a channel, and of
/// these those at which the unchanged one panics.
#[derive(Debug, Default)]
struct Alike {
    alike: u64,
    lifted: u64,
    panicked: u64,
}

/// With rows in store the Rust panics only at a frame that lifts a channel, and the amended Rust
/// never. Where nothing is lifted and every send is zero, the two are the same in answers, samples
/// and state. A frame that lifts a channel is left out of the stream.
#[test]
#[cfg_attr(no_sources, ignore = "Rust sources not at hand")]
fn amended_is_the_rust_where_nothing_is_lifted() {
    let mut tally = Alike::default();
    for seed in seeds!(0..400) {
        for mut frames in [Frames::new(seed, 200), Frames::lifting(seed, 200)] {
            let (mut oracle, mut amended) = (Oracle::new(), amended::Oracle::new());
            frames.set_sends(false);
            for _ in 0..25 {
                let frame = frames.next_frame();
                let state = oracle.state();
                oracle.store_debug_rows(4);
                amended.store_debug_rows(4);
                let pushed = [oracle.push(&frame), amended.push(&frame)];
                assert_ne!(pushed[1], Pushed::Panicked);
                if lifts(&state.metadata, &frame.applied()) {
                    tally.lifted += 1;
                    tally.panicked += u64::from(pushed[0] == Pushed::Panicked);
                    oracle = Oracle::in_state(&state);
                    amended = amended::Oracle::in_state(&state);
                } else {
                    tally.alike += u64::from(matches!(pushed[0], Pushed::Ready(_)));
                    // As text all NaNs are equal.
                    let [a, b] = pushed.map(|pushed| format!("{pushed:?}"));
                    assert_eq!(a, b);
                    let [a, b] = [oracle.state(), amended.state()].map(|s| format!("{s:?}"));
                    assert_eq!(a, b);
                }
            }
        }
    }
    println!("{tally:?}");
    let Alike {
        alike,
        lifted,
        panicked,
    } = tally;
    assert!(!seeds::all() || alike > 8_000 && panicked > 500 && lifted > panicked + 500);
}
