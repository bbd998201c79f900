//! The end of the stream, 2^40 samples.

use compare::calls::Call;
use compare::host::Host;
use compare::model::{Model, Outcome, STREAM_END};
use compare::{Frames, seeds};

/// Positions are told apart by their distances alone: a run that begins `before` samples later
/// gives the same samples, up to 2^40 exactly, where 4 refuses.
#[test]
#[cfg_attr(no_sources, ignore = "Rust sources not at hand")]
fn the_end_of_the_stream() {
    let mut ends = 0;
    for seed in seeds!(0..200) {
        let mut host = Host::new(256);
        let mut frames = Frames::new(seed, 256);
        let mut model = Model::new();
        for k in 0..4 {
            host.push(
                &mut model,
                &Call::from(&frames.next_frame()),
                &format!("{seed} {k}"),
            );
        }
        host.move_on(&mut model, 200 + 3 * (seed % 1_000));
        for k in 4..20 {
            let name = format!("{seed} {k}");
            let outcome = host.push(&mut model, &Call::from(&frames.next_frame()), &name);
            ends += u32::from(outcome == Outcome::Refused([4, 0, 0]));
        }
        // One sample more than are left; then exactly as many.
        let left = STREAM_END - model.before - model.state().stream_sample_offset as u64;
        if left < 255 {
            let mut frame = frames.next_frame();
            frame.updates.clear();
            let mut exactly = |samples: u64| {
                frame.samples = samples as usize;
                frame.pcm = vec![0.25; (frame.beds.len() + frame.objects) * frame.samples];
                host.push(
                    &mut model,
                    &Call::from(&frame),
                    &format!("{seed}, {samples} samples"),
                )
            };
            assert_eq!(exactly(left + 1), Outcome::Refused([4, 0, 0]));
            exactly(left);
        }
    }
    assert!(!seeds::all() || ends > 100, "{ends}");
}
