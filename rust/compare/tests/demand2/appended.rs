// SPDX-License-Identifier: Apache-2.0
//! Document 02's R-4: "an accepted push that completes no block then changes, among the places for
//! pending samples, only those right behind each channel's old ones, one for each sample brought; the
//! others keep their bytes." From blocks in range whose places have any bits, byte by byte; the new
//! samples are those that wait in the Rust.

use compare::block::PLACES;
use compare::calls::Call;
use compare::host::Host;
use compare::model::{Model, Outcome};
use compare::{Frames, Generator, ranges, same, seeds};

const ROW: usize = 256;

/// What the pushes come to.
#[derive(Debug, Default)]
struct Tally {
    pushes: u64,
    /// Those behind samples that wait, and those that fill the block but for one place.
    behind: u64,
    full: u64,
    /// Places that kept a NaN other than the one that is written.
    nans: u64,
    /// New samples other than a zero.
    sounds: u64,
}

fn word(bytes: &[u8], at: usize) -> u32 {
    u32::from_le_bytes(bytes[at..at + 4].try_into().unwrap())
}

impl Tally {
    /// The places of a block after a push of so many samples on `waiting`, which wait then in the
    /// Rust as `pending`.
    fn hold(&mut self, before: &[u8], after: &[u8], waiting: usize, pending: &[Vec<f32>]) {
        self.pushes += 1;
        self.behind += u64::from(waiting > 0);
        self.full += u64::from(pending[0].len() == 63);
        for (c, channel) in pending.iter().enumerate() {
            for i in 0..64 {
                let at = PLACES + ROW * c + 4 * i;
                let (old, new) = (word(before, at), word(after, at));
                if (waiting..channel.len()).contains(&i) {
                    let x = channel[i];
                    assert!(same(f32::from_bits(new), x), "place {i} of channel {c}");
                    assert!(!x.is_nan() || new == 0x7fc0_0000);
                    self.sounds += u64::from(x != 0.0);
                } else {
                    assert_eq!(old, new, "place {i} of channel {c}");
                    self.nans += u64::from(f32::from_bits(old).is_nan() && old != 0x7fc0_0000);
                }
            }
        }
    }
}

#[test]
#[cfg_attr(no_sources, ignore = "Rust sources not at hand")]
fn other_places_keep_their_bytes() {
    let mut tally = Tally::default();
    for seed in seeds!(0..6_000) {
        let mut host = Host::new(64);
        host.state = ranges::drawn(&mut Generator::new(seed));
        let mut model = Model::of_block(&host.state);
        let mut frames = Frames::after(&model.state(), seed, 64);
        for k in 0..4 {
            let waiting = model.state().limiter_pending[0].len();
            frames.set_most_samples(63u64.saturating_sub(waiting as u64).max(1));
            let call = Call::from(&frames.next_frame());
            let before = host.state.clone();
            let outcome = host.push(&mut model, &call, &format!("push {k}"));
            let Outcome::Ready(ready, _) = outcome else {
                continue;
            };
            if ready[0].is_empty() {
                let pending = model.state().limiter_pending;
                assert_eq!(pending[0].len(), waiting + call.samples as usize);
                tally.hold(&before, &host.state, waiting, &pending);
            }
        }
    }
    println!("{tally:?}");
    let found = [tally.behind, tally.full, tally.nans, tally.sounds];
    assert!(!seeds::all() || tally.pushes > 5_000 && found.iter().all(|&n| n > 500));
}
