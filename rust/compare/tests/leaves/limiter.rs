//! The limiter against the Rust's own, bit for bit: runs of 2,000 blocks of drawn, extreme and
//! constant samples at seven rates, the ends with them, whole blocks and shorter last ones, at any
//! place of the output; the peak at every length up to 200; scaling.

use compare::probe::limiter;
use compare::{all_same, drawn, same};
use oracle::leaf;

const RATES: [u32; 7] = [8_000, 32_000, 44_100, 48_000, 88_200, 96_000, 192_000];
const BLOCKS: usize = 2_000;

/// One block's samples, channel after channel, 64 places each.
type Block = [f32; 768];

/// Runs both over the blocks that `next` gives and compares every place and every gain.
fn run(rate: u32, mut next: impl FnMut(usize) -> (Block, usize)) {
    let (mut ours, mut theirs) = (1.0f32, 1.0f32);
    for index in 0..BLOCKS {
        let (block, samples) = next(index);
        let mut channels: Vec<Vec<f32>> = block.chunks(64).map(|c| c[..samples].to_vec()).collect();
        leaf::apply_output_limiter_block(&mut channels, &mut theirs, rate, 0, samples);
        let (next, places) = limiter::limited(ours, &block, samples, rate);
        ours = next;
        assert!(
            same(ours, theirs),
            "gain of block {index} at {rate}: {ours:?} {theirs:?}"
        );
        for (c, channel) in channels.iter().enumerate() {
            let at = 64 * c;
            assert!(
                all_same(&places[at..][..samples], channel),
                "channel {c} of block {index} at {rate}"
            );
            assert!(
                all_same(
                    &places[at + samples..at + 64],
                    &block[at + samples..at + 64]
                ),
                "unused places of channel {c} of block {index} at {rate}"
            );
        }
    }
}

#[test]
#[cfg_attr(no_sources, ignore = "Rust sources not at hand")]
fn drawn_samples() {
    let mut inputs = drawn!(3);
    for rate in RATES {
        run(rate, |_| {
            // Mostly quiet, with bursts, so that the gain falls and grows again.
            let size = if inputs.chance(20) {
                inputs.between(1.0, 40.0)
            } else {
                0.9
            };
            let block = [(); 768].map(|()| inputs.between(-size, size));
            let samples = if inputs.chance(10) {
                inputs.below(65) as usize
            } else {
                64
            };
            (block, samples)
        });
    }
}

#[test]
#[cfg_attr(no_sources, ignore = "Rust sources not at hand")]
fn extreme_samples() {
    let mut inputs = drawn!(4);
    for rate in RATES {
        run(rate, |_| {
            let block = [(); 768].map(|()| {
                if inputs.chance(3) {
                    0.0
                } else {
                    inputs.float()
                }
            });
            (block, inputs.below(65) as usize)
        });
    }
}

#[test]
#[cfg_attr(no_sources, ignore = "Rust sources not at hand")]
fn constant_samples() {
    for rate in RATES {
        for value in [
            0.0,
            -0.0,
            1.0,
            -1.0,
            2.0,
            16.0,
            1.0000001,
            0.99999994,
            f32::MAX,
            f32::INFINITY,
            f32::NAN,
        ] {
            // Loud for a while, then silent for as long.
            run(rate, |index| {
                ([if index / 300 % 2 == 0 { value } else { 0.0 }; 768], 64)
            });
        }
    }
}

#[test]
#[cfg_attr(no_sources, ignore = "Rust sources not at hand")]
fn peaks_and_scaling() {
    let mut inputs = drawn!(5);
    for length in 0..=200 {
        for turn in 0..100 {
            let samples: Vec<f32> = (0..length)
                .map(|_| {
                    if turn % 2 == 0 {
                        inputs.float()
                    } else {
                        inputs.between(-2.0, 2.0)
                    }
                })
                .collect();
            assert!(
                same(
                    limiter::max_abs_slice(&samples),
                    leaf::max_abs_slice(&samples)
                ),
                "{samples:?}"
            );
            let gain = inputs.float();
            let ours = limiter::scale_slice_into(&samples, gain);
            let mut theirs = samples;
            leaf::scale_slice_in_place(&mut theirs, gain);
            assert!(all_same(&ours, &theirs), "scaling by {gain:?}");
        }
    }
}

/// From bytes to bytes: what is given out, and that nothing else of the output is touched.
#[test]
#[cfg_attr(no_sources, ignore = "Rust sources not at hand")]
fn from_places_to_output() {
    let mut inputs = drawn!(9);
    for rate in RATES {
        let (mut ours, mut theirs) = (1.0f32, 1.0f32);
        for index in 0..BLOCKS {
            let words = [(); 768].map(|()| {
                if index % 2 == 0 {
                    inputs.float()
                } else {
                    inputs.between(-2.0, 2.0)
                }
            });
            let places = limiter::bytes(&words);
            let stride = 64 * (1 + inputs.below(4) as usize);
            let samples = if inputs.chance(4) {
                inputs.below(65) as usize
            } else {
                64
            };
            let ready = inputs.below((stride - samples + 1) as u64) as usize;
            let mut out = vec![0xa5u8; 48 * stride + inputs.below(9) as usize];
            let mut expected = out.clone();
            let mut channels: Vec<Vec<f32>> =
                words.chunks(64).map(|c| c[..samples].to_vec()).collect();
            leaf::apply_output_limiter_block(&mut channels, &mut theirs, rate, 0, samples);
            for (c, channel) in channels.iter().enumerate() {
                for (i, x) in channel.iter().enumerate() {
                    let bits = if x.is_nan() { 0x7fc0_0000 } else { x.to_bits() };
                    expected[4 * (c * stride + ready + i)..][..4]
                        .copy_from_slice(&bits.to_le_bytes());
                }
            }
            ours = limiter::apply_output_limiter_block(
                ours,
                &places,
                samples,
                rate,
                &mut out,
                4 * stride,
                4 * ready,
            );
            assert!(
                same(ours, theirs),
                "gain of block {index} at {rate}: {ours:?} {theirs:?}"
            );
            assert!(out == expected, "block {index} at {rate}");
        }
    }
}
