//! The low-pass: its coefficients at seven rates, the ends with them; runs of 1,000,000 samples of
//! each kind at each rate, in pieces of uneven length, every sample and the whole memory after
//! every piece; and 1,000 filters and runs of any floats.

use compare::{Drawn, Generator, all_same, drawn, probe::lowpass, seeds};
use oracle::leaf;

const RATES: [u32; 7] = [8_000, 32_000, 44_100, 48_000, 88_200, 96_000, 192_000];
const SAMPLES: usize = 1_000_000;

/// Both filters, from new, over the same samples. Gives the largest sizes in and out.
fn run(
    rate: u32,
    inputs: &mut Generator,
    mut sample: impl FnMut(usize, &mut Generator) -> f32,
) -> (f32, f32) {
    let (mut ours, mut theirs) = (lowpass::new(rate), leaf::lowpass_new(rate));
    let (mut most_in, mut most_out) = (0f32, 0f32);
    let mut at = 0;
    while at < SAMPLES {
        let length = (inputs.below(1_537) as usize).min(SAMPLES - at);
        let mut expected: Vec<f32> = (at..at + length).map(|i| sample(i, inputs)).collect();
        let mut found = expected.clone();
        most_in = expected.iter().fold(most_in, |m, x| m.max(x.abs()));
        leaf::lowpass_process_in_place(&mut theirs, &mut expected);
        lowpass::process_in_place(&mut ours, &mut found);
        most_out = found.iter().fold(most_out, |m, y| m.max(y.abs()));
        assert!(all_same(&found, &expected), "rate {rate}, piece at {at}");
        assert!(all_same(&ours, &theirs), "rate {rate}, memory after {at}");
        at += length;
    }
    (most_in, most_out)
}

/// The same at all rates, with the bound of `lowpass-twice`.
fn bounded(mut inputs: Drawn, mut sample: impl FnMut(usize, &mut Generator) -> f32) {
    for rate in RATES {
        let (most_in, most_out) = run(rate, &mut inputs, &mut sample);
        assert!(most_out <= 2.0 * most_in, "{most_in} gave {most_out}");
    }
}

#[test]
#[cfg_attr(no_sources, ignore = "Rust sources not at hand")]
fn new_is_the_same() {
    for rate in RATES {
        let (found, expected) = (lowpass::new(rate), leaf::lowpass_new(rate));
        assert!(all_same(&found, &expected), "{rate}: {found:?}");
    }
}

#[test]
#[cfg_attr(no_sources, ignore = "Rust sources not at hand")]
fn samples_in_range_are_filtered_the_same() {
    bounded(drawn!(1), |_, inputs| inputs.between(-16.0, 16.0));
}

#[test]
#[cfg_attr(no_sources, ignore = "Rust sources not at hand")]
fn sums_are_filtered_the_same() {
    bounded(drawn!(2), |_, inputs| inputs.between(-4096.0, 4096.0));
}

#[test]
#[cfg_attr(no_sources, ignore = "Rust sources not at hand")]
fn the_largest_sizes_are_filtered_the_same() {
    // both signs in stretches near the cut-off, where the response is largest
    bounded(
        drawn!(3),
        |i, _| {
            if i / 190 % 2 == 0 { 4096.0 } else { -4096.0 }
        },
    );
}

#[test]
#[cfg_attr(no_sources, ignore = "Rust sources not at hand")]
fn subnormals_are_filtered_the_same() {
    let mut inputs = drawn!(4);
    for rate in RATES {
        run(rate, &mut inputs, |_, inputs| {
            f32::from_bits((inputs.bits() as u32) & 0x80ff_ffff)
        });
    }
}

#[test]
#[cfg_attr(no_sources, ignore = "Rust sources not at hand")]
fn an_impulse_is_filtered_the_same() {
    bounded(drawn!(5), |i, _| if i == 0 { 16.0 } else { 0.0 });
}

#[test]
#[cfg_attr(no_sources, ignore = "Rust sources not at hand")]
fn a_constant_is_filtered_the_same() {
    let mut inputs = drawn!(6);
    for value in [1.0, -0.31622776, 4096.0, f32::MIN_POSITIVE, 1e-40] {
        for rate in RATES {
            run(rate, &mut inputs, |_, _| value);
        }
    }
}

#[test]
#[cfg_attr(no_sources, ignore = "Rust sources not at hand")]
fn any_floats_are_filtered_the_same() {
    // new filters often: one NaN or infinity stays in the memory
    for seed in seeds!(0..1_000) {
        let mut inputs = Generator::new(seed);
        let mut ours: [f32; 9] = std::array::from_fn(|_| inputs.near(-2.0, 2.0));
        let mut theirs = ours;
        let mut expected: Vec<f32> = (0..64).map(|_| inputs.near(-1.0, 1.0)).collect();
        let mut found = expected.clone();
        leaf::lowpass_process_in_place(&mut theirs, &mut expected);
        lowpass::process_in_place(&mut ours, &mut found);
        assert!(all_same(&found, &expected), "seed {seed}");
        assert!(all_same(&ours, &theirs), "seed {seed}");
    }
}
