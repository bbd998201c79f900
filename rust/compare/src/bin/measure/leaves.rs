//! Times of the leaves beside the Rust's.

use crate::times::{Ratio, least, rounds};
use compare::{Generator, probe};
use oracle::leaf;
use std::hint::black_box;
use std::time::{Duration, Instant};

const SECONDS: f64 = 0.5;

fn time(run: &mut dyn FnMut()) -> Duration {
    let start = Instant::now();
    run();
    start.elapsed()
}

fn compare_times(name: &str, mut rattle: impl FnMut(), mut rust: impl FnMut()) {
    let mut sides: [&mut dyn FnMut(); 2] = [&mut rattle, &mut rust];
    let times = rounds(2, SECONDS, |side| time(sides[side]));
    let [ours, theirs] = [0, 1].map(|side| least(&times[side]) * 1e6);
    let ratio = Ratio::new(&times[0], &times[1]);
    println!("{name}: Rattle {ours:.1} µs, Rust {theirs:.1} µs, ratio {ratio}");
}

/// Called, as the Rattle function is, and not inlined.
#[inline(never)]
fn to_bits(x: f32) -> u32 {
    x.to_bits()
}

/// A filter over 300 rows of 1,536 samples, the largest frame.
fn lowpass() {
    let mut inputs = Generator::new(2);
    let samples: Vec<f32> = (0..1_536).map(|_| inputs.between(-16.0, 16.0)).collect();
    let run = |filtered: fn(&mut [f32; 9], &mut [f32])| {
        let mut filter = probe::lowpass::new(48_000);
        let mut row = samples.clone();
        for _ in 0..300 {
            row.copy_from_slice(&samples);
            filtered(black_box(&mut filter), black_box(&mut row));
        }
    };
    compare_times(
        "lowpass, 460,800 samples",
        || run(probe::lowpass::process_in_place),
        || run(oracle::leaf::lowpass_process_in_place),
    );
}

/// Places at a cache line.
#[repr(align(64))]
struct Places([f32; 1_536]);

/// Rows of `length` samples, each mixed four times.
fn mix(rows: &[f32], length: usize, mix_segment: impl Fn(&[f32], &mut [f32], usize, f32)) {
    let mut places = Places([0.0; 1_536]);
    for row in rows.chunks(length) {
        for _ in 0..4 {
            mix_segment(row, black_box(&mut places.0), 0, 0.01);
        }
    }
}

/// Rows of 64 samples out of bytes.
fn read(bytes: &[u8], read_row: impl Fn(&[u8], &mut [f32])) {
    let mut places = Places([0.0; 1_536]);
    for pcm in bytes.chunks(256) {
        read_row(pcm, black_box(&mut places.0[..64]));
    }
}

fn mixing() {
    let mut inputs = Generator::new(4);
    let rows: Vec<f32> = (0..768_000).map(|_| inputs.between(-1.0, 1.0)).collect();
    for length in [64, 1_536] {
        compare_times(
            &format!("mix_segment, 3,072,000 samples in rows of {length}"),
            || mix(&rows, length, probe::mixing::mix_segment),
            || mix(&rows, length, mix_segment),
        );
    }
    let bytes: Vec<u8> = rows.iter().flat_map(|x| x.to_le_bytes()).collect();
    compare_times(
        "samples_pass and read_row, 768,000 samples in rows of 64",
        || read(&bytes, probe::mixing::read_row),
        || read(&bytes, read_row),
    );
}

#[inline(never)]
fn mix_segment(input: &[f32], output: &mut [f32], offset: usize, gain: f32) {
    oracle::leaf::mix_segment(input, output, offset, gain);
}

/// No function of the source: what a Rust host would write.
#[inline(never)]
fn read_row(pcm: &[u8], row: &mut [f32]) {
    let words = pcm.as_chunks().0;
    if words
        .iter()
        .all(|&word| f32::from_le_bytes(word).abs() <= 16.0)
    {
        for (x, &word) in row.iter_mut().zip(words) {
            *x = f32::from_le_bytes(word);
        }
    }
}

/// Objects of size 0 at random places above the floor, each panned and its corners mixed over a slot, as
/// `render` does, but for the hall, which `render` is handed and each call here makes.
fn panning() {
    let mut inputs = Generator::new(5);
    let samples: Vec<f32> = (0..64).map(|_| inputs.between(-1.0, 1.0)).collect();
    let mut coordinate = |low| inputs.between(low, 1.0);
    let places: Vec<_> = (0..20_000)
        .map(|_| [coordinate(-1.0), coordinate(0.0), coordinate(-1.0)])
        .collect();
    let mut output = vec![vec![0.0; 64]; 12];
    let mut mixed = output.clone();
    compare_times(
        "a hall made, pan and mix_segment, 20,000 slots of 64 samples",
        || {
            for &place in &places {
                let panned = probe::panning::pan(place, 0.7, 0.0);
                for (channel, gain) in panned.corners.into_iter().zip(panned.coefficients) {
                    probe::mixing::mix_segment(&samples, &mut mixed[channel], 0, gain);
                }
            }
        },
        || {
            for &place in &places {
                let source = oracle::reading::source(place, 0.7, 0.0);
                oracle::leaf::render_object_timeslot_to_714(&samples, &mut output, 0, &source);
            }
        },
    );
}

/// The same places, panned and no more, in each layout: with the hall that each call makes, and at gain
/// 0, where that is nearly all that it does.
fn panning_alone() {
    let mut inputs = Generator::new(5);
    let mut coordinate = |low| inputs.between(low, 1.0);
    let places: Vec<[f32; 3]> = (0..20_000)
        .map(|_| [coordinate(-1.0), coordinate(0.0), coordinate(-1.0)])
        .collect();
    let all = |layout: u32, gain: f32| {
        for &place in &places {
            black_box(probe::panning::pan_in(layout, place, gain, 0.0));
        }
    };
    let cases = (0..4).flat_map(|layout| [(layout, 0.7), (layout, 0.0)]);
    let cases: Vec<(u32, f32)> = cases.collect();
    let times = rounds(cases.len(), SECONDS, |case| {
        let (layout, gain) = cases[case];
        time(&mut || all(layout, gain))
    });
    let each = |case: usize| least(&times[case]) * 1e9 / places.len() as f64;
    for layout in 0..4 {
        let (with, without) = (each(2 * layout), each(2 * layout + 1));
        let pan = with - without;
        println!(
            "pan in layout {layout}: {with:.1} ns with its hall, {without:.1} at gain 0, {pan:.1} between"
        );
    }
}

const BLOCKS: usize = 10_000;

/// 10,000 blocks of 12 channels by 64 samples, from bytes to bytes and in place. In place each
/// block is copied first.
fn limiter(name: &str, inputs: &mut Generator, size: f32) {
    let block = [(); 768].map(|()| inputs.between(-size, size));
    let channels: Vec<Vec<f32>> = block.chunks(64).map(<[f32]>::to_vec).collect();
    let bytes = probe::limiter::bytes(&block);
    let mut out = [0u8; 3072];
    compare_times(
        &format!("{name}, {BLOCKS} blocks from bytes to bytes"),
        || {
            let mut gain = 1.0;
            for _ in 0..BLOCKS {
                gain = probe::limiter::apply_output_limiter_block(
                    gain, &bytes, 64, 48_000, &mut out, 256, 0,
                );
                black_box(&out);
            }
            black_box(gain);
        },
        || rust_limiter(&channels),
    );
}

fn rust_limiter(channels: &[Vec<f32>]) {
    let (mut gain, mut places) = (1.0, channels.to_vec());
    for _ in 0..BLOCKS {
        for (to, from) in places.iter_mut().zip(channels) {
            to.copy_from_slice(from);
        }
        leaf::apply_output_limiter_block(&mut places, &mut gain, 48_000, 0, 64);
        black_box(&places);
    }
    black_box(gain);
}

type Root = fn(f32) -> f32;

const CALLS: u32 = 50_000;

#[inline(never)]
fn identity(x: f32) -> f32 {
    x
}

#[inline(never)]
fn hardware(x: f32) -> f32 {
    x.sqrt()
}

#[inline(never)]
fn hardware_twice(x: f32) -> f32 {
    x.sqrt().sqrt()
}

#[inline(never)]
fn powf(x: f32) -> f32 {
    x.powf(0.25)
}

/// Each call waits for the one before.
fn chain(root: Root, _: &[f32]) {
    let mut x = black_box(7.3f32);
    for i in 0..CALLS {
        x = root(x) * 3.0 + (i % 8) as f32;
    }
    black_box(x);
}

fn independent(root: Root, inputs: &[f32]) {
    let sum = inputs.iter().fold(0, |sum, &x| sum ^ root(x).to_bits());
    black_box(sum);
}

/// Nanoseconds a call of each, and of a function that returns its argument.
fn compare_roots(name: &str, ours: Root, theirs: Root, run: fn(Root, &[f32]), inputs: &[f32]) {
    let roots = [ours, theirs, identity];
    let times = rounds(3, SECONDS, |side| time(&mut || run(roots[side], inputs)));
    let [ours, theirs, empty] = [0, 1, 2].map(|i| least(&times[i]) * 1e9 / f64::from(CALLS));
    println!("{name}: {ours:.2} and {theirs:.2} ns, an empty call {empty:.2}");
}

fn roots() {
    let mut drawn = Generator::new(1);
    let inputs: Vec<f32> = (0..CALLS)
        .map(|_| f32::from_bits(0x3c00_0000 + drawn.below(0x0400_0000) as u32))
        .collect();
    use probe::roots::{fourth_root, sqrt};
    let compared: [(&str, Root, Root); 3] = [
        ("sqrt and the hardware's", sqrt, hardware),
        (
            "fourth_root and the hardware's twice",
            fourth_root,
            hardware_twice,
        ),
        ("fourth_root and powf(0.25)", fourth_root, powf),
    ];
    for (name, ours, theirs) in compared {
        compare_roots(&format!("{name}, chain"), ours, theirs, chain, &inputs);
        compare_roots(
            &format!("{name}, independent"),
            ours,
            theirs,
            independent,
            &inputs,
        );
    }
}

pub fn print() {
    lowpass();
    panning();
    panning_alone();
    mixing();
    let mut inputs = Generator::new(1);
    let floats: Vec<f32> = (0..1_000_000).map(|_| inputs.float()).collect();
    compare_times(
        "bits_of, 1,000,000 floats",
        || {
            floats
                .iter()
                .for_each(|&x| _ = black_box(probe::words::bits_of(x)))
        },
        || floats.iter().for_each(|&x| _ = black_box(to_bits(x))),
    );
    limiter("limiter, quiet", &mut inputs, 0.9);
    limiter("limiter, loud", &mut inputs, 3.0);
    roots();
}
