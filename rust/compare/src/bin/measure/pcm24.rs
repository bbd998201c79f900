//! Times of R-9's 24-bit samples beside Rust loops, both ways.

use crate::table::digits_of;
use crate::times::{Ratio, least, rounds};
use compare::Generator;
use compare::entry::{read_24, write_24};
use std::hint::black_box;
use std::time::Instant;

const SECONDS: f64 = 0.5;
const LENGTHS: [usize; 8] = [1, 2, 4, 8, 16, 64, 480, 1_536];
/// Samples of a round.
const SAMPLES: usize = 50_000;

fn word(bytes: &[u8], place: usize) -> f32 {
    f32::from_le_bytes(bytes[4 * place..4 * place + 4].try_into().unwrap())
}

fn fits(out: &[u8], stride: usize, count: usize, dest: &[u8]) -> bool {
    stride.is_multiple_of(64)
        && (64..=1_536).contains(&stride)
        && out.len() >= 48 * stride
        && count <= stride
        && dest.len() >= 36 * count
}

fn whole(x: f32) -> [u8; 3] {
    let whole = (x * 8_388_608.0).round_ties_even().min(8_388_607.0) as i32;
    let [a, b, c, _] = whole.to_le_bytes();
    [a, b, c]
}

/// Sample by sample, as the bytes stand.
#[inline(never)]
fn write_by_samples(out: &[u8], stride: usize, count: usize, dest: &mut [u8]) -> bool {
    let mut channels = (0..12).map(|c| c * stride..c * stride + count);
    let is_fit = |place: usize| (-1.0..=1.0).contains(&word(out, place));
    if !fits(out, stride, count, dest) || !channels.all(|mut places| places.all(is_fit)) {
        return false;
    }
    for (i, row) in dest.chunks_exact_mut(36).take(count).enumerate() {
        for (c, bytes) in row.chunks_exact_mut(3).enumerate() {
            bytes.copy_from_slice(&whole(word(out, c * stride + i)));
        }
    }
    true
}

/// Channel by channel, as the samples stand.
#[inline(never)]
fn write_by_channels(out: &[u8], stride: usize, count: usize, dest: &mut [u8]) -> bool {
    if !fits(out, stride, count, dest) {
        return false;
    }
    let channels = || out.chunks_exact(4 * stride).take(12).enumerate();
    let mut pass = true;
    for (_, channel) in channels() {
        for x in channel[..4 * count].as_chunks::<4>().0 {
            pass &= (-1.0..=1.0).contains(&f32::from_le_bytes(*x));
        }
    }
    if !pass {
        return false;
    }
    for (c, channel) in channels() {
        let rows = dest.chunks_exact_mut(36);
        for (x, row) in channel[..4 * count].as_chunks::<4>().0.iter().zip(rows) {
            row[3 * c..3 * c + 3].copy_from_slice(&whole(f32::from_le_bytes(*x)));
        }
    }
    true
}

fn sample(bytes: &[u8]) -> [u8; 4] {
    let whole = i32::from_le_bytes([0, bytes[0], bytes[1], bytes[2]]) >> 8;
    (whole as f32 / 8_388_608.0).to_le_bytes()
}

#[inline(never)]
fn read_by_samples(source: &[u8], dest: &mut [u8]) -> bool {
    let count = source.len() / 36;
    if !source.len().is_multiple_of(36) || dest.len() < 48 * count {
        return false;
    }
    for (i, row) in source.chunks_exact(36).enumerate() {
        for (c, bytes) in row.chunks_exact(3).enumerate() {
            let at = 4 * (c * count + i);
            dest[at..at + 4].copy_from_slice(&sample(bytes));
        }
    }
    true
}

#[inline(never)]
fn read_by_channels(source: &[u8], dest: &mut [u8]) -> bool {
    let count = source.len() / 36;
    if !source.len().is_multiple_of(36) || dest.len() < 48 * count {
        return false;
    }
    for c in 0..12 {
        let channel = &mut dest[4 * c * count..4 * (c + 1) * count];
        let rows = source.chunks_exact(36);
        for (place, row) in channel.as_chunks_mut().0.iter_mut().zip(rows) {
            *place = sample(&row[3 * c..3 * c + 3]);
        }
    }
    true
}

/// Three sides in turn: the library, and both loops; what they leave must be the same.
fn compared(way: &str, samples: usize, mut call: impl FnMut(usize, &mut [u8]), room: usize) {
    let mut dests = [0, 1, 2].map(|_| vec![0; room]);
    let calls = SAMPLES / samples;
    let times = rounds(3, SECONDS, |side| {
        let (dest, start) = (&mut dests[side], Instant::now());
        for _ in 0..calls {
            call(side, black_box(dest));
        }
        start.elapsed()
    });
    assert!(dests[0] == dests[1] && dests[0] == dests[2]);
    let nanos = [0, 1, 2].map(|side| least(&times[side]) * 1e9 / (calls * samples) as f64);
    let quicker = if nanos[1] <= nanos[2] { 1 } else { 2 };
    println!(
        "| {way} | {} | {:.1} | {:.1} | {:.1} | {} |",
        digits_of(samples),
        nanos[0],
        nanos[1],
        nanos[2],
        Ratio::new(&times[0], &times[quicker])
    );
}

pub fn print() {
    println!(
        "| 24 bits | samples | ns a sample | Rust by samples | by channels | over the quicker |"
    );
    println!("|---|---|---|---|---|---|");
    for samples in LENGTHS {
        let (mut inputs, stride) = (Generator::new(3), samples.next_multiple_of(64));
        let mut place = || inputs.between(-1.0, 1.0).to_le_bytes();
        let out: Vec<u8> = (0..12 * stride).flat_map(|_| place()).collect();
        let write = |side, dest: &mut [u8]| {
            let out = black_box(&out[..]);
            _ = black_box(match side {
                0 => write_24(out, stride as u32, samples as u32, dest).kind == 3,
                1 => write_by_samples(out, stride, samples, dest),
                _ => write_by_channels(out, stride, samples, dest),
            });
        };
        compared("write", samples, write, 36 * samples);
    }
    for samples in LENGTHS {
        let mut inputs = Generator::new(4);
        let pcm: Vec<u8> = (0..36 * samples).map(|_| inputs.bits() as u8).collect();
        let read = |side, dest: &mut [u8]| {
            let pcm = black_box(&pcm[..]);
            _ = black_box(match side {
                0 => read_24(pcm, dest).kind == 3,
                1 => read_by_samples(pcm, dest),
                _ => read_by_channels(pcm, dest),
            });
        };
        compared("read", samples, read, 48 * samples);
    }
}
