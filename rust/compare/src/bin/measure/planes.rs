//! Times of R-10's planes beside two Rust loops, both ways.

use crate::table::digits_of;
use crate::times::{Ratio, least, rounds};
use compare::Generator;
use compare::entry::{self, Planes};
use std::hint::black_box;
use std::time::Instant;

const SECONDS: f64 = 0.5;
const LENGTHS: [usize; 8] = [1, 2, 4, 8, 16, 64, 480, 1_536];
/// Samples of a round.
const SAMPLES: usize = 100_000;

/// What a host would write, with the same tests of the count and the lengths.
type Loop = fn(&[u8], usize, &mut [u8]) -> bool;

fn fits(source: &[u8], samples: usize, dest: &[u8]) -> bool {
    samples <= 1_536 && source.len() == 48 * samples && dest.len() >= 48 * samples
}

fn quarters(bytes: &[u8]) -> [&[u8]; 4] {
    let (front, back) = bytes.split_at(bytes.len() / 2);
    let (quarter, half) = (bytes.len() / 4, front.len());
    [
        &front[..quarter],
        &front[quarter..half],
        &back[..quarter],
        &back[quarter..],
    ]
}

fn quarters_mut(bytes: &mut [u8]) -> [&mut [u8]; 4] {
    let quarter = bytes.len() / 4;
    let (front, back) = bytes.split_at_mut(2 * quarter);
    let ((first, second), (third, fourth)) =
        (front.split_at_mut(quarter), back.split_at_mut(quarter));
    [first, second, third, fourth]
}

#[inline(never)]
fn to_by_bytes(source: &[u8], samples: usize, dest: &mut [u8]) -> bool {
    if !fits(source, samples, dest) {
        return false;
    }
    let [first, second, third, fourth] = quarters_mut(&mut dest[..48 * samples]);
    let places = first.iter_mut().zip(second).zip(third).zip(fourth);
    for ((((a, b), c), d), word) in places.zip(source.as_chunks::<4>().0) {
        [*a, *b, *c, *d] = *word;
    }
    true
}

#[inline(never)]
fn to_by_words(source: &[u8], samples: usize, dest: &mut [u8]) -> bool {
    if !fits(source, samples, dest) {
        return false;
    }
    let [first, second, third, fourth] = quarters_mut(&mut dest[..48 * samples]);
    let places = first.iter_mut().zip(second).zip(third).zip(fourth);
    for ((((a, b), c), d), word) in places.zip(source.as_chunks::<4>().0) {
        let word = u32::from_le_bytes(*word);
        *a = word as u8;
        *b = (word >> 8) as u8;
        *c = (word >> 16) as u8;
        *d = (word >> 24) as u8;
    }
    true
}

#[inline(never)]
fn from_by_bytes(source: &[u8], samples: usize, dest: &mut [u8]) -> bool {
    if !fits(source, samples, dest) {
        return false;
    }
    let planes = 12 * samples;
    let (source, dest) = (&source[..4 * planes], &mut dest[..4 * planes]);
    for k in 0..planes {
        for p in 0..4 {
            dest[4 * k + p] = source[planes * p + k];
        }
    }
    true
}

#[inline(never)]
fn from_by_words(source: &[u8], samples: usize, dest: &mut [u8]) -> bool {
    if !fits(source, samples, dest) {
        return false;
    }
    let [first, second, third, fourth] = quarters(source);
    let places = first.iter().zip(second).zip(third).zip(fourth);
    for (word, (((a, b), c), d)) in dest.as_chunks_mut().0.iter_mut().zip(places) {
        *word = u32::from_le_bytes([*a, *b, *c, *d]).to_le_bytes();
    }
    true
}

fn compared(way: Planes, loops: [Loop; 2], samples: usize) {
    let mut inputs = Generator::new(3);
    let source: Vec<u8> = (0..48 * samples).map(|_| inputs.bits() as u8).collect();
    let mut dests = [0, 1, 2].map(|_| source.clone());
    let calls = SAMPLES / samples;
    let times = rounds(3, SECONDS, |side| {
        let (dest, start) = (&mut dests[side], Instant::now());
        for _ in 0..calls {
            let source = black_box(&source[..]);
            match side {
                0 => _ = black_box(entry::planes(way, source, samples as u32, dest)),
                _ => _ = black_box(loops[side - 1](source, samples, dest)),
            }
        }
        start.elapsed()
    });
    assert!(dests[0] == dests[1] && dests[0] == dests[2]);
    let nanos = [0, 1, 2].map(|side| least(&times[side]) * 1e9 / (calls * samples) as f64);
    let quicker = if nanos[1] <= nanos[2] { 1 } else { 2 };
    println!(
        "| {way:?} | {} | {:.2} | {:.2} | {:.2} | {} |",
        digits_of(samples),
        nanos[0],
        nanos[1],
        nanos[2],
        Ratio::new(&times[0], &times[quicker])
    );
}

pub fn print() {
    println!("| planes | samples | ns a sample | Rust by bytes | by words | over the quicker |");
    println!("|---|---|---|---|---|---|");
    let loops: [(Planes, [Loop; 2]); 2] = [
        (Planes::To, [to_by_bytes, to_by_words]),
        (Planes::From, [from_by_bytes, from_by_words]),
    ];
    for (way, loops) in loops {
        for samples in LENGTHS {
            compared(way, loops, samples);
        }
    }
}
