//! Every f32 from -1 to 1 written in 24 bits, and every code read, beside `compare::model::pcm24`.
//! Prints what docs/COMPARED.md has; stops at the first difference.

use compare::entry::{read_24, write_24};
use compare::model::pcm24::{code, word};
use std::thread;
use std::time::Instant;

const STRIDE: usize = 1_536;
const ROW: usize = 36;
/// Patterns from 0 to 1.0.
const PATTERNS: u32 = 0x3f80_0001;

/// Which sample stands at a place: the order in which they are written.
fn place(k: usize) -> usize {
    k % 12 * STRIDE + k / 12
}

/// The greatest distance of what is read from what was written, in units of 2^-149 × 2^126.
fn distance(word: u32, read: u32) -> f64 {
    let [a, b] = [word, read].map(|word| f64::from(f32::from_bits(word)));
    (a - b).abs() * 8_388_608.0
}

/// The patterns from `from` on, with a sign; what differs most.
fn written(from: u32, until: u32, sign: u32) -> f64 {
    let (mut out, mut pcm, mut back) = (
        vec![0; 48 * STRIDE],
        vec![0; ROW * STRIDE],
        vec![0; 48 * STRIDE],
    );
    let mut most = 0.0f64;
    for first in (from..until).step_by(12 * STRIDE) {
        let words = |k: usize| sign | (first + k as u32).min(until - 1);
        for k in 0..12 * STRIDE {
            out[4 * place(k)..][..4].copy_from_slice(&words(k).to_le_bytes());
        }
        assert_eq!(
            write_24(&out, STRIDE as u32, STRIDE as u32, &mut pcm).kind,
            3
        );
        assert_eq!(read_24(&pcm, &mut back).kind, 3);
        for (k, bytes) in pcm.chunks(3).enumerate() {
            let code = code(words(k)).unwrap();
            assert!(bytes == &code.to_le_bytes()[..3], "{:08x}", words(k));
            let read = u32::from_le_bytes(back[4 * place(k)..][..4].try_into().unwrap());
            assert!(read == word(code), "{:08x}", words(k));
            most = most.max(distance(words(k), read));
        }
    }
    most
}

/// All codes.
fn codes() -> u32 {
    let pcm: Vec<u8> = (0..1u32 << 24)
        .flat_map(|code| code.to_le_bytes()[..3].to_vec())
        .collect();
    let mut read = 0;
    for (part, bytes) in pcm.chunks(ROW * STRIDE).enumerate() {
        let mut padded = bytes.to_vec();
        padded.resize(bytes.len().next_multiple_of(ROW), 0);
        let count = padded.len() / ROW;
        let mut back = vec![0; 48 * count];
        assert_eq!(read_24(&padded, &mut back).ready, count);
        for k in 0..bytes.len() / 3 {
            let code = (part * 12 * STRIDE + k) as i32;
            let signed = code << 8 >> 8;
            let at = 4 * (k % 12 * count + k / 12);
            let is = u32::from_le_bytes(back[at..at + 4].try_into().unwrap());
            assert!(is == word(signed), "{code:06x}");
            read += 1;
        }
    }
    read
}

fn main() {
    let start = Instant::now();
    let threads = thread::available_parallelism().map_or(1, usize::from) as u32;
    let share = PATTERNS.div_ceil(threads);
    let most = thread::scope(|scope| {
        let parts = [0, 1 << 31]
            .into_iter()
            .flat_map(|sign| (0..threads).map(move |t| (sign, t)));
        let runs: Vec<_> = parts
            .map(|(sign, t)| {
                scope.spawn(move || written(t * share, ((t + 1) * share).min(PATTERNS), sign))
            })
            .collect();
        runs.into_iter()
            .map(|run| run.join().unwrap())
            .fold(0.0, f64::max)
    });
    println!(
        "{} samples written and read, all as the model has them; at most {most} x 2^-23 off",
        2 * u64::from(PATTERNS)
    );
    println!("{} codes read, all as the model has them", codes());
    println!("{} s", start.elapsed().as_secs());
}
