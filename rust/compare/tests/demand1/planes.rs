//! Document 02's R-10 with arguments of any kind: which are refused, by which number, and that a
//! refused call writes nothing.

use compare::entry::{self, Planes, same_answer};
use compare::model::planes::refusal;
use compare::model::{Meters, Outcome};
use compare::{Generator, seeds};
use std::collections::BTreeMap;
use voqlisna_sys::Answer;

const WAYS: [Planes; 2] = [Planes::To, Planes::From];

/// The answer that a count and two lengths must have, and a destination that is as it was where it
/// is a refusal.
fn check(source: &[u8], samples: u32, dest: usize) -> u32 {
    let number = refusal(source.len(), samples, dest);
    let expected = match number {
        0 => done(samples),
        _ => Outcome::Refused([number, 0, 0]).answer(),
    };
    for way in WAYS {
        let before: Vec<u8> = (0..dest).map(|at| at as u8 ^ 0x5a).collect();
        let mut after = before.clone();
        let answer = entry::planes(way, source, samples, &mut after);
        let name = format!("{way:?}, {samples} of {} to {dest}", source.len());
        assert!(same_answer(answer, expected), "{name}: {answer:?}");
        let kept = if number == 0 {
            48 * samples as usize
        } else {
            0
        };
        assert!(after[kept..] == before[kept..], "{name}: the destination");
    }
    number
}

/// Kind 3 (done), the samples converted, and no meters.
fn done(samples: u32) -> Answer {
    let Meters { peak, gain } = Meters::NONE;
    Answer {
        kind: 3,
        number: 0,
        first: 0,
        second: 0,
        ready: samples as usize,
        peak,
        gain,
    }
}

/// "22 for N above 1,536, 23 for a source not of the exact length or a destination too short, in
/// that order", at each edge; "zero is allowed", and wants an empty source.
#[test]
fn edges_of_planes() {
    let source = vec![0x81; 48 * 1_537];
    for samples in [0, 1, 2, 63, 1_535, 1_536] {
        let exact = 48 * samples as usize;
        let around = |n: usize| [n.saturating_sub(48), n.saturating_sub(1), n, n + 1, n + 48];
        for length in around(exact) {
            for dest in around(exact) {
                let number = check(&source[..length], samples, dest);
                let fits = length == exact && dest >= exact;
                assert_eq!(number, if fits { 0 } else { 23 });
            }
        }
    }
    // 2^28 samples have 3 x 2^32 bytes, which are none in 32 bits.
    for samples in [1_537, 1 << 28, u32::MAX] {
        for length in [0, 47, 48, 48 * 1_536, 48 * 1_537] {
            for dest in [0, 48, 48 * 1_537] {
                assert_eq!(check(&source[..length], samples, dest), 22);
            }
        }
    }
}

const CASES: u64 = 4_000;

#[test]
fn any_planes() {
    let mut numbers = BTreeMap::new();
    for seed in seeds!(0..CASES) {
        let inputs = &mut Generator::new(seed);
        let samples = match inputs.below(8) {
            0 => inputs.bits() as u32,
            1 => 1_530 + inputs.below(12) as u32,
            _ => inputs.below(40) as u32,
        };
        let exact = 48 * samples.min(1_600) as usize;
        let length = |inputs: &mut Generator| match inputs.below(4) {
            0 => inputs.below(4_000) as usize,
            1 => (exact + inputs.below(4) as usize).saturating_sub(inputs.below(4) as usize),
            _ => exact,
        };
        let (source, dest) = (length(inputs), length(inputs) + length(inputs) / 3);
        let source: Vec<u8> = (0..source).map(|_| inputs.bits() as u8).collect();
        let number = check(&source, samples, dest);
        *numbers.entry(number).or_insert(0u64) += 1;
    }
    println!("{numbers:?}");
    let seen: Vec<u32> = numbers.into_keys().collect();
    assert!(seen == [0, 22, 23] || !seeds::all());
}
