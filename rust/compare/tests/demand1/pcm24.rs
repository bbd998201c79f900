//! Document 02's R-9 with arguments of any kind: which are refused, by which number, and that a
//! refused call writes nothing.

use compare::entry::{read_24, same_answer, write_24};
use compare::model::pcm24::{read_refusal, write_refusal};
use compare::model::{Meters, Outcome};
use compare::{Generator, seeds};
use std::collections::BTreeMap;
use voqlisna_sys::Answer;

/// Kind 3 (done), the samples converted, and no meters; or the refusal.
fn expected(number: u32, ready: usize) -> Answer {
    let Meters { peak, gain } = Meters::NONE;
    match number {
        0 => Answer {
            kind: 3,
            number,
            first: 0,
            second: 0,
            ready,
            peak,
            gain,
        },
        _ => Outcome::Refused([number, 0, 0]).answer(),
    }
}

fn filled(length: usize) -> Vec<u8> {
    (0..length).map(|at| at as u8 ^ 0x5a).collect()
}

/// The answer that the arguments must have, and a destination that is as it was where it is a refusal.
fn write(out: &[u8], stride: u32, count: u32, dest: usize) -> u32 {
    let number = write_refusal(out, stride, count, dest);
    let (before, mut after) = (filled(dest), filled(dest));
    let answer = write_24(out, stride, count, &mut after);
    let name = format!("{count} of {stride} in {} to {dest}", out.len());
    assert!(
        same_answer(answer, expected(number, count as usize)),
        "{name}: {answer:?}"
    );
    let kept = if number == 0 { 36 * count as usize } else { 0 };
    assert!(after[kept..] == before[kept..], "{name}: the destination");
    number
}

fn read(source: &[u8], dest: usize) -> u32 {
    let number = read_refusal(source.len(), dest);
    let (before, mut after) = (filled(dest), filled(dest));
    let answer = read_24(source, &mut after);
    let name = format!("{} to {dest}", source.len());
    let count = source.len() / 36;
    assert!(
        same_answer(answer, expected(number, count)),
        "{name}: {answer:?}"
    );
    let kept = if number == 0 { 48 * count } else { 0 };
    assert!(after[kept..] == before[kept..], "{name}: the destination");
    number
}

/// Each stride to 1,600 and some beyond, and lengths beside the one that it wants; then counts.
#[test]
fn edges_of_strides_and_counts() {
    let out = vec![0; 48 * 1_600];
    for stride in (0..=1_600).chain([1 << 26, 1 << 31, u32::MAX, u32::MAX - 63]) {
        let exact = (48 * stride as usize).min(out.len());
        for length in [0, exact.saturating_sub(1), exact, out.len()] {
            write(&out[..length], stride, 1, 36);
        }
    }
    for stride in [64, 1_536] {
        for count in [0, 1, stride - 1, stride, stride + 1, 1 << 31, u32::MAX] {
            let exact = 36 * count.min(2_000) as usize;
            for dest in [0, exact.saturating_sub(1), exact, exact + 1] {
                write(&out, stride, count, dest);
            }
        }
    }
}

/// One sample of another value, at each place of the output: judged where it is to be written, and
/// nowhere else.
#[test]
fn each_place_is_judged_where_it_is_written() {
    const BAD: [u32; 8] = [
        0x3f80_0001,
        0xbf80_0001,
        0x7f80_0000,
        0xff80_0000,
        0x7fc0_0000,
        0xffc0_0000,
        0x7f80_0001,
        0x7f7f_ffff,
    ];
    let (stride, count) = (64, 5);
    for place in 0..12 * stride as usize {
        let is_written = place % (stride as usize) < count as usize;
        for word in BAD {
            let mut out = vec![0; 48 * stride as usize];
            out[4 * place..][..4].copy_from_slice(&word.to_le_bytes());
            let number = write(&out, stride, count, 36 * count as usize);
            assert_eq!(number, if is_written { 21 } else { 0 }, "{place}, {word:x}");
            assert_eq!(write(&out, stride, count, 36 * count as usize - 1), 20);
        }
    }
}

#[test]
fn edges_of_sources() {
    let source = vec![0x81; 36 * 1_600 + 40];
    for length in (0..200usize).chain(36 * 1_536 - 2..36 * 1_537 + 3) {
        let exact = length / 36 * 48;
        for dest in [0, exact.saturating_sub(1), exact, exact + 1] {
            read(&source[..length], dest);
        }
    }
}

const CASES: u64 = 4_000;

#[test]
fn any_24_bits() {
    let mut numbers = BTreeMap::new();
    for seed in seeds!(0..CASES) {
        let inputs = &mut Generator::new(seed);
        let stride = match inputs.below(4) {
            0 => inputs.bits() as u32,
            _ => 64 * inputs.below(5) as u32,
        };
        let count = match inputs.below(6) {
            0 => inputs.bits() as u32,
            _ => inputs.below(300) as u32,
        };
        let places = 12 * 256 + inputs.below(40) as usize;
        let rare = inputs.below(3) == 0;
        let word = |inputs: &mut Generator| match inputs.below(400) {
            0 if rare => inputs.float().to_bits(),
            _ => inputs.between(-1.0, 1.0).to_bits(),
        };
        let out: Vec<u8> = (0..places)
            .flat_map(|_| word(inputs).to_le_bytes())
            .collect();
        let dest = inputs.below(36 * 300) as usize;
        *numbers
            .entry(write(&out, stride, count, dest))
            .or_insert(0u64) += 1;
        let length = match inputs.below(3) {
            0 => inputs.below(2_000) as usize,
            _ => 36 * inputs.below(60) as usize,
        };
        *numbers.entry(read(&out[..length], dest / 3)).or_insert(0) += 1;
    }
    println!("{numbers:?}");
    let seen: Vec<u32> = numbers.into_keys().collect();
    assert!(seen == [0, 1, 2, 19, 20, 21] || !seeds::all());
}
