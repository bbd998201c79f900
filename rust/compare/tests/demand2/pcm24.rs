//! Document 02's R-9: each byte and each sample as the model reads the document in whole numbers, the
//! bytes restored, and how far a sample moves.

use compare::entry::{read_24, write_24};
use compare::model::pcm24::{bytes, code, samples, word};
use compare::{EDGES, Generator, seeds};

const MOST: usize = 1_536;
/// Bytes of the destination beyond what is written.
const BEYOND: usize = 100;
const STAYS: u8 = 0xa5;

/// From -1 to 1: of any size, at a tie or beside one, at an edge.
fn drawn(inputs: &mut Generator) -> f32 {
    let step = 1.0 / 8_388_608.0;
    let x = match inputs.below(4) {
        0 => f32::from_bits(inputs.pick(&EDGES)),
        1 => inputs.float(),
        2 => (inputs.below(1 << 22) as f32 + 0.5) * step,
        _ => inputs.between(-1.0, 1.0),
    };
    let x = if (-1.0..=1.0).contains(&x) {
        x
    } else {
        x.signum()
    };
    let x = if x.is_nan() { 0.75 } else { x };
    match inputs.below(4) {
        0 => -x,
        1 if x != 0.0 => f32::from_bits(x.to_bits() - 1), // nearer to 0
        _ => x,
    }
}

/// An output of this stride, all of whose places may be written.
fn output(inputs: &mut Generator, stride: usize) -> Vec<u8> {
    let samples = (0..12 * stride).map(|_| drawn(inputs));
    samples.flat_map(f32::to_le_bytes).collect()
}

/// What writing leaves, which must keep what is beyond.
fn written(out: &[u8], stride: usize, count: usize) -> Vec<u8> {
    let mut dest = vec![STAYS; 36 * count + BEYOND];
    let answer = write_24(out, stride as u32, count as u32, &mut dest);
    assert_eq!((answer.kind, answer.ready), (3, count), "{stride}, {count}");
    let beyond = dest.split_off(36 * count);
    assert!(beyond == [STAYS; BEYOND], "{stride}, {count}: beyond");
    dest
}

/// What reading leaves.
fn read(pcm: &[u8]) -> Vec<u8> {
    let count = pcm.len() / 36;
    let mut dest = vec![STAYS; 48 * count + BEYOND];
    let answer = read_24(pcm, &mut dest);
    assert_eq!((answer.kind, answer.ready), (3, count), "{count}");
    let beyond = dest.split_off(48 * count);
    assert!(beyond == [STAYS; BEYOND], "{count}: beyond");
    dest
}

/// Channels that stand N apart, at a stride; what is between is of any bits.
fn spaced(sound: &[u8], count: usize, stride: usize, inputs: &mut Generator) -> Vec<u8> {
    let mut out: Vec<u8> = (0..48 * stride).map(|_| inputs.bits() as u8).collect();
    for c in 0..12 {
        let channel = &sound[4 * c * count..4 * (c + 1) * count];
        out[4 * c * stride..][..channel.len()].copy_from_slice(channel);
    }
    out
}

#[test]
fn every_number_of_samples() {
    for seed in seeds!(0..MOST as u64 + 1) {
        let (inputs, count) = (&mut Generator::new(seed), seed as usize);
        let least = count.div_ceil(64).max(1);
        let stride = 64 * (least + inputs.below((24 - least) as u64 + 1) as usize);
        let out = output(inputs, stride);
        let pcm = written(&out, stride, count);
        assert!(Some(&pcm) == bytes(&out, stride, count).as_ref(), "{count}");
        let sound = read(&pcm);
        assert!(sound == samples(&pcm), "{count}: read");
        let out = spaced(&sound, count, stride, inputs);
        assert!(written(&out, stride, count) == pcm, "{count}: restored");
    }
}

/// Any bytes are read, and restored.
#[test]
fn any_bytes_are_restored() {
    for seed in seeds!(0..300) {
        let inputs = &mut Generator::new(seed);
        let (count, stride) = (inputs.below(65) as usize, 64 << inputs.below(4));
        let pcm: Vec<u8> = (0..36 * count).map(|_| inputs.bits() as u8).collect();
        let sound = read(&pcm);
        assert!(sound == samples(&pcm), "{seed}");
        let out = spaced(&sound, count, stride, inputs);
        assert!(written(&out, stride, count) == pcm, "{seed}: restored");
    }
}

/// More than 1,536 samples are read too, since no number refuses them.
#[test]
fn long_sources_are_read() {
    let inputs = &mut Generator::new(1);
    let pcm: Vec<u8> = (0..36 * 5_000).map(|_| inputs.bits() as u8).collect();
    assert!(read(&pcm) == samples(&pcm));
}

/// Document 02's sentences, written out: ties, the limit, two's complement, both zeros.
#[test]
fn the_numbers_of_the_document() {
    let step = 1.0 / 8_388_608.0f32;
    for (x, whole) in [
        (0.0, 0),
        (-0.0, 0),
        (0.5 * step, 0),
        (1.5 * step, 2),
        (2.5 * step, 2),
        (-0.5 * step, 0),
        (-1.5 * step, -2),
        (0.25, 2_097_152),
        (-0.25, -2_097_152),
        (1.0, 8_388_607),
        (0.999_999_94, 8_388_607),
        (-0.999_999_94, -8_388_608),
        (-1.0, -8_388_608),
        (f32::from_bits(1), 0),
    ] {
        let mut out = vec![0; 48 * 64];
        out[4 * 64 * 7..][..4].copy_from_slice(&x.to_le_bytes());
        let pcm = written(&out, 64, 1);
        let mut wanted = [0; 36];
        wanted[21..24].copy_from_slice(&i32::to_le_bytes(whole)[..3]);
        assert_eq!(pcm, wanted, "{x:e}");
        assert_eq!(code(x.to_bits()), Some(whole), "{x:e}");
        let read = f32::from_bits(word(whole));
        assert_eq!(f64::from(read), f64::from(whole) / 8_388_608.0);
        assert!(
            (f64::from(read) - f64::from(x)).abs() <= f64::from(step),
            "{x:e}"
        );
    }
}
