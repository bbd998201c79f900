//! Document 02's R-10: every number of samples to planes and back, each byte as the model reads the
//! document from words, NaN bit patterns included.

use compare::entry::{self, Planes};
use compare::model::planes::{channels, planes, samples, sound};
use compare::{EDGES, Generator, seeds};

const MOST: usize = 1_536;
/// Bytes of the destination beyond what is written.
const BEYOND: usize = 100;
const STAYS: u8 = 0xa5;

/// Samples of any bits, with many at an edge and every second one a NaN where `nans`.
fn drawn(inputs: &mut Generator, count: usize, nans: bool) -> Vec<u8> {
    let mut word = || {
        let word = inputs.float().to_bits();
        let nan = 0x7f80_0001 | inputs.bits() as u32;
        if nans && inputs.chance(2) { nan } else { word }
    };
    let words: Vec<u32> = (0..12 * count).map(|_| word()).collect();
    words.iter().flat_map(|word| word.to_le_bytes()).collect()
}

/// What a call writes; it must have converted all, and left what is beyond.
fn converted(way: Planes, source: &[u8], count: usize) -> Vec<u8> {
    let mut dest = vec![STAYS; 48 * count + BEYOND];
    let answer = entry::planes(way, source, count as u32, &mut dest);
    assert_eq!((answer.kind, answer.ready), (3, count), "{way:?}, {count}");
    let beyond = dest.split_off(48 * count);
    assert!(beyond == [STAYS; BEYOND], "{way:?}, {count}: beyond");
    dest
}

/// Both calls on the same bytes: as samples and as planes. Each is what the model reads, and each
/// undoes the other.
fn both_ways(bytes: &[u8], count: usize) {
    let read = planes(&channels(bytes, count));
    let written = converted(Planes::To, bytes, count);
    assert!(written == read, "to planes, {count}");
    let back = converted(Planes::From, &written, count);
    assert!(back == bytes, "there and back, {count}");

    let read = sound(&samples(bytes, count));
    let written = converted(Planes::From, bytes, count);
    assert!(written == read, "from planes, {count}");
    let back = converted(Planes::To, &written, count);
    assert!(back == bytes, "back and there, {count}");
}

#[test]
fn every_number_of_samples() {
    for seed in seeds!(0..MOST as u64 + 1) {
        let count = seed as usize;
        both_ways(&drawn(&mut Generator::new(seed), count, false), count);
    }
}

#[test]
fn nan_bit_patterns_are_kept() {
    for seed in seeds!(0..200) {
        let inputs = &mut Generator::new(seed);
        let count = 1 + inputs.below(60) as usize;
        both_ways(&drawn(inputs, count, true), count);
    }
    // Each edge in each of the twelve places of one sample.
    for edge in EDGES {
        both_ways(&edge.to_le_bytes().repeat(12), 1);
    }
}

/// Document 02's order, written out: two samples on each channel, whose bytes tell where they stood.
#[test]
fn the_order_of_the_document() {
    let byte = |channel: u8, sample: u8, significance: u8| 16 * channel + 8 * sample + significance;
    let mut sound = Vec::new();
    for channel in 0..12 {
        for sample in 0..2 {
            sound.extend((0..4).map(|significance| byte(channel, sample, significance)));
        }
    }
    let planes = converted(Planes::To, &sound, 2);
    assert_eq!(
        planes[..6],
        [0, 8, 16, 24, 32, 40],
        "least significant, channel by channel"
    );
    assert_eq!(
        planes[22..26],
        [176, 184, 1, 9],
        "then the next byte of each"
    );
    assert_eq!(planes[94..], [179, 187], "to the most significant");
    assert_eq!(converted(Planes::From, &planes, 2), sound);
}
