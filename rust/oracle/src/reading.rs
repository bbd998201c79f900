//! Document 01's items 3, 4 and 6 over a hall, read by sets of speakers, apart from the Rust's loops.

use crate::frame::Frame;
use crate::state::{Metadata, Source};
use crate::{Hall, Vector, leaf};
use std::ops::Range;

/// The channels of each layout.
const PRESENT: [&[usize]; 4] = [
    &[0, 1, 2, 3, 4, 5, 6, 7, 8, 9, 10, 11],
    &[0, 1, 2, 3, 6, 7, 8, 9, 10, 11],
    &[0, 1, 2, 3, 4, 5, 6, 7],
    &[0, 1, 2, 3, 6, 7],
];
pub const BASS: usize = 3;

pub fn present(hall: &Hall) -> &'static [usize] {
    PRESENT[usize::from(hall.layout)]
}

/// Twelve channels: `samples` zeros where the hall has one, and none elsewhere.
pub fn silence(hall: &Hall, samples: usize) -> Vec<Vec<f32>> {
    let mut channels = vec![Vec::new(); 12];
    for &channel in present(hall) {
        channels[channel] = vec![0.0; samples];
    }
    channels
}

pub fn source(cubical_position: Vector, gain: f32, size: f32) -> Source {
    Source {
        gain,
        size,
        cubical_position,
        position_valid: true,
        send: 0.0,
        wanted: false,
        held: false,
    }
}

/// A channel, and what a sample is multiplied by there.
pub type Term = (usize, f32);

/// Document 01's item 4, over the hall's speakers, places and number of channels.
pub fn object(hall: &Hall, source: &Source) -> Vec<Term> {
    let (channels, gain, size) = (present(hall), source.gain, source.size);
    if gain == 0.0 {
        return Vec::new();
    }
    let speakers: Vec<usize> = channels.iter().copied().filter(|&c| c != BASS).collect();
    let around = gain * (size / channels.len() as f32).sqrt();
    let around = speakers.iter().map(|&speaker| (speaker, around));
    let inner = corners(
        hall,
        &speakers,
        source.cubical_position,
        gain * (1.0 - size),
    );
    around.chain(inner).collect()
}

/// Layers by height, rows by depth in each, sides in each row.
fn corners(hall: &Hall, speakers: &[usize], [x, y, z]: Vector, gain: f32) -> Vec<Term> {
    let mut terms = Vec::new();
    for (layer, height) in parted(hall, speakers, 1, y) {
        for (row, depth) in parted(hall, &layer, 2, z) {
            for (side, width) in parted(hall, &row, 0, x) {
                assert_eq!(side.len(), 1, "equal places");
                terms.push((side[0], (depth * height * gain * width).sqrt()));
            }
        }
    }
    terms
}

/// The speakers nearest to `place` along an axis, at or below it and above it, with their shares.
/// Where one side has none the other has all.
fn parted(hall: &Hall, set: &[usize], axis: usize, place: f32) -> Vec<(Vec<usize>, f32)> {
    let at = |speaker: &usize| hall.table[*speaker][axis];
    let (below, above): (Vec<usize>, Vec<usize>) = set.iter().partition(|s| at(s) <= place);
    let greatest = below.iter().map(at).reduce(f32::max);
    let least = above.iter().map(at).reduce(f32::min);
    let level = |end: f32| set.iter().copied().filter(|s| at(s) == end).collect();
    match (greatest, least) {
        (Some(a), Some(b)) => {
            let share = (place - a) / (b - a);
            vec![(level(a), 1.0 - share), (level(b), share)]
        }
        (Some(end), None) | (None, Some(end)) => vec![(level(end), 1.0)],
        (None, None) => Vec::new(),
    }
}

/// The channel that a code has for itself.
fn speaker(code: u8) -> Option<usize> {
    let channel = match code {
        0..=2 => code,
        4 | 5 => code + 2,
        7 | 8 => code - 3,
        9 | 10 => code - 1,
        13 | 14 => code - 3,
        _ => return None,
    };
    Some(usize::from(channel))
}

/// Document 01's item 3; a bed without a speaker of its own in this hall is panned.
pub fn bed(hall: &Hall, code: u8, gain: f32) -> Vec<Term> {
    match speaker(code) {
        _ if matches!(code, 3 | 17) => vec![(BASS, gain * 0.316_227_76)],
        Some(channel) if present(hall).contains(&channel) => vec![(channel, gain)],
        _ => {
            let place = leaf::bed_channel_position(code);
            object(hall, &source(place, gain, 0.0))
        }
    }
}

/// Adds what these samples are by each term, one term after the other, from the place `at` on.
pub fn add(terms: &[Term], samples: &[f32], output: &mut [Vec<f32>], at: usize) {
    for &(channel, factor) in terms {
        for (sum, sample) in output[channel][at..].iter_mut().zip(samples) {
            *sum += sample * factor;
        }
    }
}

/// Which channel of the frame a bed of that code is: the LFE codes match each other where none
/// matches exactly.
fn input(frame: &Frame, code: u8) -> Option<usize> {
    let is_bass = |code: u8| matches!(code, 3 | 17);
    let at = |matches: &dyn Fn(u8) -> bool| frame.beds.iter().position(|&bed| matches(bed));
    at(&|bed| bed == code).or_else(|| at(&|bed| is_bass(bed) && is_bass(code)))
}

/// Adds a part of a frame in which nothing moves: the beds in their order, then the objects, each to
/// its speakers and then to the bass feed.
pub fn mix(
    hall: &Hall,
    metadata: &Metadata,
    frame: &Frame,
    part: Range<usize>,
    output: &mut [Vec<f32>],
) {
    let beds = metadata.bed_channels.iter().zip(&metadata.bed_sources);
    let beds = beds.map(|(&code, &gain)| (input(frame, code).unwrap(), bed(hall, code, gain)));
    let first = frame.beds.len();
    let objects = metadata.dynamic_sources.iter().enumerate();
    let objects = objects.map(|(k, source)| {
        let mut terms = object(hall, source);
        terms.push((BASS, source.gain * source.send));
        (first + k, terms)
    });
    for (channel, terms) in beds.chain(objects) {
        let samples = &frame.channel(channel)[part.clone()];
        add(&terms, samples, output, part.start);
    }
}
