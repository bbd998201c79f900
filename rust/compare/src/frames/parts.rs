//! The parts of a frame.

use super::layout::Layout;
use crate::Generator;
use oracle::frame::{ANCHORS, Block, DEPTHS, Element, Object, Update};

/// An update's, in a frame of so many samples.
pub fn offset(inputs: &mut Generator, samples: u64) -> u64 {
    match inputs.below(12) {
        0..4 => 0,
        4 => samples,
        5 => 65_535,
        6 => 64 * inputs.below(5),
        _ => inputs.below(samples + 8),
    }
}

pub fn samples(inputs: &mut Generator, most: u64) -> u64 {
    match inputs.below(30) {
        0 => 0,
        1 => most,
        2..6 => (64 * (1 + inputs.below(6))).min(most),
        6..20 => 1 + inputs.below(most.min(70)),
        _ => 1 + inputs.below(most),
    }
}

/// The codes of the bed channels that come with the frame: those of the layout in any order,
/// sometimes one missing, one more, or one LFE for the other.
pub fn input_beds(inputs: &mut Generator, layout: &[u8]) -> Vec<u8> {
    let mut beds = layout.to_vec();
    for i in (1..beds.len()).rev() {
        if inputs.chance(3) {
            beds.swap(i, inputs.below(i as u64 + 1) as usize);
        }
    }
    for bed in &mut beds {
        match *bed {
            3 if inputs.chance(4) => *bed = 17,
            17 if inputs.chance(4) => *bed = 3,
            6 if !inputs.chance(4) => *bed = 7,
            _ => {}
        }
    }
    match inputs.below(60) {
        0 | 1 => _ = beds.pop(),
        2 if beds.len() < 18 => beds.push(inputs.below(18) as u8),
        _ => {}
    }
    beds
}

/// From -16 to 16.
pub fn pcm(inputs: &mut Generator, length: usize) -> Vec<f32> {
    let loudest = inputs.pick(&[0.5, 0.5, 0.5, 2.0, 16.0, 0.0]);
    let edges = inputs.chance(8);
    let mut sample = || {
        if edges && inputs.chance(4) {
            inputs.pick(&[0.0, -0.0, 16.0, -16.0, 1.0, -1.0, 1e-45, -1e-40, 1e-20])
        } else {
            inputs.between(-loudest, loudest)
        }
    };
    (0..length).map(|_| sample()).collect()
}

pub fn update(inputs: &mut Generator, layout: &Layout, offset: u16, sends: bool) -> Update {
    let elements = layout.blocks.iter().map(|&blocks| Element {
        blocks: (0..blocks).map(|_| block(inputs)).collect(),
        objects: (0..layout.objects)
            .map(|_| (0..blocks).map(|_| object(inputs, sends)).collect())
            .collect(),
    });
    Update {
        offset,
        objects: layout.objects,
        bed_or_isf_objects: layout.bed_or_isf_objects,
        beds: layout.beds.clone(),
        elements: elements.collect(),
    }
}

fn block(inputs: &mut Generator) -> Block {
    let mut span = || match inputs.below(20) {
        0 => 1_048_576,
        1 => -1_048_576,
        2 => -(inputs.below(200) as i64),
        3..8 => 0,
        8 | 9 => 64 * inputs.below(5) as i64,
        _ => inputs.below(300) as i64,
    };
    Block {
        offset: span(),
        ramp: span(),
    }
}

/// Three blocks in four are due soon, with a ramp of up to ten slots; most objects have a position.
pub fn slow_down(inputs: &mut Generator, update: &mut Update) {
    for element in &mut update.elements {
        for block in &mut element.blocks {
            if !inputs.chance(4) {
                let [offset, ramp] = [160, 640].map(|most| inputs.below(most) as i64);
                *block = Block { offset, ramp };
            }
        }
        for object in element.objects.iter_mut().flatten() {
            object.position_valid |= !inputs.chance(3);
        }
    }
}

fn object(inputs: &mut Generator, sends: bool) -> Object {
    Object {
        anchor: inputs.pick(&ANCHORS),
        position_valid: !inputs.chance(4),
        differential: inputs.chance(3),
        gain: inputs.maybe(|inputs| match inputs.below(8) {
            0 => inputs.pick(&[0.0, -0.0, 8.0, 1.0, 1e-45, 0.25]),
            1 => inputs.between(0.0, 8.0),
            _ => inputs.between(0.0, 1.0),
        }),
        position: inputs.maybe(|inputs| std::array::from_fn(|_| inputs.near(-0.5, 1.5))),
        distance: inputs.maybe(|inputs| inputs.near(0.0, 3.0)),
        size: inputs.maybe(|inputs| match inputs.below(4) {
            0 => inputs.pick(&[0.0, -0.0, 1.0, 1e-45]),
            _ => inputs.between(0.0, 1.0),
        }),
        screen: inputs.near(0.0, 1.0),
        depth: inputs.pick(&DEPTHS),
        send: if sends { send(inputs) } else { 0.0 },
    }
}

/// To the bass feed: mostly some, one time in three nothing or next to nothing.
fn send(inputs: &mut Generator) -> f32 {
    match inputs.below(12) {
        0..3 => 0.0,
        3 => inputs.pick(&[-0.0, 1e-45, f32::MIN_POSITIVE, 1e-20]),
        4 => 1.0,
        _ => inputs.between(0.0, 1.0),
    }
}
