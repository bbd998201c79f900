//! The slowest accepted frame that a search finds: one property after another is given each of its
//! values, and the slowest is kept, twice over, from two random frames each.

use crate::case::Inputs;
use crate::sides::{Library, Side, assert_equal, sides};
use crate::table::{digits, digits_of};
use crate::times::{least, rounds};
use compare::{Generator, records};
use oracle::frame::{ANCHORS, Block, Element, Frame, Object, Update};

const LENGTHS: [usize; 4] = [1, 64, 480, 1_536];

/// Codes that are given to two speakers each, and all codes that a bed may have.
const FOLDED: [u8; 4] = [11, 12, 15, 16];
const ALL: [u8; 17] = [0, 1, 2, 3, 4, 5, 7, 8, 9, 10, 11, 12, 13, 14, 15, 16, 17];

/// Values of a frame's properties.
const BEDS: [usize; 4] = [0, 10, 16, 18];
const OBJECTS: [usize; 3] = [0, 4, 16];
const UPDATES: [usize; 4] = [1, 2, 8, 16];
const STEPS: [usize; 5] = [0, 1, 64, 65, 90];
const ELEMENTS: [usize; 3] = [0, 1, 2];
const BLOCKS: [usize; 3] = [1, 3, 8];
const SPANS: [i64; 4] = [0, 1, 8, 64];
const RAMPS: [i64; 4] = [0, 64, 512, 1 << 20];
const SIZES: [f32; 3] = [0.0, 0.3, 1.0];
const DEPTHS: [f32; 3] = [0.25, 1.0, 2.0];
const LOUDEST: [f32; 4] = [0.05, 16.0, 1e-40, 0.0];

/// How many values each property has, in the order in which `frame` and `update` take them.
const VALUES: [usize; 15] = [
    BEDS.len(),
    2,
    OBJECTS.len(),
    UPDATES.len(),
    STEPS.len(),
    ELEMENTS.len(),
    BLOCKS.len(),
    SPANS.len(),
    RAMPS.len(),
    SIZES.len(),
    DEPTHS.len(),
    ANCHORS.len(),
    2,
    2,
    LOUDEST.len(),
];

/// Which value each property has.
type Shape = [usize; VALUES.len()];

fn frame(shape: &Shape, samples: usize) -> Frame {
    let [beds, folded, objects, updates, step, ..] = *shape;
    let mut inputs = Generator::new(3);
    let code = |i: usize| {
        if folded == 1 {
            FOLDED[i % 4]
        } else {
            ALL[i % 17]
        }
    };
    let beds: Vec<u8> = (0..BEDS[beds]).map(code).collect();
    // Where there would be no channel at all, one object.
    let least = usize::from(beds.is_empty());
    let objects = OBJECTS[objects].min(32 - beds.len()).max(least);
    let updates = (0..UPDATES[updates])
        .map(|k| update(shape, &mut inputs, k * STEPS[step], &beds, objects))
        .collect();
    let loudest = LOUDEST[shape[14]];
    Frame {
        rate: 48_000,
        samples,
        objects,
        pcm: (0..(beds.len() + objects) * samples)
            .map(|_| inputs.between(-loudest, loudest))
            .collect(),
        beds,
        updates,
    }
}

fn update(
    shape: &Shape,
    inputs: &mut Generator,
    offset: usize,
    beds: &[u8],
    objects: usize,
) -> Update {
    let [
        ..,
        elements,
        blocks,
        span,
        ramp,
        size,
        depth,
        anchor,
        distance,
        given,
        _,
    ] = *shape;
    let objects = beds.len() + objects;
    let mut object = || Object {
        anchor: ANCHORS[anchor],
        position_valid: true,
        gain: (given == 0).then_some(0.7),
        position: (given == 0).then(|| std::array::from_fn(|_| inputs.between(0.0, 1.0))),
        distance: (distance == 1).then_some(0.5),
        size: Some(SIZES[size]),
        screen: 0.5,
        depth: DEPTHS[depth],
        ..Object::default()
    };
    let mut element = || Element {
        blocks: (0..BLOCKS[blocks])
            .map(|b| Block {
                offset: SPANS[span] * b as i64,
                ramp: RAMPS[ramp],
            })
            .collect(),
        objects: (0..objects)
            .map(|_| (0..BLOCKS[blocks]).map(|_| object()).collect())
            .collect(),
    };
    Update {
        offset: offset as u16,
        objects: objects as u8,
        bed_or_isf_objects: beds.len() as u8,
        beds: beds.to_vec(),
        elements: (0..ELEMENTS[elements]).map(|_| element()).collect(),
    }
}

/// The frame thrice: two pushes make the state that the third, which is timed, finds.
fn inputs(shape: &Shape, samples: usize) -> Inputs {
    Inputs::new(vec![frame(shape, samples)], vec![0; 3])
}

/// The slowest of these, timed in turn.
fn slowest(shapes: &[Shape], samples: usize) -> Shape {
    let mut side = Side::Library(Library::new());
    let inputs: Vec<_> = shapes.iter().map(|s| inputs(s, samples)).collect();
    let times = rounds(shapes.len(), 0.0, |i| side.time(&inputs[i], 2, None));
    let time = |&i: &usize| least(&times[i]);
    let slower = |i: &usize, j: &usize| time(i).total_cmp(&time(j));
    shapes[(0..shapes.len()).max_by(slower).unwrap()]
}

fn search(samples: usize) -> Shape {
    let from = |seed: u64| {
        let mut drawn = Generator::new(seed);
        let mut shape = VALUES.map(|values| drawn.below(values as u64) as usize);
        for property in (0..VALUES.len()).chain(0..VALUES.len()) {
            let of = |value: usize| {
                let mut shape = shape;
                shape[property] = value;
                shape
            };
            let shapes: Vec<_> = (0..VALUES[property]).map(of).collect();
            shape = slowest(&shapes, samples);
        }
        shape
    };
    slowest(&[from(0), from(1)], samples)
}

pub fn print() {
    println!("\n### The slowest accepted frame that a search finds\n");
    println!(
        "| samples | µs | of the frame's duration at 48 kHz | at 192 kHz | the Rust's µs | holds |"
    );
    println!("|---|---|---|---|---|---|");
    for samples in LENGTHS {
        let shape = search(samples);
        let inputs = inputs(&shape, samples);
        let mut sides = sides();
        assert_equal(&mut sides, &inputs);
        let times = rounds(sides.len(), 0.5, |side| sides[side].time(&inputs, 2, None));
        let [time, rust] = [0, times.len() - 1].map(|side| least(&times[side]));
        let part = |rate: f64| digits(100.0 * time * rate / samples as f64);
        println!(
            "| {} | {} | {} % | {} % | {} | {} |",
            digits_of(samples),
            digits(1e6 * time),
            part(48e3),
            part(192e3),
            digits(1e6 * rust),
            holds(&shape, &inputs.frames[0])
        );
    }
}

fn holds(shape: &Shape, frame: &Frame) -> String {
    let [.., size, depth, anchor, distance, _, loudest] = *shape;
    format!(
        "{} beds, {} objects; {} updates, {} records; size {}, {:?}, depth {}{}; samples up to {:?}",
        frame.beds.len(),
        frame.objects,
        frame.updates.len(),
        digits_of(records::write(&frame.updates).len() / 40),
        SIZES[size],
        ANCHORS[anchor],
        DEPTHS[depth],
        if distance == 1 { ", distance" } else { "" },
        LOUDEST[loudest]
    )
}
