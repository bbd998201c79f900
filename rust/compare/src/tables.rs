// SPDX-License-Identifier: Apache-2.0
//! Hall tables (document 02, R-6), drawn: those that are accepted, of every kind, and others.

use crate::Generator;
use crate::setup::{BUILT_IN, Table, built_in, fault, places, table};
use oracle::Vector;
use std::array;

type Places = [Vector; 12];

/// From -1 to 1: ends, zeros, subnormals, their neighbours, and others.
fn coordinate(inputs: &mut Generator) -> f32 {
    const EDGES: [f32; 8] = [0.0, -0.0, 1.0, -1.0, 0.5, f32::MIN_POSITIVE, 1e-45, -1e-45];
    let (edge, any) = (inputs.pick(&EDGES), inputs.between(-1.0, 1.0));
    let stepped = inputs.pick(&[edge.next_up(), edge.next_down()]);
    inputs
        .pick(&[edge, stepped, any, any, any])
        .clamp(-1.0, 1.0)
}

/// Below the least normal number, zeros too.
fn tiny(inputs: &mut Generator) -> f32 {
    let any = inputs.between(-1.0, 1.0) * f32::MIN_POSITIVE;
    inputs.pick(&[any, any, 0.0, -0.0, 1e-45, -1e-45])
}

fn anywhere(inputs: &mut Generator) -> Places {
    array::from_fn(|_| array::from_fn(|_| coordinate(inputs)))
}

/// Of two to four coordinates an axis: rows and layers are shared.
fn on_a_grid(inputs: &mut Generator) -> Places {
    let sizes = inputs.pick(&[[2, 2, 3], [2, 3, 2], [3, 2, 2], [4, 2, 4], [3, 4, 4]]);
    let tiny_ones = inputs.chance(3);
    let mut draw = || match tiny_ones {
        true => tiny(inputs),
        false => coordinate(inputs),
    };
    let [x, y, z] = sizes.map(|size| (0..size).map(|_| draw()).collect::<Vec<_>>());
    let rows = y.iter().flat_map(|&y| z.iter().map(move |&z| (y, z)));
    let mut places: Vec<Vector> = rows
        .flat_map(|(y, z)| x.iter().map(move |&x| [x, y, z]))
        .collect();
    array::from_fn(|_| places.swap_remove(inputs.below(places.len() as u64) as usize))
}

/// As it is measured: near the built-in places.
fn measured(inputs: &mut Generator) -> Places {
    let off = inputs.pick(&[0.3, 0.01, 1e-6]);
    BUILT_IN.map(|place| place.map(|x| (x + inputs.between(-off, off)).clamp(-1.0, 1.0)))
}

/// The built-in places for other channels.
fn exchanged(inputs: &mut Generator) -> Places {
    let mut places = BUILT_IN;
    for k in 1..12 {
        places.swap(k, inputs.below(k as u64 + 1) as usize);
    }
    places
}

/// Further: all at one height, each at its own, one a step from another or elsewhere along an axis,
/// zeros of either sign, the bass where another is.
fn changed(inputs: &mut Generator, places: &mut Places) {
    let [a, b] = [0; 2].map(|_| inputs.below(12) as usize);
    let axis = inputs.below(3) as usize;
    match inputs.below(9) {
        0 => {
            let height = coordinate(inputs);
            places.iter_mut().for_each(|place| place[1] = height);
        }
        1 => places
            .iter_mut()
            .for_each(|place| place[1] = inputs.between(-1.0, 1.0)),
        2 | 3 => {
            places[a] = places[b];
            let step = inputs.pick(&[f32::next_up, f32::next_down]);
            places[a][axis] = step(places[a][axis]).clamp(-1.0, 1.0);
        }
        4 => {
            let zeros = places.as_flattened_mut().iter_mut().filter(|x| **x == 0.0);
            zeros.for_each(|x| *x = inputs.pick(&[0.0, -0.0]));
        }
        5 => places[3] = places[a],
        7 => places[a][axis] = coordinate(inputs),
        6 => places
            .iter_mut()
            .for_each(|place| place[axis] *= f32::MIN_POSITIVE),
        _ => (),
    }
}

/// One that 16 to 18 let pass, another than the built-in one.
pub fn accepted(inputs: &mut Generator) -> Table {
    loop {
        let mut places = match inputs.below(8) {
            0 => anywhere(inputs),
            1 => measured(inputs),
            2 => exchanged(inputs),
            3 => BUILT_IN,
            _ => on_a_grid(inputs),
        };
        changed(inputs, &mut places);
        let table = table(&places);
        if fault(&table) == 0 && table != built_in() {
            return table;
        }
    }
}

/// A coordinate that is not finite, or outside.
fn outside(inputs: &mut Generator) -> f32 {
    const OUTSIDE: [f32; 7] = [
        f32::NAN,
        -f32::NAN,
        f32::INFINITY,
        f32::NEG_INFINITY,
        f32::MAX,
        2.0,
        -1e9,
    ];
    let beside = inputs.pick(&[1f32.next_up(), -1f32.next_up()]);
    let any = inputs.pick(&OUTSIDE);
    inputs.pick(&[beside, any])
}

fn put_outside(inputs: &mut Generator, places: &mut Places) {
    let any = inputs.below(12) as usize;
    let channel = inputs.pick(&[any, 3, 11]);
    places[channel][inputs.below(3) as usize] = outside(inputs);
}

/// Two channels at one place, zeros of any sign; the bass may be one.
fn put_alike(inputs: &mut Generator, places: &mut Places) {
    let [a, b] = [0; 2].map(|_| inputs.below(12) as usize);
    if inputs.chance(2) {
        places[b][inputs.below(3) as usize] = 0.0;
    }
    places[a] = places[b].map(|x| if x == 0.0 { inputs.pick(&[x, -x]) } else { x });
}

/// One with something wrong, mostly: a length, a coordinate, two equal places, or some of these.
pub fn spoilt(inputs: &mut Generator) -> Vec<u8> {
    let mut places = places(&accepted(inputs));
    let wrong = inputs.below(4);
    if wrong > 1 || inputs.chance(2) {
        put_alike(inputs, &mut places);
    }
    if wrong == 1 || wrong == 0 && inputs.chance(2) {
        put_outside(inputs, &mut places);
    }
    let mut bytes = table(&places).to_vec();
    if wrong == 0 {
        let any = inputs.below(400) as usize;
        bytes.resize(inputs.pick(&[0, 1, 12, 132, 143, 145, 156, 288, any]), 0);
    }
    bytes
}

/// What a table is, as runs count it.
#[derive(Clone, Copy, Debug, PartialEq, Eq, PartialOrd, Ord)]
pub enum Kind {
    BuiltIn,
    Own,
    /// All full-range speakers at one height; each at its own.
    OneHeight,
    ElevenHeights,
    /// Two of them are alike but for one coordinate, and there one f32 apart.
    OneStep,
    Subnormal,
    NegativeZero,
    /// A height below 0.
    Below,
}

pub const KINDS: [(&str, Kind); 8] = [
    ("built-in", Kind::BuiltIn),
    ("own", Kind::Own),
    ("one height", Kind::OneHeight),
    ("eleven heights", Kind::ElevenHeights),
    ("neighbours one step apart", Kind::OneStep),
    ("subnormals", Kind::Subnormal),
    ("-0.0", Kind::NegativeZero),
    ("heights below 0", Kind::Below),
];

/// One coordinate is a neighbour of the other's, and the two others are equal.
fn one_step(a: &Vector, b: &Vector) -> bool {
    let apart: Vec<usize> = (0..3).filter(|&axis| a[axis] != b[axis]).collect();
    matches!(apart[..], [axis] if a[axis].next_up() == b[axis] || b[axis].next_up() == a[axis])
}

impl Kind {
    pub fn is(self, bytes: &Table) -> bool {
        let mut full = places(bytes).to_vec();
        full.remove(3);
        let mut floats = full.as_flattened().iter();
        let mut heights: Vec<f32> = full.iter().map(|place| place[1] + 0.0).collect();
        heights.sort_by(f32::total_cmp);
        heights.dedup();
        match self {
            Kind::BuiltIn => *bytes == built_in(),
            Kind::Own => *bytes != built_in(),
            Kind::OneHeight => heights.len() == 1,
            Kind::ElevenHeights => heights.len() == 11,
            Kind::OneStep => full.iter().any(|a| full.iter().any(|b| one_step(a, b))),
            Kind::Subnormal => floats.any(|x| x.is_subnormal()),
            Kind::NegativeZero => floats.any(|x| *x == 0.0 && x.is_sign_negative()),
            Kind::Below => heights[0] < 0.0,
        }
    }
}
