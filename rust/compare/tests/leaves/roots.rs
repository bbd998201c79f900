//! Roots and powers against exact references. Each function runs on all floats whose
//! bits lie within 1,000 of an edge's, and on drawn floats: 10,000,000 in all. The square root runs
//! also on every 24-digit number at two neighbouring exponents and on every subnormal: 25,165,823.

use compare::probe::roots;
use compare::{Drawn, drawn, same};
use oracle::exact;

const INPUTS: usize = 10_000_000;

/// Both zeros, the least and the largest subnormal, normal and finite number, the infinities,
/// NaNs, and 1, 2, 4, 16.
const EDGES: [u32; 16] = [
    0x0000_0000,
    0x8000_0000,
    0x007f_ffff,
    0x807f_ffff,
    0x0080_0000,
    0x7f7f_ffff,
    0xff7f_ffff,
    0x7f80_0000,
    0xff80_0000,
    0x7fc0_0000,
    0xffc0_0000,
    0xffff_ffff,
    0x3f80_0000,
    0x4000_0000,
    0x4080_0000,
    0x4180_0000,
];

/// Around the edges, then any bits, positive ones, and values from 0 to 1 in turn.
fn inputs(mut drawn: Drawn) -> impl Iterator<Item = f32> {
    let near = EDGES
        .into_iter()
        .flat_map(|edge| (0..2_001).map(move |i| edge.wrapping_add(i).wrapping_sub(1_000)));
    let drawn = (0..).map(move |i| match i % 3 {
        0 => drawn.bits() as u32,
        1 => drawn.bits() as u32 & 0x7fff_ffff,
        _ => drawn.between(0.0, 1.0).to_bits(),
    });
    near.chain(drawn).take(INPUTS).map(f32::from_bits)
}

fn hold(drawn: Drawn, rattle: fn(f32) -> f32, reference: fn(f32) -> f32) {
    for x in inputs(drawn) {
        let (found, expected) = (rattle(x), reference(x));
        assert!(
            same(found, expected),
            "at {:08x}: {found:e}, expected {expected:e}",
            x.to_bits()
        );
    }
}

/// std's square root is the nearest f32; the power rule differs from it at -0 and -infinity.
fn half(y: f32) -> f32 {
    if y == 0.0 || y.is_infinite() {
        y.abs()
    } else {
        y.sqrt()
    }
}

#[test]
fn square_root() {
    hold(drawn!(31), roots::sqrt, f32::sqrt);
}

#[test]
fn fourth_root() {
    hold(drawn!(32), roots::fourth_root, |y| exact::root(4, y));
}

#[test]
fn half_power() {
    hold(drawn!(33), roots::half_power, half);
}

#[test]
fn first_and_second_power() {
    hold(drawn!(34), roots::first_power, |y| y);
    hold(drawn!(35), roots::second_power, |y| y * y);
}

#[test]
fn square_root_of_all_digits() {
    let subnormals = 0x0000_0001..0x0080_0000;
    for b in (0x3f00_0000..0x4000_0000).chain(subnormals) {
        let x = f32::from_bits(b);
        assert!(same(roots::sqrt(x), x.sqrt()), "at {b:08x}");
    }
}

/// The exact references agree with each other.
#[test]
fn exact_square_root_is_std() {
    for x in inputs(drawn!(36)).take(1_000_000) {
        assert!(same(exact::root(2, x), half(x)), "at {:08x}", x.to_bits());
    }
}
