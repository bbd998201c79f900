//! The small f32 functions against Rust's own: all pairs of 24 edge values and 4,000,000 drawn
//! pairs. The sign of a zero that `max` or `min` gives is the compiled Rust's.

use compare::probe::ieee;
use compare::{drawn, same};
use std::hint::black_box;

const DRAWN: usize = 4_000_000;

/// Called, and not folded.
#[inline(never)]
fn rust_max(a: f32, b: f32) -> f32 {
    black_box(a).max(black_box(b))
}

#[inline(never)]
fn rust_min(a: f32, b: f32) -> f32 {
    black_box(a).min(black_box(b))
}

fn check(a: f32, b: f32) {
    assert!(same(ieee::abs(a), a.abs()), "abs {a:?}");
    assert!(same(ieee::max(a, b), rust_max(a, b)), "max {a:?} {b:?}");
    assert!(same(ieee::min(a, b), rust_min(a, b)), "min {a:?} {b:?}");
    assert!(
        same(ieee::clamp(a, 0.0, 1.0), a.clamp(0.0, 1.0)),
        "clamp {a:?}"
    );
    if b >= 0.0 {
        assert!(
            same(ieee::clamp(a, -b, b), a.clamp(-b, b)),
            "clamp {a:?} {b:?}"
        );
    }
    assert_eq!(ieee::is_infinite(a), a.is_infinite(), "is_infinite {a:?}");
}

#[test]
fn as_rust() {
    let edges = [
        0.0f32,
        -0.0,
        f32::from_bits(1),
        -f32::from_bits(1),
        f32::MIN_POSITIVE,
        0.25,
        -0.25,
        0.9,
        1.0,
        -1.0,
        f32::from_bits(0x3f80_0001),
        f32::from_bits(0x3f7f_ffff),
        2.0,
        -2.0,
        16.0,
        1e20,
        -1e20,
        f32::MAX,
        f32::MIN,
        f32::INFINITY,
        f32::NEG_INFINITY,
        f32::NAN,
        -f32::NAN,
        f32::from_bits(0x7f80_0001),
    ];
    for a in edges {
        for b in edges {
            check(a, b);
        }
    }
    let mut inputs = drawn!(11);
    for _ in 0..DRAWN {
        let (a, b) = (inputs.float(), inputs.float());
        check(a, b);
        check(a, a);
    }
}
