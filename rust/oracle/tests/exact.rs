//! The exact references: roots against std's square root and against f64, angles at every rate.

use oracle::exact;

/// Floats above zero: 600,000 spread over all bit patterns, and the smallest and largest.
fn positives() -> impl Iterator<Item = f32> {
    let spread = (0..600_000).map(|i| 1 + i * 3559);
    spread
        .chain(1..1000)
        .chain(0x7f7f_0000..0x7f80_0000)
        .map(f32::from_bits)
}

#[test]
fn square_root_is_stds() {
    for x in positives() {
        assert_eq!(exact::root(2, x), x.sqrt(), "{x:e}");
    }
}

/// f64's error is far below half a unit of f32: the roots differ only next to a tie.
#[test]
fn fourth_root_is_f64s() {
    for x in positives() {
        let wide = f64::from(x).sqrt().sqrt();
        let nearest = exact::root(4, x);
        let (below, above) = (wide * (1.0 - 1e-15), wide * (1.0 + 1e-15));
        assert!((below as f32..=above as f32).contains(&nearest), "{x:e}");
    }
}

#[test]
fn fourth_powers_have_exact_roots() {
    for n in 1..=64u32 {
        let x = (n as f32).powi(4);
        assert_eq!(exact::root(4, x), n as f32);
        assert_eq!(exact::root(4, x / 65536.0), n as f32 / 16.0);
    }
}

#[test]
fn power_rule_at_the_edges() {
    for power in [0.25, 0.5] {
        for zero in [0.0, -0.0] {
            assert_eq!(exact::depth_power(zero, power).to_bits(), 0);
        }
        for infinity in [f32::INFINITY, f32::NEG_INFINITY] {
            assert_eq!(exact::depth_power(infinity, power), f32::INFINITY);
        }
        for nan in [-1.0, -f32::MIN_POSITIVE, f32::MIN, f32::NAN] {
            assert!(exact::depth_power(nan, power).is_nan());
        }
    }
    assert_eq!(exact::depth_power(-0.0, 1.0).to_bits(), 0x8000_0000);
    assert_eq!(exact::depth_power(-3.0, 2.0), 9.0);
}

/// f64's values rounded; and at each rate the sums settle the rounding, or `exact` would stop.
#[test]
fn angles_at_every_rate() {
    for rate in 8_000..=192_000u32 {
        let w0 = std::f32::consts::TAU * 120.0 / rate as f32;
        let wide = f64::from(w0);
        assert_eq!(exact::sin(w0), wide.sin() as f32, "rate {rate}");
        assert_eq!(exact::cos(w0), wide.cos() as f32, "rate {rate}");
    }
}

/// w0, sine and cosine as bits.
#[test]
fn angles_at_the_five_rates() {
    for (rate, bits) in [
        (32_000, [0x3cc1_04fb, 0x3cc1_0069, 0x3f7f_edcf]),
        (44_100, [0x3c8c_0f39, 0x3c8c_0d7a, 0x3f7f_f66c]),
        (48_000, [0x3c80_adfd, 0x3c80_aca2, 0x3f7f_f7ea]),
        (88_200, [0x3c0c_0f39, 0x3c0c_0ec9, 0x3f7f_fd9b]),
        (96_000, [0x3c00_adfd, 0x3c00_ada6, 0x3f7f_fdfb]),
    ] {
        let w0 = std::f32::consts::TAU * 120.0 / rate as f32;
        assert_eq!([w0, exact::sin(w0), exact::cos(w0)].map(f32::to_bits), bits);
    }
}
