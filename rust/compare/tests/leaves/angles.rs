//! At every whole rate from 8,000 to 192,000: the cosine and sine of w0 against the nearest f32, as
//! sums of ten terms and f64 give them, and the low-pass coefficients against the Rust's own over
//! these; and at document 01's five rates the coefficients against stated bits.

use compare::probe::angles;
use oracle::{exact, leaf};

/// a1 a2 b0 b1 b2
const STATED: [(u32, [u32; 5]); 5] = [
    (
        32_000,
        [0xbffbbc37, 0x3f779c38, 0x390f2583, 0x398f2583, 0x390f2583],
    ),
    (
        44_100,
        [0xbffce7be, 0x3f79e26a, 0x38976b65, 0x39176b65, 0x38976b65],
    ),
    (
        48_000,
        [0xbffd281c, 0x3f7a6036, 0x387fe85f, 0x38ffe85f, 0x387fe85f],
    ),
    (
        88_200,
        [0xbffe73dc, 0x3f7cec79, 0x37985448, 0x38185448, 0x37985448],
    ),
    (
        96_000,
        [0xbffe940b, 0x3f7d2c1b, 0x37808942, 0x38008942, 0x37808942],
    ),
];

#[test]
fn coefficients_are_the_stated_ones() {
    for (rate, stated) in STATED {
        assert_eq!(
            angles::coefficients(rate).map(f32::to_bits),
            stated,
            "{rate}"
        );
    }
}

#[test]
fn angles_are_the_nearest() {
    for rate in 8_000..=192_000 {
        let w0 = std::f32::consts::TAU * 120.0 / rate as f32;
        let wide = f64::from(w0);
        let found = angles::angle(rate);
        assert_eq!(found, [exact::cos(w0), exact::sin(w0)], "{rate}");
        assert_eq!(found, [wide.cos() as f32, wide.sin() as f32], "{rate}");
    }
}

#[test]
#[cfg_attr(no_sources, ignore = "Rust sources not at hand")]
fn coefficients_are_the_rust_ones() {
    for rate in 8_000..=192_000 {
        let expected = leaf::lowpass_new(rate);
        let found = angles::coefficients(rate).map(f32::to_bits);
        assert_eq!(found.as_slice(), &expected.map(f32::to_bits)[..5], "{rate}");
        assert_eq!(expected[5..], [0.0; 4]);
    }
}
