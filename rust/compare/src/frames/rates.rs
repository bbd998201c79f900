//! Rates that are accepted.

use crate::Generator;

/// Document 01's own rates.
const FIVE: [u32; 5] = [32_000, 44_100, 48_000, 88_200, 96_000];
/// The rates at which std's sine of w0 is not the nearest f32, and then the two of its cosine
/// (docs/DIFFERENCES.md).
const UNLIKE: [u32; 64] = [
    8_025, 8_091, 8_419, 8_515, 8_526, 8_614, 8_886, 9_991, 10_067, 10_162, 10_335, 11_009, 11_128,
    11_229, 12_219, 12_361, 12_750, 12_979, 13_322, 13_513, 13_555, 13_705, 14_379, 14_537, 14_734,
    14_811, 16_611, 16_910, 17_093, 17_857, 18_935, 19_230, 21_448, 21_973, 22_067, 22_567, 23_292,
    24_316, 24_956, 25_082, 25_367, 26_446, 26_899, 27_513, 27_568, 28_854, 30_272, 30_646, 31_007,
    33_153, 34_420, 40_853, 43_146, 44_389, 44_559, 44_907, 53_025, 59_700, 73_084, 81_157, 98_100,
    99_338, 11_492, 48_971,
];

/// A rate that is accepted: mostly any, else one of the five, one at an end, or one at which std's
/// sine or cosine is not the nearest f32.
pub fn rate(inputs: &mut Generator) -> u32 {
    match inputs.below(8) {
        0 => inputs.pick(&FIVE),
        1 => inputs.pick(&[8_000, 8_001, 191_999, 192_000]),
        2 => inputs.pick(&UNLIKE),
        _ => 8_000 + inputs.below(184_001) as u32,
    }
}
