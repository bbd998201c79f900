// SPDX-License-Identifier: Apache-2.0
//! One version: of the library, the header and both crates; and one size of the state block.

use crate::tools::{cargo, output};
use voqlisna::*;

const HEADER: &str = include_str!("../../../voqlisna-sys/include/voqlisna.h");

/// The number that the header defines.
fn defined(name: &str) -> u64 {
    let rest = HEADER
        .split(&format!("#define {name} "))
        .nth(1)
        .expect(name);
    let word = rest
        .split_whitespace()
        .next()
        .unwrap()
        .trim_end_matches('u');
    match word.strip_prefix("0x") {
        Some(digits) => u64::from_str_radix(digits, 16).unwrap(),
        None => word.parse().unwrap(),
    }
}

#[test]
fn library_header_and_crates_are_of_one_version() {
    let version = sys::hall_version();
    assert_eq!(version, sys::VERSION);
    assert_eq!(u64::from(version), defined("HALL_VERSION"));
    let manifest = concat!(env!("CARGO_MANIFEST_DIR"), "/Cargo.toml");
    let metadata = output(
        cargo()
            .args([
                "metadata",
                "--offline",
                "--no-deps",
                "--format-version",
                "1",
            ])
            .args(["--manifest-path", manifest]),
    );
    for name in ["voqlisna", "voqlisna-sys"] {
        let begin = format!("\"name\":\"{name}\",\"version\":\"0.{version}.");
        assert!(metadata.contains(&begin), "{name} is not 0.{version}");
    }
}

#[test]
fn numbers_of_the_header_are_those_of_the_crates() {
    assert_eq!(sys::hall_state_size(), sys::STATE_SIZE);
    assert_eq!(Renderer::block_size(), sys::STATE_SIZE);
    assert_eq!(defined("HALL_STATE_SIZE"), sys::STATE_SIZE as u64);
    assert_eq!(defined("HALL_TABLE_SIZE"), sys::TABLE_SIZE as u64);
    assert_eq!(HallTable::BUILT_IN.to_bytes().len(), sys::TABLE_SIZE);
    assert_eq!(defined("HALL_MAX_STRIDE"), Stride::MAX.samples() as u64);
    assert_eq!(defined("HALL_MAX_SAMPLES"), Stride::MAX.samples() as u64);
    let masks = ["", "_514", "_710", "_510"].map(|name| defined(&format!("HALL_WAVE_MASK{name}")));
    assert_eq!(masks, Layout::ALL.map(|layout| layout.wave_mask().into()));
    assert!(HEADER.contains("HALL_714, HALL_514, HALL_710, HALL_510,"));
    assert_eq!(WAVE_MASK, Layout::Hall714.wave_mask());
    let names = Speaker::ALL
        .map(|speaker| format!("HALL_{}", speaker.short_name()))
        .join(", ");
    assert!(HEADER.contains(&names), "the order of channels");
}

/// The header asserts the same of C's structs, which host.c compiles.
#[test]
fn an_answer_has_32_bytes_and_a_place_20() {
    use std::mem::{align_of, offset_of, size_of};
    use sys::{Answer, Place};
    let words = [
        offset_of!(Answer, kind),
        offset_of!(Answer, number),
        offset_of!(Answer, first),
        offset_of!(Answer, second),
        offset_of!(Answer, ready),
        offset_of!(Answer, peak),
        offset_of!(Answer, gain),
    ];
    assert_eq!(words, [0, 4, 8, 12, 16, 24, 28]);
    assert_eq!((size_of::<Answer>(), align_of::<Answer>()), (32, 8));
    let words = [
        offset_of!(Place, kind),
        offset_of!(Place, number),
        offset_of!(Place, x),
        offset_of!(Place, y),
        offset_of!(Place, z),
    ];
    assert_eq!(words, [0, 4, 8, 12, 16]);
    assert_eq!((size_of::<Place>(), align_of::<Place>()), (20, 4));
}

#[test]
fn a_renderer_may_be_shared_and_sent() {
    const fn shared<T: Send + Sync>() {}
    const { shared::<Renderer>() };
    const { shared::<Output>() };
    const { shared::<Concealer>() };
    const { shared::<Steady>() };
}
