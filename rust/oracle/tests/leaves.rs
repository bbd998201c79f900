//! Document 01's cases marked P, and its slips, run on the sources' own functions.

use oracle::frame::{Block, Element, Object, Update};
use oracle::leaf::{self, Timed};
use oracle::reading::source;
use oracle::{Vector, exact};

/// What a sample of 1 puts on each channel, at size 0.
fn coefficients(cubical_position: Vector, gain: f32) -> Vec<f32> {
    let source = source(cubical_position, gain, 0.0);
    let mut output = vec![vec![0.0]; 12];
    leaf::render_object_timeslot_to_714(&[1.0], &mut output, 0, &source);
    output.concat()
}

/// `value` on the channels named, 0 elsewhere.
fn on(channels: &[usize], value: f32) -> Vec<f32> {
    (0..12)
        .map(|c| if channels.contains(&c) { value } else { 0.0 })
        .collect()
}

#[test]
#[cfg_attr(no_sources, ignore = "Rust sources not at hand")]
fn listening_positions() {
    let half = 0.5f32.sqrt();
    assert_eq!(coefficients([0.0, 0.0, 1.0], 1.0), on(&[2], 1.0));
    assert_eq!(coefficients([0.0, 0.0, 1.0], 0.25), on(&[2], 0.5));
    assert_eq!(coefficients([0.0, 0.0, -1.0], 1.0), on(&[4, 5], half));
    assert_eq!(
        coefficients([0.0, 0.5, -1.0], 1.0),
        on(&[4, 5, 10, 11], 0.5)
    );
    assert_eq!(coefficients([0.0, 2.0, -1.0], 1.0), on(&[10, 11], half));
    assert_eq!(coefficients([f32::NAN; 3], 1.0), on(&[4], 1.0));
}

#[test]
#[cfg_attr(no_sources, ignore = "Rust sources not at hand")]
fn a_block_is_applied_when_the_timecode_is_greater() {
    let object = Object {
        gain: Some(1.0),
        ..Object::default()
    };
    let update = Update {
        objects: 1,
        elements: vec![Element {
            blocks: vec![Block { offset: 0, ramp: 0 }],
            objects: vec![vec![object]],
        }],
        ..Update::default()
    };
    let mut timed = Timed::new();
    timed.apply_update(&update, 1000);
    timed.update_timeslot(1000, 64);
    assert_eq!(timed.state().dynamic_sources[0].gain, 0.707);
    timed.update_timeslot(1064, 64);
    assert_eq!(timed.state().dynamic_sources[0].gain, 1.0);
}

#[test]
#[cfg_attr(no_sources, ignore = "Rust sources not at hand")]
fn the_limiter_at_peak_1_and_2() {
    for (peak, factor) in [(1.0f32, 1.0f32), (2.0, 0.9 / 2.0)] {
        let mut channels = vec![vec![0.0; 64]; 12];
        channels[7][63] = -peak;
        channels[3][0] = 0.5;
        let mut gain = 1.0;
        leaf::apply_output_limiter_block(&mut channels, &mut gain, 48_000, 0, 64);
        assert_eq!(
            (channels[7][63], channels[3][0]),
            (-peak * factor, 0.5 * factor)
        );
        assert_eq!(gain, (factor + 64.0 / 48_000.0).min(1.0));
    }
}

/// At height -1 and screen factor 1 the new height is the negated depth. At these y two rounded
/// square roots, or glibc's powf, miss the nearest value.
#[test]
#[cfg_attr(no_sources, ignore = "Rust sources not at hand")]
fn the_screen_takes_the_nearest_power() {
    let depth = |y: f32, power| -leaf::screen_anchored_position([0.5, y, -1.0], 1.0, power)[2];
    assert_eq!(depth(16.0, 0.25), 2.0);
    let twice_rounded = 0.2f32;
    assert_ne!(exact::root(4, twice_rounded), twice_rounded.sqrt().sqrt());
    for y in [
        twice_rounded,
        f32::from_bits(0x3f00_9e6e),
        f32::from_bits(0x3f00_5972),
    ] {
        assert_eq!(depth(y, 0.25), exact::root(4, y));
        assert_eq!(depth(y, 0.5), y.sqrt());
        assert_eq!(depth(y, 1.0), y);
        assert_eq!(depth(y, 2.0), y * y);
    }
}

#[test]
#[cfg_attr(no_sources, ignore = "Rust sources not at hand")]
fn beds_match_exactly_before_the_other_lfe() {
    assert_eq!(
        leaf::find_matching_input_bed_channel(3, &[2, 17, 3]),
        Some(2)
    );
    assert_eq!(leaf::find_matching_input_bed_channel(3, &[2, 17]), Some(1));
    assert_eq!(leaf::find_matching_input_bed_channel(2, &[3, 17]), None);
}
