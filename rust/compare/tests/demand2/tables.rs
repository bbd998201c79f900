// SPDX-License-Identifier: Apache-2.0
//! Document 02's R-6 at the entries, beside the runs of `entries`: on which channels beds and objects
//! sound in halls with tables of their own, worked out by hand.

use crate::layouts::{heard_in, of_gain, on, panned_at};
use compare::block::has;
use compare::setup::{BUILT_IN, Setup, fault, places, table};
use compare::{Generator, seeds, tables};
use oracle::Vector;

const HALF: f32 = std::f32::consts::FRAC_1_SQRT_2;

/// The hall of that layout with the built-in places but for these.
fn hall(layout: u32, moved: &[(usize, Vector)]) -> Setup {
    let mut places = BUILT_IN;
    moved
        .iter()
        .for_each(|&(channel, place)| places[channel] = place);
    let table = table(&places);
    Setup { layout, table }
}

/// What an object of gain 1 there is on each channel: `channels` with their coefficients, else 0.
fn sounds(setup: &Setup, place: Vector, channels: &[(usize, f32)]) {
    let mut expected = on(setup.layout, &[], 0.0);
    channels
        .iter()
        .for_each(|&(channel, x)| expected[channel] = Some(x));
    assert_eq!(
        heard_in(setup, None, panned_at(place)),
        expected,
        "{setup:?} {place:?}"
    );
}

/// The side speakers hang halfway up: "Any number of heights is allowed."
#[test]
fn three_heights() {
    let three = hall(0, &[(6, [-1.0, 0.5, -0.5]), (7, [1.0, 0.5, -0.5])]);
    let built_in = Setup::built_in(0);
    sounds(&three, [0.0, 0.5, -0.5], &[(6, HALF), (7, HALF)]);
    sounds(&three, [-1.0, 0.5, 0.0], &[(6, 1.0)]);
    sounds(&three, [0.0, 0.25, 1.0], &[(2, HALF), (6, 0.5), (7, 0.5)]);
    sounds(
        &three,
        [0.0, 0.75, -1.0],
        &[(6, 0.5), (7, 0.5), (10, 0.5), (11, 0.5)],
    );
    // The floor has two rows now; an object there sounds elsewhere than with the built-in table.
    sounds(&three, [0.0, 0.0, 0.0], &[(2, HALF), (4, 0.5), (5, 0.5)]);
    let there = |setup: &Setup, place| heard_in(setup, None, panned_at(place));
    assert_eq!(there(&built_in, [0.0, 0.0, 0.0])[4], Some(0.0));
    assert_eq!(
        there(&built_in, [0.0, 0.5, -1.0]),
        on(0, &[4, 5, 10, 11], 0.5)
    );
    // Without the four above, the sides are the highest layer.
    let lower = Setup { layout: 2, ..three };
    sounds(&lower, [0.0, 1.0, 1.0], &[(6, HALF), (7, HALF)]);
}

/// All at the height of the ears: there is no upper layer.
#[test]
fn one_height() {
    let mut places = BUILT_IN;
    places.iter_mut().for_each(|place| place[1] = 0.0);
    // The rear ones above would be where those below are.
    [places[10], places[11]] = [[-0.25, 0.0, -1.0], [0.25, 0.0, -1.0]];
    let one = Setup {
        layout: 0,
        table: table(&places),
    };
    for height in [-1.0, 0.0, 0.5, 1.0] {
        sounds(&one, [0.0, height, 1.0], &[(2, 1.0)]);
        sounds(&one, [0.0, height, -1.0], &[(10, HALF), (11, HALF)]);
    }
}

/// A speaker below the ears.
#[test]
fn heights_below_0() {
    let below = hall(3, &[(2, [0.0, -1.0, 1.0])]);
    sounds(&below, [0.0, -1.0, 1.0], &[(2, 1.0)]);
    sounds(&below, [0.5, -2.0, -1.0], &[(2, 1.0)]);
    sounds(&below, [-1.0, -0.5, -1.0], &[(2, HALF), (6, HALF)]);
}

/// A step apart are two rows: "equal coordinates" has no tolerance.
#[test]
fn one_step_apart() {
    let (here, up) = (0.5, 0.5f32.next_up());
    let near = hall(0, &[(0, [-1.0, here, 1.0]), (1, [1.0, up, 1.0])]);
    sounds(&near, [0.0, here, 1.0], &[(0, 1.0)]);
    sounds(&near, [0.0, up, 1.0], &[(1, 1.0)]);
    let level = hall(0, &[(0, [-1.0, here, 1.0]), (1, [1.0, here, 1.0])]);
    sounds(&level, [0.0, here, 1.0], &[(0, HALF), (1, HALF)]);
}

/// A table of coordinates that records reach without rounding.
fn exact(inputs: &mut Generator) -> Setup {
    loop {
        let mut places = places(&tables::accepted(inputs));
        let floats = places.as_flattened_mut().iter_mut();
        floats.for_each(|x| *x = (*x * 64.0).round() / 64.0);
        let table = table(&places);
        if fault(&table) == 0 {
            let layout = inputs.below(4) as u32;
            return Setup { layout, table };
        }
    }
}

/// The built-in table but for one coordinate of one channel: an object where that hangs sounds from it,
/// and in the built-in hall from others too. To within the rounding of records.
#[test]
fn each_coordinate_counts() {
    let full_range = (0..12).filter(|&channel| channel != 3);
    for (channel, axis) in full_range.flat_map(|c| (0..3).map(move |axis| (c, axis))) {
        let mut place = BUILT_IN[channel];
        place[axis] += if place[axis] > 0.25 { -0.125 } else { 0.125 };
        let moved = hall(0, &[(channel, place)]);
        let [own, built_in] = [moved, Setup::built_in(0)]
            .map(|hall| heard_in(&hall, None, panned_at(place))[channel].unwrap());
        assert!(own > 0.999, "{channel} {axis}: {own}");
        assert!(built_in < 0.99, "{channel} {axis}: {built_in}");
    }
}

/// An object at a speaker sounds from it alone.
#[test]
fn objects_at_speakers() {
    for seed in seeds!(0..400) {
        let setup = exact(&mut Generator::new(seed));
        let there = (0..12).filter(|&channel| channel != 3 && has(setup.layout, channel));
        for channel in there {
            sounds(&setup, places(&setup.table)[channel], &[(channel, 1.0)]);
        }
    }
}

/// A bed whose speaker is there has its gain wherever that hangs, and goes to it alone; one whose speaker
/// is absent is panned over the others, and where the table has the absent one does not matter.
#[test]
fn beds_and_tables() {
    for seed in seeds!(0..200) {
        let inputs = &mut Generator::new(seed);
        let setup = exact(inputs);
        for (code, channel) in [(0, 0), (1, 1), (2, 2), (4, 6), (5, 7)] {
            let found = heard_in(&setup, Some(code), of_gain(0.25));
            assert_eq!(
                found,
                on(setup.layout, &[channel], 0.25),
                "{setup:?} {code}"
            );
        }
        let mut places = places(&setup.table);
        let absent = (0..12).filter(|&channel| !has(setup.layout, channel));
        absent.for_each(|channel| places[channel][0] = inputs.between(-1.0, 1.0));
        let other = Setup {
            table: table(&places),
            ..setup
        };
        for code in (7..17).filter(|&code| fault(&other.table) == 0 && code != 6) {
            let [a, b] = [&setup, &other].map(|hall| heard_in(hall, Some(code), of_gain(0.25)));
            assert_eq!(a, b, "{setup:?} {code}");
            let squares: f32 = a.iter().flatten().map(|x| x * x).sum();
            assert!((squares - 0.25).abs() < 1e-6 || squares == 0.0625, "{a:?}");
        }
    }
    // Top front left in 5.1.0, at (-1, 1, 1): nothing hangs as high as the surround left.
    let sloped = hall(3, &[(0, [-1.0, 0.0, 1.0]), (6, [-1.0, 1.0, -1.0])]);
    let found = heard_in(&sloped, Some(9), of_gain(0.25));
    assert_eq!(found, on(3, &[6], 0.5));
}
