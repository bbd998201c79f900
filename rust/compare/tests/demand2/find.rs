// SPDX-License-Identifier: Apache-2.0
//! Where to put a sound (document 02, R-13): the entry against a search of the whole grid by document
//! 01's rules over sets of speakers and by the amended Rust's own loops. `find` in `src/bin` has all
//! masks and more halls.

use compare::entry;
use compare::model::find::Found;
use compare::setup::Setup;
use compare::{Generator, seeds, tables};

/// Sets that some place has, in each layout with the built-in table.
const SETS: [usize; 4] = [60, 57, 20, 15];

/// A mask, and the place that is answered for it.
type Known = (u32, Option<[f32; 3]>);

/// Of layout 0 and of layout 1, worked out apart from these programs.
const KNOWN: [&[Known]; 2] = [
    &[
        (0x001, Some([-1.0, 0.0, 1.0])),
        (0x004, Some([0.0, 0.0, 1.0])),
        (0x030, Some([-0.6875, 0.0, -1.0])),
        (0x0c0, None),
        (0x0c5, Some([-0.6875, 0.0, -0.46875])),
        (0x300, Some([-0.96875, 1.0, 0.5])),
        (0xff0, Some([-0.6875, 0.0625, -0.96875])),
    ],
    &[(0x0c0, Some([-0.96875, 0.0, -1.0])), (0x030, None)],
];

/// The entry's answers to these masks in that hall.
fn compare(setup: &Setup, found: &Found, masks: impl Iterator<Item = u32>) -> usize {
    let block = setup.fresh();
    let mut done = 0;
    for mask in masks {
        let answer = entry::find(&block, mask);
        assert!(
            found.is(mask, answer),
            "{setup:?}, mask {mask:x}: {answer:?}"
        );
        done += 1;
    }
    assert!(block == setup.fresh());
    done
}

/// So many masks of twelve bits, most of them of sets that no place has.
fn drawn(inputs: &mut Generator, count: usize) -> Vec<u32> {
    (0..count).map(|_| inputs.below(1 << 12) as u32).collect()
}

/// Each set that some place has, and others.
#[test]
#[cfg_attr(no_sources, ignore = "Rust sources not at hand")]
fn the_first_place_in_each_layout() {
    let inputs = &mut Generator::new(0);
    for (layout, sets) in (0..).zip(SETS) {
        let setup = Setup::built_in(layout);
        let found = Found::new(&setup.hall());
        let masks = found.masks();
        assert_eq!(masks.len(), sets, "layout {layout}");
        let known = KNOWN.get(layout as usize).copied().unwrap_or_default();
        for &(mask, place) in known {
            assert_eq!(found.place(mask), place, "layout {layout}, mask {mask:x}");
        }
        let others = drawn(inputs, 40);
        let above = [4_096, 4_097, 0x1001, 1 << 31, u32::MAX];
        compare(&setup, &found, masks.into_iter().chain(others).chain(above));
    }
}

/// The same over tables of every kind.
#[test]
#[cfg_attr(no_sources, ignore = "Rust sources not at hand")]
fn the_first_place_over_tables_of_their_own() {
    let (mut sets, mut done) = (0, 0);
    for seed in seeds!(0..40) {
        let inputs = &mut Generator::new(seed);
        let setup = Setup {
            layout: seed as u32 % 4,
            table: tables::accepted(inputs),
        };
        let found = Found::new(&setup.hall());
        let masks = found.masks();
        sets += masks.len();
        let others = drawn(inputs, 8);
        done += compare(&setup, &found, masks.into_iter().chain(others));
    }
    println!("{sets} sets that some place has, {done} searches");
    assert!(!seeds::all() || sets > 400);
}
