// SPDX-License-Identifier: Apache-2.0
//! Document 02's R-13 with arguments of any kind: a search is refused by 1 alone, and "an empty mask, a
//! mask with bit 3 or an absent speaker gives none; a mask above 4,095 does too".

use compare::entry::{self, BLOCK, Place};
use compare::host::{fresh, used_block};
use compare::{Generator, block, ranges, seeds};

/// No place, by kind and number.
fn no_place(kind: u32, number: u32) -> Place {
    let [x, y, z] = [0.0; 3];
    Place {
        kind,
        number,
        x,
        y,
        z,
    }
}

/// The same to the bit: the three floats are +0.0.
fn finds(block: &[u8], mask: u32, expected: Place) {
    let before = block.to_vec();
    let found = entry::find(block, mask);
    let bits = |place: Place| [place.x, place.y, place.z].map(f32::to_bits);
    let same = found == expected && bits(found) == bits(expected);
    assert!(same, "mask {mask:x}: {found:?}, not {expected:?}");
    assert!(block == before, "mask {mask:x}: the block");
}

const MASKS: [u32; 8] = [0, 1, 8, 4_095, 4_096, 4_097, 1 << 31, u32::MAX];

/// Other lengths, and every field out of its range, whatever the mask is.
#[test]
fn a_block_out_of_range_is_1() {
    let refused = no_place(1, 1);
    for seed in seeds!(0..4) {
        let inputs = &mut Generator::new(seed);
        let block = used_block(seed);
        for mask in MASKS {
            let length = inputs.below(BLOCK as u64) as usize;
            finds(&block[..length], mask, refused);
            finds(&[&block[..], &[0]].concat(), mask, refused);
        }
        for (field, mask) in ranges::fields().iter().zip(MASKS.iter().cycle()) {
            let mut damaged = block.clone();
            field.put(&mut damaged, field.most + 1);
            finds(&damaged, *mask, refused);
        }
    }
}

/// In each layout, from a new renderer's block and from one in use.
#[test]
fn masks_that_no_place_has() {
    for seed in seeds!(0..4) {
        let (layout, used) = (seed as u32, used_block(seed));
        assert_eq!(block::layout(&used), layout);
        let inputs = &mut Generator::new(seed);
        let absent: u32 = (0..12)
            .filter(|&channel| !block::has(layout, channel))
            .map(|channel| 1 << channel)
            .sum();
        let mut masks = vec![
            0,
            8,
            8 | 1,
            4_095,
            4_096,
            4_097,
            4_096 + 4,
            u32::MAX,
            1 << 31,
        ];
        masks.extend((0..8).map(|_| 8 | inputs.below(4_096) as u32));
        masks.extend((0..8).map(|_| 4_096 + inputs.bits() as u32 / 2));
        if absent != 0 {
            masks.extend((0..8).map(|_| {
                let any = inputs.below(4_096) as u32;
                any & !absent | 1 << (absent.trailing_zeros())
            }));
            masks.push(absent);
        }
        for mask in masks {
            finds(&fresh(layout), mask, no_place(2, 0));
            finds(&used, mask, no_place(2, 0));
        }
    }
}
