// SPDX-License-Identifier: Apache-2.0
//! The hall of a renderer (document 02, R-5 and R-6): a layout's code, and the hall table's bytes.

use crate::block::{self, TABLE};
use crate::floats;
use crate::host::fresh;
use oracle::{Hall, Vector};
use std::fmt;

/// "twelve records of twelve bytes, x, y and z as little-endian f32, no header, in channel order"
pub type Table = [u8; 144];

/// `RENDER_714_CHANNEL_POSITIONS`, also where the sources are not at hand.
pub const BUILT_IN: [Vector; 12] = {
    const A: f32 = 0.707_106_77;
    const B: f32 = 0.483_689_52;
    [
        [-A, 0.0, 1.0],
        [A, 0.0, 1.0],
        [0.0, 0.0, 1.0],
        [0.0, 0.0, 1.0],
        [-A, 0.0, -1.0],
        [A, 0.0, -1.0],
        [-1.0, 0.0, -B],
        [1.0, 0.0, -B],
        [-1.0, 1.0, B],
        [1.0, 1.0, B],
        [-A, 1.0, -1.0],
        [A, 1.0, -1.0],
    ]
};

pub fn table(places: &[Vector; 12]) -> Table {
    let words = places.as_flattened().iter().map(|x| x.to_le_bytes());
    words.collect::<Vec<_>>().concat().try_into().unwrap()
}

pub fn places(table: &Table) -> [Vector; 12] {
    let floats = floats(table);
    std::array::from_fn(|channel| floats[3 * channel..][..3].try_into().unwrap())
}

/// The bytes of the built-in one.
pub fn built_in() -> Table {
    table(&BUILT_IN)
}

/// "Refused: 16 for a length other than 144, 17 for a coordinate, 18 for equal positions, checked in
/// that order", else 0. "Each coordinate must be finite and from -1 to 1. No two full-range speakers
/// may have equal coordinates, the two zeros being equal."
pub fn fault(bytes: &[u8]) -> u32 {
    let Ok(bytes) = bytes.try_into() else {
        return 16;
    };
    let mut places = places(bytes).to_vec();
    if !places.as_flattened().iter().all(|x| x.abs() <= 1.0) {
        return 17;
    }
    places.remove(3);
    let same = |k: usize| places[..k].contains(&places[k]);
    if (0..11).any(same) { 18 } else { 0 }
}

#[derive(Clone, Copy, PartialEq, Eq)]
pub struct Setup {
    /// The code.
    pub layout: u32,
    pub table: Table,
}

impl Setup {
    /// What `hall_make` makes.
    pub fn built_in(layout: u32) -> Self {
        let table = built_in();
        Setup { layout, table }
    }

    /// What a block holds.
    pub fn of_block(block: &[u8]) -> Self {
        Setup {
            layout: block::layout(block),
            table: block::table(block),
        }
    }

    /// What "reset, too, refuses by 1" is neither: such a code and such a table are held.
    pub fn holds(&self) -> bool {
        self.layout <= 3 && fault(&self.table) == 0
    }

    pub fn hall(&self) -> Hall {
        Hall {
            layout: self.layout as u8,
            table: places(&self.table),
        }
    }

    /// The one hall that the Rust has.
    pub fn is_the_rusts(&self) -> bool {
        *self == Setup::built_in(0)
    }

    /// A new renderer's block: that of the layout with the built-in table, and this table in its
    /// place.
    pub fn fresh(&self) -> Vec<u8> {
        let mut block = fresh(self.layout);
        block[TABLE..][..144].copy_from_slice(&self.table);
        block
    }
}

impl fmt::Debug for Setup {
    fn fmt(&self, f: &mut fmt::Formatter) -> fmt::Result {
        let Setup { layout, table } = self;
        let own = (*table != built_in()).then(|| places(table));
        write!(f, "layout {layout}, table {own:?}")
    }
}
