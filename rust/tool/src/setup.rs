// SPDX-License-Identifier: Apache-2.0
//! The hall that is played in: which loudspeakers it has, and where they hang.
use voqlisna::{HallTable, Layout, Panned, Speaker};

#[derive(Clone, Copy)]
pub struct Setup {
    pub layout: Layout,
    /// None: the built-in one.
    pub table: Option<HallTable>,
}

impl Setup {
    pub const BUILT_IN: Self = Self {
        layout: Layout::Hall714,
        table: None,
    };

    pub fn table(&self) -> HallTable {
        self.table.unwrap_or(HallTable::BUILT_IN)
    }

    /// Its speakers that objects are panned over, each with its place.
    pub fn speakers(&self) -> Vec<(Speaker, Panned)> {
        let table = self.table();
        let speakers = self.layout.speakers().iter();
        let panned = speakers.filter(|s| **s != Speaker::Bass);
        panned.map(|s| (*s, table.place(*s))).collect()
    }

    /// Whether one of these hangs below the ears.
    pub fn is_below_the_ears(&self) -> bool {
        self.speakers().iter().any(|(_, place)| place.y < 0.0)
    }

    /// Whether speakers hang elsewhere than in the built-in table.
    pub fn is_own(&self) -> bool {
        self.table() != HallTable::BUILT_IN
    }
}
