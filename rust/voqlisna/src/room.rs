// SPDX-License-Identifier: Apache-2.0
//! Places: as records have them, and as they are panned. Two types, so that the axes cannot be
//! mixed up.

/// A place as a record has it: x from 0 at the left wall to 1 at the right one, y from 0 at the
/// screen to 1 at the rear wall, z from 0 at the ears to 1 at the ceiling. A record may have places
/// outside, too.
///
/// ```
/// use voqlisna::{Panned, Room};
/// let screen_left = Room { x: 0.0, y: 0.0, z: 0.0 };
/// assert_eq!(screen_left.panned(), Panned { x: -1.0, y: 0.0, z: 1.0 });
/// assert_eq!(Room::CENTER.panned().room(), Room::CENTER);
/// ```
#[derive(Clone, Copy, Debug, PartialEq, Default)]
pub struct Room {
    /// To the right.
    pub x: f32,
    /// To the rear.
    pub y: f32,
    /// Up.
    pub z: f32,
}

impl Room {
    /// The middle, at the height of the ears.
    pub const CENTER: Self = Self {
        x: 0.5,
        y: 0.5,
        z: 0.0,
    };

    /// Where an object that is anchored to the room, without a distance, is panned.
    pub fn panned(self) -> Panned {
        Panned {
            x: self.x * 2.0 - 1.0,
            y: self.z,
            z: self.y * -2.0 + 1.0,
        }
    }
}

/// A place as it is panned: x to the right and z to the front, both from -1 to 1, y up from the
/// ears, 0 to 1. A speaker of a [`HallTable`](crate::HallTable) may hang below them, to -1.
#[derive(Clone, Copy, Debug, PartialEq, Default)]
pub struct Panned {
    /// To the right.
    pub x: f32,
    /// Up.
    pub y: f32,
    /// To the front.
    pub z: f32,
}

impl Panned {
    /// A record's place that is panned here, to within rounding.
    pub fn room(self) -> Room {
        Room {
            x: (self.x + 1.0) / 2.0,
            y: (1.0 - self.z) / 2.0,
            z: self.y,
        }
    }
}
