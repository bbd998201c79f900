// SPDX-License-Identifier: Apache-2.0
//! What an update says of objects, and as records.

use crate::metadata::{Bytes40, RECORD};
use crate::{BuildError, Room};

/// The greatest offset and ramp, either sign.
pub(crate) const MOST_TIME: i64 = 1_048_576;
/// The greatest gain.
pub(crate) const MOST_GAIN: f32 = 8.0;
/// The greatest size.
pub(crate) const MOST_SIZE: f32 = 1.0;
/// The greatest send.
pub(crate) const MOST_SEND: f32 = 1.0;

/// When a block of an element starts, and how long its objects take to their new places.
///
/// A block applies at the first slot of 64 samples whose time since the update is greater than its
/// offset, so with offset 0 at sample 64.
#[derive(Clone, Copy, Debug, PartialEq, Eq, Default)]
pub struct Block {
    /// Samples after the update, within ±1,048,576.
    pub offset: i64,
    /// Samples, within ±1,048,576.
    pub ramp: i64,
}

impl Block {
    pub(crate) fn record(self) -> Result<Bytes40, BuildError> {
        let within = |x| (-MOST_TIME..=MOST_TIME).contains(&x);
        if !within(self.offset) || !within(self.ramp) {
            return Err(BuildError::Offset);
        }
        let mut r = [0; RECORD];
        r[0] = 3;
        r[8..16].copy_from_slice(&self.offset.to_le_bytes());
        r[16..24].copy_from_slice(&self.ramp.to_le_bytes());
        Ok(r)
    }
}

/// What a position is measured against.
#[repr(u8)]
#[derive(Clone, Copy, Debug, PartialEq, Eq, Default)]
pub enum Anchor {
    /// The room.
    #[default]
    Room,
    /// The screen.
    Screen,
    /// Nothing: the object stays where it is. Beds are always so.
    Speaker,
}

impl Anchor {
    /// All three, by code.
    pub const ALL: [Self; 3] = [Self::Room, Self::Screen, Self::Speaker];

    /// 0 to 2, as in a record.
    pub const fn code(self) -> u8 {
        self as u8
    }

    /// None above 2.
    pub fn from_code(code: u8) -> Option<Self> {
        Self::ALL.get(usize::from(code)).copied()
    }
}

/// How a screen-anchored position leaves the screen: by its y to this power.
#[derive(Clone, Copy, Debug, PartialEq, Eq, Default)]
pub enum Depth {
    /// 0.25.
    Quarter,
    /// 0.5.
    Half,
    /// 1.
    #[default]
    One,
    /// 2.
    Two,
}

impl Depth {
    /// All four, rising.
    pub const ALL: [Self; 4] = [Self::Quarter, Self::Half, Self::One, Self::Two];

    /// 0.25, 0.5, 1 or 2.
    pub const fn factor(self) -> f32 {
        match self {
            Self::Quarter => 0.25,
            Self::Half => 0.5,
            Self::One => 1.0,
            Self::Two => 2.0,
        }
    }

    /// None for every other number.
    pub fn from_factor(factor: f32) -> Option<Self> {
        Self::ALL.into_iter().find(|depth| depth.factor() == factor)
    }
}

/// One object in one block. What is `None` stays as it was; the send is always set.
///
/// ```
/// use voqlisna::{Object, Room};
/// let loud = Object::at(Room::CENTER).gain(2.0);
/// assert_eq!((loud.gain, loud.send), (Some(2.0), 0.0));
/// let shakes = loud.send(0.5); // the bass feed gets sample × (gain × send), so here the sample
/// assert_eq!((shakes.gain, shakes.send), (Some(2.0), 0.5));
/// assert_eq!(Object::KEEP, Object::default());
/// ```
#[derive(Clone, Copy, Debug, PartialEq, Default)]
pub struct Object {
    /// What the position is measured against.
    pub anchor: Anchor,
    /// 0 to 8.
    pub gain: Option<f32>,
    /// The place, or a step.
    pub position: Option<Room>,
    /// The position is to be used.
    pub valid: bool,
    /// The position is a step from the last one that was no step, and ends in the room.
    pub differential: bool,
    /// Of a room-anchored position; an infinite one counts as 100.
    pub distance: Option<f32>,
    /// 0 to 1.
    pub size: Option<f32>,
    /// Of a screen-anchored position: 0 scales it to the screen, 1 leaves it in the room.
    pub screen_factor: f32,
    /// Of a screen-anchored position.
    pub depth: Depth,
    /// 0 to 1: what the object puts into the bass feed, times its gain. Of a bed it does nothing.
    pub send: f32,
}

impl Object {
    /// A bed channel, or an object that keeps what it has; its send becomes 0.
    pub const KEEP: Self = Self {
        anchor: Anchor::Room,
        gain: None,
        position: None,
        valid: false,
        differential: false,
        distance: None,
        size: None,
        screen_factor: 0.0,
        depth: Depth::One,
        send: 0.0,
    };

    /// At a place of the room.
    pub const fn at(place: Room) -> Self {
        Self {
            position: Some(place),
            valid: true,
            ..Self::KEEP
        }
    }

    /// With this gain.
    #[must_use]
    pub const fn gain(self, gain: f32) -> Self {
        Self {
            gain: Some(gain),
            ..self
        }
    }

    /// With this size.
    #[must_use]
    pub const fn size(self, size: f32) -> Self {
        Self {
            size: Some(size),
            ..self
        }
    }

    /// With this send to the bass feed.
    #[must_use]
    pub const fn send(self, send: f32) -> Self {
        Self { send, ..self }
    }

    pub(crate) fn record(&self) -> Result<Bytes40, BuildError> {
        if self
            .gain
            .is_some_and(|gain| !(0.0..=MOST_GAIN).contains(&gain))
        {
            return Err(BuildError::Gain);
        }
        if self
            .size
            .is_some_and(|size| !(0.0..=MOST_SIZE).contains(&size))
        {
            return Err(BuildError::Size);
        }
        if !(0.0..=MOST_SEND).contains(&self.send) {
            return Err(BuildError::Send);
        }
        let mut r = [0; RECORD];
        r[0] = 4;
        r[1] = self.anchor.code();
        r[2] = self.flags();
        let word = |x: Option<f32>| x.map_or([0; 4], f32::to_le_bytes);
        r[4..8].copy_from_slice(&word(self.gain));
        r[8..12].copy_from_slice(&word(self.position.map(|p| p.x)));
        r[12..16].copy_from_slice(&word(self.position.map(|p| p.y)));
        r[16..20].copy_from_slice(&word(self.position.map(|p| p.z)));
        r[20..24].copy_from_slice(&word(self.distance));
        r[24..28].copy_from_slice(&word(self.size));
        r[28..32].copy_from_slice(&self.screen_factor.to_le_bytes());
        r[32..36].copy_from_slice(&self.depth.factor().to_le_bytes());
        r[36..40].copy_from_slice(&self.send.to_le_bytes());
        Ok(r)
    }

    fn flags(&self) -> u8 {
        u8::from(self.valid)
            | u8::from(self.differential) << 1
            | u8::from(self.gain.is_some()) << 2
            | u8::from(self.position.is_some()) << 3
            | u8::from(self.distance.is_some()) << 4
            | u8::from(self.size.is_some()) << 5
    }
}
