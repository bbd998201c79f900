// SPDX-License-Identifier: Apache-2.0
//! Where a hall's speakers hang.

use crate::{Panned, Refusal, Speaker};
use core::fmt;
use voqlisna_sys as sys;

/// The places of a hall's twelve channels, as they were measured: x to the right and z to the front
/// from -1 to 1, y up from the ears to 1, below them to -1.
///
/// Only right tables can be made: each coordinate is finite and from -1 to 1, and no two channels
/// but the bass feed have equal places. All twelve are asked of a smaller [`Layout`](crate::Layout)
/// too. Heights that differ at all are different layers.
///
/// ```
/// use voqlisna::{HallTable, Panned, Speaker, TableError};
/// let mut places = *HallTable::BUILT_IN.places();
/// places[Speaker::Center.channel()] = Panned { x: 0.0, y: 0.25, z: 1.0 };
/// let table = HallTable::new(places)?;
/// assert_eq!(table.place(Speaker::Center).y, 0.25);
/// assert_eq!(HallTable::from_bytes(&table.to_bytes()), Ok(table));
///
/// places[Speaker::FrontRight.channel()] = places[Speaker::FrontLeft.channel()];
/// let wrong = HallTable::new(places).unwrap_err();
/// assert_eq!(wrong.to_string(), "FL and FR are at the same place");
/// assert_eq!(wrong.refusal().number(), 18);
/// # Ok::<(), TableError>(())
/// ```
#[derive(Clone, Copy, Debug, PartialEq)]
pub struct HallTable {
    places: [Panned; 12],
}

impl HallTable {
    /// That of a renderer which is made without one.
    pub const BUILT_IN: Self = Self {
        places: [
            built_in(Speaker::FrontLeft),
            built_in(Speaker::FrontRight),
            built_in(Speaker::Center),
            built_in(Speaker::Bass),
            built_in(Speaker::RearLeft),
            built_in(Speaker::RearRight),
            built_in(Speaker::SurroundLeft),
            built_in(Speaker::SurroundRight),
            built_in(Speaker::TopFrontLeft),
            built_in(Speaker::TopFrontRight),
            built_in(Speaker::TopRearLeft),
            built_in(Speaker::TopRearRight),
        ],
    };

    /// The places by channel. That of the bass feed is checked and kept, and nothing is panned by it.
    pub fn new(places: [Panned; 12]) -> Result<Self, TableError> {
        let table = Self { places };
        let fault = table.bad_coordinate().or_else(|| table.equal_places());
        fault.map_or(Ok(table), Err)
    }

    /// From twelve records of twelve bytes by channel: x, y and z, each a little-endian f32.
    pub fn from_bytes(bytes: &[u8]) -> Result<Self, TableError> {
        match <&[u8; sys::TABLE_SIZE]>::try_from(bytes) {
            Ok(bytes) => Self::new(read(bytes)),
            Err(_) => Err(TableError::Length(bytes.len())),
        }
    }

    /// Of a block that is valid, so that the table is right.
    pub(crate) fn of_block(block: &[u8]) -> Self {
        let bytes = block.get(sys::TABLE_AT..).and_then(<[u8]>::first_chunk);
        bytes.map_or(Self::BUILT_IN, |bytes| Self {
            places: read(bytes),
        })
    }

    /// As [`HallTable::from_bytes`] reads them, and [`crate::sys::hall_make_with_table`].
    pub fn to_bytes(&self) -> [u8; sys::TABLE_SIZE] {
        let words = self.places.iter().flat_map(|at| [at.x, at.y, at.z]);
        let mut from = words.flat_map(f32::to_le_bytes);
        [(); sys::TABLE_SIZE].map(|()| from.next().unwrap_or_default())
    }

    /// By channel.
    pub const fn places(&self) -> &[Panned; 12] {
        &self.places
    }

    /// Where that one hangs: an object of size 0 there sounds from it alone, if the layout has it
    /// and it is not the bass feed.
    pub fn place(&self, speaker: Speaker) -> Panned {
        let place = self.places.get(speaker.channel());
        place.copied().unwrap_or_default()
    }

    fn bad_coordinate(&self) -> Option<TableError> {
        let mut named = Speaker::ALL.into_iter().zip(self.places);
        named.find_map(|(speaker, Panned { x, y, z })| {
            let mut axes = [(Axis::X, x), (Axis::Y, y), (Axis::Z, z)].into_iter();
            let (axis, value) = axes.find(|(_, value)| !(-1.0..=1.0).contains(value))?;
            Some(TableError::Coordinate {
                speaker,
                axis,
                value,
            })
        })
    }

    fn equal_places(&self) -> Option<TableError> {
        let full_range = || Speaker::ALL.into_iter().filter(|s| *s != Speaker::Bass);
        full_range().find_map(|second| {
            let same = |s: &Speaker| *s < second && self.place(*s) == self.place(second);
            let first = full_range().find(same)?;
            Some(TableError::SamePlace { first, second })
        })
    }
}

const fn built_in(speaker: Speaker) -> Panned {
    const FRONT: Panned = Panned {
        x: 0.0,
        y: 0.0,
        z: 1.0,
    };
    match speaker.place() {
        Some(place) => place,
        None => FRONT,
    }
}

fn read(bytes: &[u8; sys::TABLE_SIZE]) -> [Panned; 12] {
    let words = bytes.chunks_exact(4).filter_map(<[u8]>::first_chunk);
    let mut words = words.map(|word| f32::from_le_bytes(*word));
    let mut next = || words.next().unwrap_or_default();
    [(); 12].map(|()| Panned {
        x: next(),
        y: next(),
        z: next(),
    })
}

/// A coordinate of a [`Panned`] place.
#[derive(Clone, Copy, Debug, PartialEq, Eq, Hash)]
pub enum Axis {
    /// To the right.
    X,
    /// Up.
    Y,
    /// To the front.
    Z,
}

impl fmt::Display for Axis {
    fn fmt(&self, f: &mut fmt::Formatter<'_>) -> fmt::Result {
        f.pad(match self {
            Self::X => "x",
            Self::Y => "y",
            Self::Z => "z",
        })
    }
}

/// Why a hall table is not right: the first reason in the order of 16, 17 and 18, each by channel.
#[non_exhaustive]
#[derive(Clone, Copy, Debug, PartialEq)]
pub enum TableError {
    /// 16: another length in bytes than 144.
    Length(usize),
    /// 17: a coordinate that is not finite, or outside -1 to 1.
    Coordinate {
        /// Whose.
        speaker: Speaker,
        /// Which.
        axis: Axis,
        /// What it is.
        value: f32,
    },
    /// 18: two speakers with equal coordinates, either zero being the other.
    SamePlace {
        /// That of the lower channel.
        first: Speaker,
        /// The other.
        second: Speaker,
    },
}

impl TableError {
    /// By which [`crate::sys::hall_make_with_table`] refuses such a table.
    pub const fn refusal(self) -> Refusal {
        match self {
            Self::Length(_) => Refusal::TableLength,
            Self::Coordinate { .. } => Refusal::TableCoordinate,
            Self::SamePlace { .. } => Refusal::TablePlaces,
        }
    }
}

impl fmt::Display for TableError {
    fn fmt(&self, f: &mut fmt::Formatter<'_>) -> fmt::Result {
        match self {
            Self::Length(length) => write!(
                f,
                "a hall table has {} bytes, and this one {length}",
                sys::TABLE_SIZE
            ),
            Self::Coordinate {
                speaker,
                axis,
                value,
            } => write!(
                f,
                "{axis} of {speaker} is {value}, and must be from -1 to 1"
            ),
            Self::SamePlace { first, second } => {
                write!(f, "{first} and {second} are at the same place")
            }
        }
    }
}

impl core::error::Error for TableError {}
