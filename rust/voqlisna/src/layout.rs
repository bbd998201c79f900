// SPDX-License-Identifier: Apache-2.0
//! Which of the twelve channels a hall has.

use crate::Speaker;
use core::fmt;
use core::str::FromStr;

/// The loudspeakers of a hall.
///
/// Channels keep their numbers and their places in the output, and nothing is given out on those
/// that the hall lacks. Objects are panned over the speakers that are there, and so is a bed whose
/// own speaker is not.
///
/// ```
/// use voqlisna::{Layout, Speaker};
/// let layout: Layout = "5.1.4".parse()?;
/// assert_eq!((layout, layout.code()), (Layout::Hall514, 1));
/// assert!(layout.has(Speaker::TopFrontLeft) && !layout.has(Speaker::RearLeft));
/// assert_eq!(layout.speakers().len(), 10);
/// assert_eq!(format!("{layout}, mask {:#x}", layout.wave_mask()), "5.1.4, mask 0x2d60f");
/// # Ok::<(), voqlisna::UnknownLayout>(())
/// ```
#[repr(u8)]
#[derive(Clone, Copy, Debug, Default, PartialEq, Eq, PartialOrd, Ord, Hash)]
pub enum Layout {
    /// 7.1.4: all twelve.
    #[default]
    Hall714,
    /// 5.1.4: without rear left and right.
    Hall514,
    /// 7.1.0: without the four top channels.
    Hall710,
    /// 5.1.0: without rear left and right and the four top channels.
    Hall510,
}

impl Layout {
    /// All four, by code.
    pub const ALL: [Self; 4] = [Self::Hall714, Self::Hall514, Self::Hall710, Self::Hall510];

    /// 0 to 3, as [`crate::sys::hall_make`] takes it.
    pub const fn code(self) -> u32 {
        self as u32
    }

    /// None above 3.
    pub fn from_code(code: u32) -> Option<Self> {
        Self::ALL.into_iter().find(|layout| layout.code() == code)
    }

    /// "7.1.4" and so on, as `Display` writes it and `FromStr` reads it.
    pub const fn name(self) -> &'static str {
        match self {
            Self::Hall714 => "7.1.4",
            Self::Hall514 => "5.1.4",
            Self::Hall710 => "7.1.0",
            Self::Hall510 => "5.1.0",
        }
    }

    /// Whether it has that channel.
    pub const fn has(self, speaker: Speaker) -> bool {
        match speaker {
            Speaker::RearLeft | Speaker::RearRight => {
                matches!(self, Self::Hall714 | Self::Hall710)
            }
            Speaker::TopFrontLeft
            | Speaker::TopFrontRight
            | Speaker::TopRearLeft
            | Speaker::TopRearRight => matches!(self, Self::Hall714 | Self::Hall514),
            _ => true,
        }
    }

    /// Its channels, in their order: twelve, ten, eight or six.
    pub const fn speakers(self) -> &'static [Speaker] {
        use Speaker::{
            Bass, Center, FrontLeft, FrontRight, SurroundLeft, SurroundRight, TopFrontLeft,
            TopFrontRight, TopRearLeft, TopRearRight,
        };
        const EIGHT: &[Speaker] = Speaker::ALL.split_at(8).0;
        match self {
            Self::Hall714 => &Speaker::ALL,
            Self::Hall514 => &[
                FrontLeft,
                FrontRight,
                Center,
                Bass,
                SurroundLeft,
                SurroundRight,
                TopFrontLeft,
                TopFrontRight,
                TopRearLeft,
                TopRearRight,
            ],
            Self::Hall710 => EIGHT,
            Self::Hall510 => &[
                FrontLeft,
                FrontRight,
                Center,
                Bass,
                SurroundLeft,
                SurroundRight,
            ],
        }
    }

    /// The channel mask of a WAVE file with its channels.
    pub const fn wave_mask(self) -> u32 {
        match self {
            Self::Hall714 => crate::WAVE_MASK,
            Self::Hall514 => 0x2_d60f,
            Self::Hall710 => 0x63f,
            Self::Hall510 => 0x60f,
        }
    }
}

impl fmt::Display for Layout {
    fn fmt(&self, f: &mut fmt::Formatter<'_>) -> fmt::Result {
        f.pad(self.name())
    }
}

impl FromStr for Layout {
    type Err = UnknownLayout;

    fn from_str(name: &str) -> Result<Self, UnknownLayout> {
        let named = Self::ALL.into_iter().find(|layout| layout.name() == name);
        named.ok_or(UnknownLayout)
    }
}

/// No layout has that name.
#[derive(Clone, Copy, Debug, PartialEq, Eq)]
pub struct UnknownLayout;

impl fmt::Display for UnknownLayout {
    fn fmt(&self, f: &mut fmt::Formatter<'_>) -> fmt::Result {
        f.write_str("a layout is 7.1.4, 5.1.4, 7.1.0 or 5.1.0")
    }
}

impl core::error::Error for UnknownLayout {}
