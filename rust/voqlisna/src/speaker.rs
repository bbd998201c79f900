// SPDX-License-Identifier: Apache-2.0
//! The hall's twelve feeds.

use crate::Panned;

/// The channel mask of a WAVE file with all twelve.
pub const WAVE_MASK: u32 = 0x2_d63f;

/// The twelve channels, in the order of the output, which is the order of WAVE files.
///
/// ```
/// use voqlisna::{Speaker, WAVE_MASK};
/// assert_eq!(Speaker::from_short_name("tfl"), Some(Speaker::TopFrontLeft));
/// assert_eq!(Speaker::TopFrontLeft.channel(), 8);
/// assert_eq!(Speaker::ALL.iter().fold(0, |mask, s| mask | s.wave_bit()), WAVE_MASK);
/// ```
#[repr(u8)]
#[derive(Clone, Copy, Debug, PartialEq, Eq, PartialOrd, Ord, Hash)]
pub enum Speaker {
    /// FL.
    FrontLeft,
    /// FR.
    FrontRight,
    /// FC.
    Center,
    /// LFE, the bass feed.
    Bass,
    /// BL.
    RearLeft,
    /// BR.
    RearRight,
    /// SL.
    SurroundLeft,
    /// SR.
    SurroundRight,
    /// TFL.
    TopFrontLeft,
    /// TFR.
    TopFrontRight,
    /// TBL.
    TopRearLeft,
    /// TBR.
    TopRearRight,
}

impl Speaker {
    /// All twelve, by channel.
    pub const ALL: [Self; 12] = [
        Self::FrontLeft,
        Self::FrontRight,
        Self::Center,
        Self::Bass,
        Self::RearLeft,
        Self::RearRight,
        Self::SurroundLeft,
        Self::SurroundRight,
        Self::TopFrontLeft,
        Self::TopFrontRight,
        Self::TopRearLeft,
        Self::TopRearRight,
    ];

    /// 0 to 11.
    pub const fn channel(self) -> usize {
        self as usize
    }

    /// As players and file tools name it.
    pub const fn short_name(self) -> &'static str {
        match self {
            Self::FrontLeft => "FL",
            Self::FrontRight => "FR",
            Self::Center => "FC",
            Self::Bass => "LFE",
            Self::RearLeft => "BL",
            Self::RearRight => "BR",
            Self::SurroundLeft => "SL",
            Self::SurroundRight => "SR",
            Self::TopFrontLeft => "TFL",
            Self::TopFrontRight => "TFR",
            Self::TopRearLeft => "TBL",
            Self::TopRearRight => "TBR",
        }
    }

    /// In capital or small letters.
    pub fn from_short_name(name: &str) -> Option<Self> {
        Self::ALL
            .into_iter()
            .find(|speaker| speaker.short_name().eq_ignore_ascii_case(name))
    }

    /// Its bit in a WAVE file's channel mask.
    pub const fn wave_bit(self) -> u32 {
        match self {
            Self::FrontLeft => 0x1,
            Self::FrontRight => 0x2,
            Self::Center => 0x4,
            Self::Bass => 0x8,
            Self::RearLeft => 0x10,
            Self::RearRight => 0x20,
            Self::SurroundLeft => 0x200,
            Self::SurroundRight => 0x400,
            Self::TopFrontLeft => 0x1000,
            Self::TopFrontRight => 0x4000,
            Self::TopRearLeft => 0x8000,
            Self::TopRearRight => 0x2_0000,
        }
    }

    /// Where it hangs in the built-in table ([`HallTable::BUILT_IN`](crate::HallTable::BUILT_IN)): an
    /// object of size 0 there sounds from it alone. The bass feed has no place.
    pub const fn place(self) -> Option<Panned> {
        const A: f32 = 0.707_106_77;
        const B: f32 = 0.483_689_52;
        let (x, y, z) = match self {
            Self::FrontLeft => (-A, 0.0, 1.0),
            Self::FrontRight => (A, 0.0, 1.0),
            Self::Center => (0.0, 0.0, 1.0),
            Self::Bass => return None,
            Self::RearLeft => (-A, 0.0, -1.0),
            Self::RearRight => (A, 0.0, -1.0),
            Self::SurroundLeft => (-1.0, 0.0, -B),
            Self::SurroundRight => (1.0, 0.0, -B),
            Self::TopFrontLeft => (-1.0, 1.0, B),
            Self::TopFrontRight => (1.0, 1.0, B),
            Self::TopRearLeft => (-A, 1.0, -1.0),
            Self::TopRearRight => (A, 1.0, -1.0),
        };
        Some(Panned { x, y, z })
    }
}

impl core::fmt::Display for Speaker {
    fn fmt(&self, f: &mut core::fmt::Formatter<'_>) -> core::fmt::Result {
        f.pad(self.short_name())
    }
}
