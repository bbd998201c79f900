// SPDX-License-Identifier: Apache-2.0
//! Labels of bed channels.

/// The label of a bed channel.
///
/// A bed whose speaker the layout lacks is panned to its place, over the speakers that are there;
/// its level is then the root of its gain.
///
/// The codes are those of the metadata, 0 to 17, so a code that push refuses cannot be said.
///
/// ```
/// use voqlisna::Bed;
/// assert_eq!(Bed::Bass.code(), 3);
/// assert_eq!(Bed::from_code(17), Some(Bed::Bass2));
/// assert_eq!(Bed::from_code(18), None);
/// ```
#[repr(u8)]
#[derive(Clone, Copy, Debug, PartialEq, Eq, PartialOrd, Ord, Hash)]
pub enum Bed {
    /// Plays from front left.
    FrontLeft,
    /// Plays from front right.
    FrontRight,
    /// Plays from the center.
    Center,
    /// Plays from the bass feed, through its low-pass.
    Bass,
    /// Plays from surround left.
    SurroundLeft,
    /// Plays from surround right.
    SurroundRight,
    /// Not supported: an update that names it is refused (14).
    RearCenter,
    /// Plays from rear left.
    RearLeft,
    /// Plays from rear right.
    RearRight,
    /// Plays from top front left.
    TopFrontLeft,
    /// Plays from top front right.
    TopFrontRight,
    /// Panned: the hall has no such speaker.
    TopSurroundLeft,
    /// Panned: the hall has no such speaker.
    TopSurroundRight,
    /// Plays from top rear left.
    TopRearLeft,
    /// Plays from top rear right.
    TopRearRight,
    /// Panned: the hall has no such speaker.
    WideLeft,
    /// Panned: the hall has no such speaker.
    WideRight,
    /// A second bass channel, to the same feed.
    Bass2,
}

impl Bed {
    /// All eighteen, by code.
    pub const ALL: [Self; 18] = [
        Self::FrontLeft,
        Self::FrontRight,
        Self::Center,
        Self::Bass,
        Self::SurroundLeft,
        Self::SurroundRight,
        Self::RearCenter,
        Self::RearLeft,
        Self::RearRight,
        Self::TopFrontLeft,
        Self::TopFrontRight,
        Self::TopSurroundLeft,
        Self::TopSurroundRight,
        Self::TopRearLeft,
        Self::TopRearRight,
        Self::WideLeft,
        Self::WideRight,
        Self::Bass2,
    ];

    /// 0 to 17.
    pub const fn code(self) -> u8 {
        self as u8
    }

    /// None above 17.
    pub fn from_code(code: u8) -> Option<Self> {
        Self::ALL.get(usize::from(code)).copied()
    }

    pub(crate) const fn codes(beds: &[Self]) -> &[u8] {
        // SAFETY: a `Bed` is repr(u8) without fields: one initialised byte.
        unsafe { core::slice::from_raw_parts(beds.as_ptr().cast(), beds.len()) }
    }
}
