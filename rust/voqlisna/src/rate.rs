// SPDX-License-Identifier: Apache-2.0
//! The sample rate.

/// A sample rate that the library takes: 8,000 to 192,000 Hz.
///
/// ```
/// use voqlisna::Rate;
/// assert_eq!(Rate::new(44_100).map(Rate::hertz), Some(44_100));
/// assert_eq!(Rate::new(7_999), None);
/// ```
#[derive(Clone, Copy, Debug, PartialEq, Eq, PartialOrd, Ord, Hash)]
pub struct Rate(u32);

impl Rate {
    /// 48,000 Hz.
    pub const HZ_48000: Self = Self(48_000);

    /// None outside of the range.
    pub const fn new(hertz: u32) -> Option<Self> {
        if matches!(hertz, 8_000..=192_000) {
            Some(Self(hertz))
        } else {
            None
        }
    }

    /// In hertz.
    pub const fn hertz(self) -> u32 {
        self.0
    }
}
