// SPDX-License-Identifier: Apache-2.0
//! What the limiter met and did.
use crate::numbers::level;
use voqlisna::Rendered;

/// The greatest peak and the least gain of a call, or of several.
#[derive(Clone, Copy)]
pub struct Met {
    pub peak: f32,
    pub gain: f32,
}

impl Met {
    pub const NOTHING: Self = Self {
        peak: 0.0,
        gain: 1.0,
    };

    pub fn of(sound: &Rendered<'_>) -> Self {
        Self {
            peak: sound.peak(),
            gain: sound.gain(),
        }
    }

    pub fn with(self, other: Self) -> Self {
        Self {
            peak: self.peak.max(other.peak),
            gain: self.gain.min(other.gain),
        }
    }

    /// In dB, 0 where nothing is turned down.
    pub fn reduction(self) -> f64 {
        level(1.0 / f64::from(self.gain))
    }
}
