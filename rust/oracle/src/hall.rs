//! Document 02's: which of the twelve channels a hall has, and where their speakers
//! hang.

use crate::{Vector, leaf};

const BASS: usize = 3;

#[derive(Clone, Debug, PartialEq)]
pub struct Hall {
    /// 0 has all channels; 1 lacks 4 and 5, 2 lacks 8 to 11, 3 lacks both.
    pub layout: u8,
    /// By channel; that of the bass channel is not used.
    pub table: [Vector; 12],
}

impl Hall {
    /// All channels, where the sources have them.
    pub fn built_in() -> Self {
        Self::of_layout(0)
    }

    /// The channels of a layout, where the sources have them.
    pub fn of_layout(layout: u8) -> Self {
        Self {
            layout,
            table: leaf::speakers(),
        }
    }

    pub fn has(&self, channel: usize) -> bool {
        match channel {
            4 | 5 => matches!(self.layout, 0 | 2),
            8..=11 => matches!(self.layout, 0 | 1),
            _ => true,
        }
    }

    /// Whether objects and folded beds can sound there.
    pub fn pans(&self, channel: usize) -> bool {
        channel != BASS && self.has(channel)
    }

    /// How many channels there are, the bass channel being one.
    pub fn channels(&self) -> usize {
        (0..12).filter(|&channel| self.has(channel)).count()
    }

    /// An absent channel has no samples.
    pub fn leave_out(&self, channels: &mut [Vec<f32>]) {
        for (channel, samples) in channels.iter_mut().enumerate() {
            if !self.has(channel) {
                samples.clear();
            }
        }
    }
}
