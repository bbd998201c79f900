// SPDX-License-Identifier: Apache-2.0
//! A programme as `hallrender` reads it: frames, flushes and resets in records of 40 bytes (document 01, "Listening
//! positions and edges").
mod read;
mod record;
mod window;

pub use read::{Broken, Limits, Reader};
pub use record::{Header, LENGTH, Record, is_pcm, is_plain};
pub use window::Window;

use voqlisna::{Bed, Frame, Metadata, Pcm, Rate, Refusal, ShapeError};

/// What a programme asks for.
#[derive(Clone, Copy, Debug, PartialEq)]
pub enum Ask {
    /// The frame that was filled in.
    Frame,
    Flush,
    Reset,
}

/// Where asks come from: a file, or the demo.
pub trait Programme {
    /// The next one; a frame is filled in.
    fn next(&mut self, frame: &mut Packet) -> Result<Option<Ask>, Broken>;
    /// How much of it is read, from 0 to 1, where that is known.
    fn part(&self) -> Option<f64>;
}

/// A frame as it is read: any rate, any bed codes.
#[derive(Clone, Debug, Default)]
pub struct Packet {
    pub rate: u32,
    pub samples: usize,
    pub codes: Vec<u8>,
    pub objects: usize,
    pub metadata: Vec<u8>,
    /// f32 as bytes, channel after channel.
    pub pcm: Vec<u8>,
}

impl Packet {
    pub fn channels(&self) -> usize {
        self.codes.len() + self.objects
    }

    /// 0 at a rate that is none.
    pub fn seconds(&self) -> f64 {
        Rate::new(self.rate).map_or(0.0, |r| self.samples as f64 / f64::from(r.hertz()))
    }

    /// The beds by name. None where a code is none.
    pub fn beds(&self) -> Option<Vec<Bed>> {
        self.codes.iter().map(|c| Bed::from_code(*c)).collect()
    }

    /// The frame to push. What a `Frame` cannot say, the library refuses before all else: by 2 samples without a
    /// channel and bed codes above 17, and then by 3 a rate.
    pub fn frame<'a>(&'a self, beds: Option<&'a [Bed]>) -> Result<Frame<'a>, Refusal> {
        let beds = beds.ok_or(Refusal::Frame)?;
        if self.channels() == 0 && self.samples > 0 {
            return Err(Refusal::Frame);
        }
        let rate = Rate::new(self.rate).ok_or(Refusal::Rate)?;
        self.shaped(rate, beds).map_err(|_| Refusal::Frame)
    }

    fn shaped<'a>(&'a self, rate: Rate, beds: &'a [Bed]) -> Result<Frame<'a>, ShapeError> {
        let pcm = Pcm::bytes(&self.pcm, self.channels())?;
        Frame::new(rate, beds, pcm, Metadata::from_records(&self.metadata))
    }
}
