// SPDX-License-Identifier: Apache-2.0
//! Where to put a sound.

use crate::memory::Bytes;
use crate::{Panned, Renderer, Speaker, entry};

/// Of a place that is found.
const FOUND: u32 = 0;

impl<B: Bytes> Renderer<B> {
    /// A place where an object of gain 1 and size 0 sounds from just these speakers, in the
    /// renderer's layout and over its table; none where the grid has no such place.
    ///
    /// The grid is of panned places: x and z from -1 to 1 in steps of 1/32, y from 0 to 1 in steps of
    /// 1/16. Of several the lowest is answered; of those the rearmost (the least z); of those the
    /// leftmost (the least x). There is none for no speaker, with the bass feed, and with a speaker
    /// that the layout lacks. Order and repetitions of the speakers do not matter.
    ///
    /// [`Panned::room`] is the place as a record has it, for the grid exactly: an object that is sent
    /// there, anchored to the room and without a distance, is panned at the place itself.
    ///
    /// Up to 71,825 places are looked at: not for an audio thread.
    ///
    /// ```
    /// use voqlisna::*;
    /// let renderer = Renderer::new(Layout::Hall514)?;
    /// let place = renderer.find(&[Speaker::FrontLeft, Speaker::Center]).ok_or("nowhere")?;
    /// assert_eq!((place.y, place.z), (0.0, 1.0)); // between the two, at the screen
    /// assert!(-0.707 < place.x && place.x < 0.0);
    /// let object = Object::at(place.room()); // for a record
    /// assert_eq!(object.position.map(Room::panned), Some(place));
    ///
    /// assert_eq!(renderer.find(&[Speaker::FrontLeft, Speaker::RearLeft]), None); // 5.1.4 has no BL
    /// assert_eq!(renderer.find(&[Speaker::Bass]), None);
    /// assert_eq!(renderer.find(&[]), None);
    /// # Ok::<(), Box<dyn std::error::Error>>(())
    /// ```
    pub fn find(&self, speakers: &[Speaker]) -> Option<Panned> {
        let bits = speakers.iter().map(|speaker| 1 << speaker.channel());
        let mask = bits.fold(0, |mask, bit: u32| mask | bit);
        // Refused is only a block that is not valid, which this is not.
        let found = entry::find(self.block(), mask);
        (found.kind == FOUND).then_some(Panned {
            x: found.x,
            y: found.y,
            z: found.z,
        })
    }
}
