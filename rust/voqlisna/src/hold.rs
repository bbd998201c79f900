// SPDX-License-Identifier: Apache-2.0
//! Objects that are held while they move.

use crate::memory::Bytes;
use crate::{Refusal, Renderer, entry};
use voqlisna_sys as sys;

/// Among an object's marks in the block.
const WANTED: u8 = 2;

/// Of a call that refuses or has nothing to tell.
fn done(answer: sys::Answer) -> Result<(), Refusal> {
    Refusal::from_answer(answer).map_or(Ok(()), Err)
}

impl<B: Bytes> Renderer<B> {
    /// Holds a dynamic object where it is, from the next slot on: its place stays, while gain, size,
    /// send and the countdown of its ramp go on. Objects are counted from 0, as in the PCM; a second
    /// hold changes nothing.
    ///
    /// Refused is only a number that is not below the last applied update's dynamic objects
    /// ([`Refusal::ObjectNumber`]). An update that changes how many there are ends all holds, and so
    /// does [`Renderer::reset`].
    ///
    /// ```
    /// # use voqlisna::*;
    /// # fn toward(x: f32, ramp: i64) -> Result<[u8; 160], BuildError> {
    /// #     let mut memory = [0; MetadataWriter::bytes_for(1, &[1])];
    /// #     MetadataWriter::new(&mut memory)
    /// #         .update(Update { at: 0, objects: 1, fixed: 0, beds: &[] })?
    /// #         .element(&[Block { offset: 0, ramp }], |_, _| {
    /// #             Object::at(Room { x, y: 0.0, z: 0.0 }).gain(1.0)
    /// #         })?;
    /// #     Ok(memory)
    /// # }
    /// # let mut out = Output::new(Stride::MAX);
    /// # let mut level = |renderer: &mut Renderer, metadata| {
    /// #     let frame = Frame::new(Rate::HZ_48000, &[], Pcm::packed(&[0.5; 512], 1)?, metadata)?;
    /// #     let sound = renderer.push(&frame, &mut out)?;
    /// #     Ok::<f32, Box<dyn std::error::Error>>(sound.channel(Speaker::FrontLeft)[511])
    /// # };
    /// # let (left, right) = (toward(0.0, 0)?, toward(1.0, 2_000)?);
    /// # let [to_the_left, to_the_right] = [&left, &right].map(|r| Metadata::from_records(r));
    /// # let go_on = Metadata::NONE;
    /// let mut renderer = Renderer::new(Layout::Hall714)?;
    /// assert_eq!(renderer.hold(0), Err(Refusal::ObjectNumber)); // no update has come yet
    ///
    /// let at_the_left = level(&mut renderer, to_the_left)?; // of FL, after a push
    /// renderer.hold(0)?;
    /// assert_eq!(level(&mut renderer, to_the_right)?, at_the_left);
    /// assert!(renderer.is_held(0));
    /// renderer.release(0)?; // it goes on with what is left of the ramp
    /// assert!(level(&mut renderer, go_on)? < at_the_left);
    /// # Ok::<(), Box<dyn std::error::Error>>(())
    /// ```
    pub fn hold(&mut self, object: u32) -> Result<(), Refusal> {
        done(entry::hold(self.lend(), object))
    }

    /// Lets a held object go on, from the next slot on: with what is left of its ramp, from where it
    /// is held, or to its target at once where nothing is left. One that has no target, or is not
    /// held, stays as it is. Refused as [`Renderer::hold`] is.
    pub fn release(&mut self, object: u32) -> Result<(), Refusal> {
        done(entry::release(self.lend(), object))
    }

    /// Whether a hold of this object was asked for and has not ended: for a lamp on an operator's
    /// panel.
    pub fn is_held(&self, object: u32) -> bool {
        let sources = self.block().get(sys::SOURCES_AT..).unwrap_or_default();
        let number = usize::try_from(object)
            .ok()
            .filter(|n| *n < crate::shape::OBJECTS);
        let source = number.and_then(|n| sources.chunks_exact(sys::SOURCE_SIZE).nth(n));
        let marks = source.and_then(|source| source.get(20));
        marks.is_some_and(|marks| marks & WANTED != 0)
    }
}
