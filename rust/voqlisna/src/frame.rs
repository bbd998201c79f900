// SPDX-License-Identifier: Apache-2.0
//! What a push receives.

use crate::shape::{BEDS, OBJECTS, ShapeError};
use crate::{Bed, Metadata, Pcm, Rate};

/// One frame: samples, the labels of the first channels, metadata.
///
/// ```
/// use voqlisna::*;
/// let sound = [0.0; 3 * 256];
/// let pcm = Pcm::packed(&sound, 3)?;
/// let frame = Frame::new(Rate::HZ_48000, &[Bed::Center], pcm, Metadata::NONE)?;
/// assert_eq!(frame.objects(), 2);
/// # Ok::<(), ShapeError>(())
/// ```
#[derive(Clone, Copy, Debug)]
pub struct Frame<'a> {
    rate: Rate,
    beds: &'a [Bed],
    objects: usize,
    pcm: Pcm<'a>,
    metadata: Metadata<'a>,
}

impl<'a> Frame<'a> {
    /// No channel, no samples: push refuses it.
    pub(crate) const NOTHING: Frame<'static> = Frame {
        rate: Rate::HZ_48000,
        beds: &[],
        objects: 0,
        pcm: Pcm::EMPTY,
        metadata: Metadata::NONE,
    };

    /// The first channels are the beds, the rest objects.
    pub fn new(
        rate: Rate,
        beds: &'a [Bed],
        pcm: Pcm<'a>,
        metadata: Metadata<'a>,
    ) -> Result<Self, ShapeError> {
        let (got, channels) = (beds.len(), pcm.channels());
        match channels.checked_sub(got) {
            Some(objects) if got <= BEDS && objects <= OBJECTS => Ok(Self {
                rate,
                beds,
                objects,
                pcm,
                metadata,
            }),
            Some(objects) if got <= BEDS => Err(ShapeError::Objects(objects)),
            _ => Err(ShapeError::Beds { got, channels }),
        }
    }

    /// The same sound without metadata: what was applied before stays in force.
    #[must_use]
    pub const fn without_metadata(self) -> Self {
        Self {
            metadata: Metadata::NONE,
            ..self
        }
    }

    /// Its rate.
    pub const fn rate(&self) -> Rate {
        self.rate
    }

    /// Its beds.
    pub const fn beds(&self) -> &'a [Bed] {
        self.beds
    }

    /// Its number of dynamic objects.
    pub const fn objects(&self) -> usize {
        self.objects
    }

    /// Its samples.
    pub const fn pcm(&self) -> Pcm<'a> {
        self.pcm
    }

    /// Its metadata.
    pub const fn metadata(&self) -> Metadata<'a> {
        self.metadata
    }

    pub(crate) const fn object_count(&self) -> u32 {
        self.objects as u32 // at most 16
    }
}
