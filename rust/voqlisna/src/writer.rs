// SPDX-License-Identifier: Apache-2.0
//! Metadata written over lent memory. What is written so far is always whole: there is no order to
//! get wrong and nothing to finish.

use crate::metadata::{Bytes40, RECORD};
use crate::shape::{BEDS, OBJECTS};
use crate::{Bed, Block, Metadata, Object};
use core::fmt;

const UPDATES: u8 = 16;
const OBJECTS_IN_ALL: u8 = 32;
const ELEMENTS: u8 = 2;
const BLOCKS: usize = 8;
/// Where a kind 1 record has its number of elements.
const ELEMENTS_AT: usize = 7;

/// The head of an update.
#[derive(Clone, Copy, Debug, PartialEq, Eq)]
pub struct Update<'a> {
    /// From this sample of the frame on. At or past the frame's end the update is dropped.
    pub at: u16,
    /// Objects in all, beds included: at most 32.
    pub objects: u8,
    /// How many of them, from the first, are not dynamic (`bed_or_isf_objects`). The frame has a
    /// channel for each of the others, at most 16.
    pub fixed: u8,
    /// The beds: at most 18, and no more than objects.
    pub beds: &'a [Bed],
}

/// The head of an update that may lie ahead of its frame (kind 9): at or past the frame's end it is
/// not dropped, but waits, and is applied in the frame in which its sample falls, before that frame's
/// own updates at the same sample.
///
/// Up to eight may wait after a frame, of at most 1,200 records in all ([`Refusal`](crate::Refusal)
/// 25). Number of objects and beds are judged when the update is applied: a frame with other channels
/// is refused by 11, 13 or 14 then, and the update goes on waiting; one that changes the number of
/// objects must fall on a frame's first sample, as one of [`Update`] must. [`Renderer::reset`](crate::Renderer::reset)
/// forgets all that wait.
///
/// ```
/// use voqlisna::*;
/// let mut memory = [0; MetadataWriter::bytes_for(1, &[]) + MetadataWriter::bytes_for(1, &[1])];
/// let mut writer = MetadataWriter::new(&mut memory);
/// writer.update(Update { at: 0, objects: 1, fixed: 0, beds: &[] })?;
/// writer
///     .update_ahead(Ahead { at: 96_000, objects: 1, fixed: 0, beds: &[] })? // in two seconds
///     .element(&[Block::default()], |_, _| Object::at(Room::CENTER).gain(1.0))?;
///
/// let (mut renderer, mut out) = (Renderer::new(Layout::Hall714)?, Output::new(Stride::MAX));
/// let frame = |metadata| Frame::new(Rate::HZ_48000, &[], Pcm::packed(&[0.5; 480], 1)?, metadata);
/// renderer.push(&frame(writer.finish())?, &mut out)?;
/// for _ in 1..200 {
///     assert_eq!(renderer.waiting(), 1);
///     renderer.push(&frame(Metadata::NONE)?, &mut out)?;
/// }
/// renderer.push(&frame(Metadata::NONE)?, &mut out)?; // from sample 96,000 on
/// assert_eq!(renderer.waiting(), 0);
/// # Ok::<(), Box<dyn std::error::Error>>(())
/// ```
#[derive(Clone, Copy, Debug, PartialEq, Eq)]
pub struct Ahead<'a> {
    /// So many samples behind the start of the frame that brings it.
    pub at: u32,
    /// As in [`Update`].
    pub objects: u8,
    /// As in [`Update`].
    pub fixed: u8,
    /// As in [`Update`].
    pub beds: &'a [Bed],
}

impl<'a> Ahead<'a> {
    /// The same at the frame's start.
    const fn update(self) -> Update<'a> {
        Update {
            at: 0,
            objects: self.objects,
            fixed: self.fixed,
            beds: self.beds,
        }
    }
}

impl Update<'_> {
    fn check(&self) -> Result<(), BuildError> {
        if self.objects > OBJECTS_IN_ALL {
            return Err(BuildError::Objects);
        }
        if usize::from(self.objects.saturating_sub(self.fixed)) > OBJECTS {
            return Err(BuildError::Dynamic);
        }
        if self.beds.len() > BEDS || self.beds.len() > usize::from(self.objects) {
            return Err(BuildError::Beds);
        }
        Ok(())
    }

    fn record(&self) -> Bytes40 {
        let mut r = [0; RECORD];
        r[0] = 1;
        r[2..4].copy_from_slice(&self.at.to_le_bytes());
        r[4] = self.objects;
        r[5] = self.fixed;
        r[6] = self.beds.len() as u8; // at most 18
        for (place, bed) in r[8..26].iter_mut().zip(self.beds) {
            *place = bed.code();
        }
        r
    }
}

/// Writes updates one after the other.
///
/// A frame's worth of memory is [`MetadataWriter::bytes_for`] for each of its updates.
///
/// ```
/// use voqlisna::*;
/// let mut memory = [0; MetadataWriter::bytes_for(2, &[1])];
/// let mut writer = MetadataWriter::new(&mut memory);
/// writer
///     .update(Update { at: 0, objects: 2, fixed: 1, beds: &[Bed::Center] })?
///     .element(&[Block { offset: 0, ramp: 256 }], |object, _block| match object {
///         0 => Object::KEEP, // the bed
///         _ => Object::at(Room::CENTER).gain(1.0),
///     })?;
/// assert_eq!(writer.finish().records(), 5);
/// # Ok::<(), BuildError>(())
/// ```
pub struct MetadataWriter<'m> {
    memory: &'m mut [u8],
    length: usize,
    updates: u8,
}

impl<'m> MetadataWriter<'m> {
    /// The most records of a frame: 16 updates of 531.
    pub const MOST_RECORDS: usize = 8_496;

    /// Over lent memory of any length, alignment and content.
    pub const fn new(memory: &'m mut [u8]) -> Self {
        Self {
            memory,
            length: 0,
            updates: 0,
        }
    }

    /// Bytes of an update with so many objects and elements of so many blocks: 40 × (1 + Σ (1 +
    /// blocks × (1 + objects))).
    pub const fn bytes_for(objects: usize, mut blocks_of_elements: &[usize]) -> usize {
        let mut records = 1usize;
        while let [blocks, rest @ ..] = blocks_of_elements {
            let each = blocks.saturating_mul(objects.saturating_add(1));
            records = records.saturating_add(each).saturating_add(1);
            blocks_of_elements = rest;
        }
        records.saturating_mul(RECORD)
    }

    /// Starts an update; at most 16, those ahead included.
    pub fn update(&mut self, update: Update<'_>) -> Result<UpdateWriter<'_, 'm>, BuildError> {
        self.start(update, update.record())
    }

    /// Starts one that may lie ahead of the frame.
    pub fn update_ahead(&mut self, ahead: Ahead<'_>) -> Result<UpdateWriter<'_, 'm>, BuildError> {
        let update = ahead.update();
        let mut record = update.record();
        record[0] = 9;
        record[28..32].copy_from_slice(&ahead.at.to_le_bytes());
        self.start(update, record)
    }

    fn start(
        &mut self,
        update: Update<'_>,
        record: Bytes40,
    ) -> Result<UpdateWriter<'_, 'm>, BuildError> {
        if self.updates == UPDATES {
            return Err(BuildError::Updates);
        }
        update.check()?;
        let head = self.length;
        let end = put(self.grow(1)?, [Ok(record)])?;
        self.length = head.saturating_add(end);
        self.updates = self.updates.saturating_add(1);
        Ok(UpdateWriter {
            to: self,
            head,
            objects: update.objects,
            elements: 0,
        })
    }

    /// What is written so far.
    pub fn metadata(&self) -> Metadata<'_> {
        Metadata::from_records(self.memory.get(..self.length).unwrap_or_default())
    }

    /// The same for as long as the memory is lent.
    pub fn finish(self) -> Metadata<'m> {
        let Self { memory, length, .. } = self;
        Metadata::from_records(memory.get(..length).unwrap_or_default())
    }

    /// Forgets it: the next frame's.
    pub const fn clear(&mut self) {
        self.length = 0;
        self.updates = 0;
    }

    /// The memory of so many records more.
    fn grow(&mut self, records: usize) -> Result<&mut [u8], BuildError> {
        let needed = self.length.saturating_add(records.saturating_mul(RECORD));
        self.memory
            .get_mut(self.length..needed)
            .ok_or(BuildError::Full { needed })
    }
}

/// Puts records one behind the other, and answers their bytes.
fn put(
    to: &mut [u8],
    records: impl IntoIterator<Item = Result<Bytes40, BuildError>>,
) -> Result<usize, BuildError> {
    for (place, record) in to.chunks_exact_mut(RECORD).zip(records) {
        place.copy_from_slice(&record?); // 40 bytes each
    }
    Ok(to.len())
}

impl fmt::Debug for MetadataWriter<'_> {
    fn fmt(&self, f: &mut fmt::Formatter<'_>) -> fmt::Result {
        f.debug_struct("MetadataWriter")
            .field("bytes", &self.length)
            .finish_non_exhaustive()
    }
}

/// Adds elements to an update. While it lives the writer is lent, so updates cannot be mixed:
///
/// ```compile_fail,E0499
/// # use voqlisna::*;
/// # let mut memory = [0; 400];
/// # let mut writer = MetadataWriter::new(&mut memory);
/// # let head = Update { at: 0, objects: 1, fixed: 0, beds: &[] };
/// let first = writer.update(head)?;
/// let second = writer.update(head)?; // `writer` is still lent
/// first.element(&[Block::default()], |_, _| Object::KEEP)?;
/// # Ok::<(), BuildError>(())
/// ```
#[derive(Debug)]
pub struct UpdateWriter<'w, 'm> {
    to: &'w mut MetadataWriter<'m>,
    head: usize,
    objects: u8,
    elements: u8,
}

impl UpdateWriter<'_, '_> {
    /// One element, at most two: its blocks, at most 8, and `object(o, b)` for each object o and,
    /// of it, each block b.
    ///
    /// Where it fails, the update has the elements that were added before.
    pub fn element(
        mut self,
        blocks: &[Block],
        mut object: impl FnMut(usize, usize) -> Object,
    ) -> Result<Self, BuildError> {
        if self.elements == ELEMENTS {
            return Err(BuildError::Elements);
        }
        if blocks.len() > BLOCKS {
            return Err(BuildError::Blocks);
        }
        let (objects, count) = (usize::from(self.objects), blocks.len());
        let mut element = [0; RECORD];
        element[0] = 2;
        element[1] = count as u8; // at most 8
        let each = (0..objects).flat_map(|o| (0..count).map(move |b| (o, b)));
        let records = core::iter::once(Ok(element))
            .chain(blocks.iter().map(|block| block.record()))
            .chain(each.map(|(o, b)| object(o, b).record()));
        let all = count
            .saturating_mul(objects.saturating_add(1))
            .saturating_add(1);
        let length = put(self.to.grow(all)?, records)?;
        self.to.length = self.to.length.saturating_add(length);
        self.elements = self.elements.saturating_add(1);
        if let Some(count) = self
            .to
            .memory
            .get_mut(self.head.saturating_add(ELEMENTS_AT))
        {
            *count = self.elements;
        }
        Ok(self)
    }
}

/// What cannot be written. The records are then as before the call.
#[non_exhaustive]
#[derive(Clone, Copy, Debug, PartialEq, Eq)]
pub enum BuildError {
    /// The lent memory is too small.
    Full {
        /// Bytes that it must have.
        needed: usize,
    },
    /// A seventeenth update.
    Updates,
    /// More than 32 objects in all.
    Objects,
    /// More than 16 dynamic objects.
    Dynamic,
    /// More than 18 beds, or more than objects.
    Beds,
    /// A third element.
    Elements,
    /// More than 8 blocks.
    Blocks,
    /// An offset or ramp beyond ±1,048,576.
    Offset,
    /// A gain outside 0 to 8.
    Gain,
    /// A size outside 0 to 1.
    Size,
    /// A send outside 0 to 1.
    Send,
}

impl fmt::Display for BuildError {
    fn fmt(&self, f: &mut fmt::Formatter<'_>) -> fmt::Result {
        f.write_str(match self {
            Self::Full { needed } => {
                return write!(f, "the metadata's memory must have {needed} bytes");
            }
            Self::Updates => "a frame has at most 16 updates",
            Self::Objects => "an update has at most 32 objects in all",
            Self::Dynamic => "an update has at most 16 dynamic objects",
            Self::Beds => "an update has at most 18 beds, and no more than objects",
            Self::Elements => "an update has at most 2 elements",
            Self::Blocks => "an element has at most 8 blocks",
            Self::Offset => "an offset or a ramp must be within ±1,048,576 samples",
            Self::Gain => "a gain must be from 0 to 8",
            Self::Size => "a size must be from 0 to 1",
            Self::Send => "a send must be from 0 to 1",
        })
    }
}

impl core::error::Error for BuildError {}
