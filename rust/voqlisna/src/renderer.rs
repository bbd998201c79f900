// SPDX-License-Identifier: Apache-2.0
//! The renderer.

#[cfg(feature = "alloc")]
use crate::memory::zeros;
use crate::memory::{Bytes, Floats, OwnBytes};
use crate::{Frame, HallTable, Layout, Output, Refusal, Rendered, entry};
use core::fmt;
use voqlisna_sys::{self as sys, Answer};

/// One stream into one hall.
///
/// `Send` and `Sync`: nothing in it changes behind a shared reference, and the library has no
/// globals. Its block is written by the library alone, so that no call is ever refused for it:
///
/// ```compile_fail,E0594
/// # use voqlisna::Renderer;
/// # fn f(renderer: Renderer) {
/// renderer.block()[0] = 1;
/// # }
/// ```
///
/// ```
/// use voqlisna::*;
/// let mut renderer = Renderer::new(Layout::Hall714)?;
/// let mut out = Output::new(Stride::MAX);
/// let frame = Frame::new(Rate::HZ_48000, &[], Pcm::packed(&[0.0; 100], 1)?, Metadata::NONE)?;
/// assert_eq!(renderer.push(&frame, &mut out).err(), Some(Refusal::NoUpdate));
/// assert!(renderer.flush(&mut out).is_none());
/// # Ok::<(), Box<dyn std::error::Error>>(())
/// ```
pub struct Renderer<B: Bytes = OwnBytes> {
    block: B,
    layout: Layout,
}

#[cfg(feature = "alloc")]
impl Renderer {
    /// A new renderer of that layout, in memory of its own.
    ///
    /// ```
    /// use voqlisna::{Layout, Renderer};
    /// let mut renderer = Renderer::new(Layout::Hall510)?;
    /// renderer.reset();
    /// assert_eq!(renderer.layout(), Layout::Hall510);
    /// # Ok::<(), voqlisna::MakeError>(())
    /// ```
    pub fn new(layout: Layout) -> Result<Self, MakeError> {
        Self::make(zeros(sys::hall_state_size()), layout, None)
    }

    /// The same in a hall with speakers at these places. Over [`HallTable::BUILT_IN`] it is the one
    /// that [`Renderer::new`] makes.
    ///
    /// ```
    /// use voqlisna::*;
    /// let mut places = *HallTable::BUILT_IN.places();
    /// places[Speaker::TopFrontLeft.channel()].y = 0.75;
    /// let table = HallTable::new(places)?;
    /// let mut renderer = Renderer::with_table(Layout::Hall714, &table)?;
    /// renderer.reset();
    /// assert_eq!(renderer.table(), table);
    /// # Ok::<(), Box<dyn std::error::Error>>(())
    /// ```
    pub fn with_table(layout: Layout, table: &HallTable) -> Result<Self, MakeError> {
        Self::make(zeros(sys::hall_state_size()), layout, Some(table))
    }
}

impl Renderer {
    /// Bytes of a state block, from the library.
    ///
    /// ```
    /// assert_eq!(voqlisna::Renderer::block_size(), voqlisna::sys::STATE_SIZE);
    /// ```
    pub fn block_size() -> usize {
        sys::hall_state_size()
    }
}

impl<'m> Renderer<&'m mut [u8]> {
    /// The same over lent memory of exactly [`Renderer::block_size`] bytes, of any alignment and
    /// content.
    ///
    /// ```
    /// use voqlisna::{Layout, Renderer, sys};
    /// let mut memory = [0; sys::STATE_SIZE];
    /// assert!(Renderer::over(&mut memory, Layout::Hall714).is_ok());
    /// assert!(Renderer::over(&mut memory[1..], Layout::Hall714).is_err());
    /// ```
    pub fn over(memory: &'m mut [u8], layout: Layout) -> Result<Self, MakeError> {
        Self::make(memory, layout, None)
    }

    /// The same with speakers at these places: see [`Renderer::with_table`].
    pub fn over_with_table(
        memory: &'m mut [u8],
        layout: Layout,
        table: &HallTable,
    ) -> Result<Self, MakeError> {
        Self::make(memory, layout, Some(table))
    }
}

impl<B: Bytes> Renderer<B> {
    fn make(mut block: B, layout: Layout, table: Option<&HallTable>) -> Result<Self, MakeError> {
        let (expected, found) = (sys::VERSION, sys::hall_version());
        if expected != found {
            return Err(MakeError::Version { expected, found });
        }
        let answer = match table {
            Some(table) => entry::make_with_table(block.lend(), layout, table),
            None => entry::make(block.lend(), layout),
        };
        // Of a layout that there is and a right table, making refuses a block of another length and
        // nothing else.
        match Refusal::from_answer(answer) {
            Some(_) => Err(MakeError::Length {
                needed: sys::hall_state_size(),
            }),
            None => Ok(Self { block, layout }),
        }
    }

    /// Takes up a block that is valid. Such a block has the code of a layout.
    pub(crate) fn adopt(block: B) -> Self {
        let code = block
            .get()
            .get(sys::LAYOUT_AT..)
            .and_then(<[u8]>::first_chunk);
        let code = code.map_or(0, |code| u32::from_le_bytes(*code));
        let layout = Layout::from_code(code).unwrap_or_default();
        Self { block, layout }
    }

    pub(crate) fn lend(&mut self) -> &mut [u8] {
        self.block.lend()
    }

    /// Of its hall.
    pub const fn layout(&self) -> Layout {
        self.layout
    }

    /// Where its hall's speakers hang.
    pub fn table(&self) -> HallTable {
        HallTable::of_block(self.block.get())
    }

    /// Renders a frame. Whole blocks of 64 samples become ready; up to 63 samples wait for the next
    /// call.
    pub fn push<'o, M: Floats>(
        &mut self,
        frame: &Frame<'_>,
        out: &'o mut Output<M>,
    ) -> Result<Rendered<'o>, Refusal> {
        let stride = out.stride();
        let answer = entry::push(self.block.lend(), frame, out.lend(), stride);
        read(answer, out, self.layout)
    }

    /// Gives out what waits, at a programme's end; none where nothing waits. The renderer goes on
    /// afterwards.
    ///
    /// ```
    /// # use voqlisna::*;
    /// # let mut memory = [0; MetadataWriter::bytes_for(1, &[])];
    /// # let mut writer = MetadataWriter::new(&mut memory);
    /// # writer.update(Update { at: 0, objects: 1, fixed: 0, beds: &[] })?;
    /// # let mut renderer = Renderer::new(Layout::Hall714)?;
    /// # let mut out = Output::new(Stride::MAX);
    /// let frame = Frame::new(Rate::HZ_48000, &[], Pcm::packed(&[0.0; 100], 1)?, writer.finish())?;
    /// assert_eq!(renderer.push(&frame, &mut out)?.ready(), 64);
    /// assert_eq!(renderer.flush(&mut out).map(|r| r.ready()), Some(36));
    /// assert!(renderer.flush(&mut out).is_none());
    /// # Ok::<(), Box<dyn std::error::Error>>(())
    /// ```
    pub fn flush<'o, M: Floats>(&mut self, out: &'o mut Output<M>) -> Option<Rendered<'o>> {
        let stride = out.stride();
        let answer = entry::flush(self.block.lend(), out.lend(), stride);
        // A flush refuses only what is lent (1), which this crate settles; what is left is kind 0,
        // or 2: nothing waits.
        let read = read(answer, out, self.layout);
        read.ok().filter(|_| answer.kind == 0)
    }

    /// A new stream in the same hall: layout and table stay, no object is held, and no update waits.
    /// Samples that wait are lost: flush first.
    pub fn reset(&mut self) {
        // Refuses a block of another length, or without a layout or a right table, which this is not.
        entry::reset(self.block.lend());
    }

    /// How many updates wait for their samples: at most 8 ([`Ahead`](crate::Ahead)).
    pub fn waiting(&self) -> u32 {
        let waits = self.block.get().get(sys::WAITS_AT..);
        let count = waits.and_then(<[u8]>::first_chunk);
        count.map_or(0, |count| u32::from_le_bytes(*count))
    }

    /// The state block, as docs/STATE-BLOCK.md lays it out.
    pub fn block(&self) -> &[u8] {
        self.block.get()
    }

    /// Gives the block up, to the C entries.
    pub fn into_block(self) -> B {
        self.block
    }
}

fn read<M: Floats>(
    answer: Answer,
    out: &Output<M>,
    layout: Layout,
) -> Result<Rendered<'_>, Refusal> {
    match Refusal::from_answer(answer) {
        Some(refusal) => Err(refusal),
        None => Ok(out.rendered(answer, layout)),
    }
}

impl<B: Bytes> fmt::Debug for Renderer<B> {
    fn fmt(&self, f: &mut fmt::Formatter<'_>) -> fmt::Result {
        f.debug_struct("Renderer")
            .field("layout", &self.layout)
            .finish_non_exhaustive()
    }
}

/// A renderer cannot be made.
#[non_exhaustive]
#[derive(Clone, Copy, Debug, PartialEq, Eq)]
pub enum MakeError {
    /// The linked library is of another version than this crate.
    Version {
        /// This crate's.
        expected: u32,
        /// The library's.
        found: u32,
    },
    /// Lent memory of another length.
    Length {
        /// Bytes that it must have.
        needed: usize,
    },
}

impl fmt::Display for MakeError {
    fn fmt(&self, f: &mut fmt::Formatter<'_>) -> fmt::Result {
        match self {
            Self::Version { expected, found } => {
                write!(
                    f,
                    "the library is version {found} and not {expected}: run tools/staticlib hall again"
                )
            }
            Self::Length { needed } => write!(f, "a state block has {needed} bytes"),
        }
    }
}

impl core::error::Error for MakeError {}
