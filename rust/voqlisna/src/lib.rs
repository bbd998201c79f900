// SPDX-License-Identifier: Apache-2.0
//! A proved 7.1.4 hall renderer, safe from Rust: beds and moving objects in, twelve loudspeaker
//! feeds out, or fewer in a smaller [`Layout`], over the built-in places or those of a [`HallTable`].
//!
//! ```
//! use voqlisna::*;
//!
//! let mut renderer = Renderer::new(Layout::Hall714)?;
//! let mut out = Output::new(Stride::for_frames_of(480).ok_or("too long")?);
//!
//! // One object in the middle of the room.
//! let mut memory = [0; MetadataWriter::bytes_for(1, &[1])];
//! let mut metadata = MetadataWriter::new(&mut memory);
//! metadata
//!     .update(Update { at: 0, objects: 1, fixed: 0, beds: &[] })?
//!     .element(&[Block::default()], |_, _| Object::at(Room::CENTER).gain(1.0))?;
//!
//! let sound = [0.25; 480];
//! let frame = Frame::new(Rate::HZ_48000, &[], Pcm::packed(&sound, 1)?, metadata.finish())?;
//! let rendered = renderer.push(&frame, &mut out)?;
//! assert_eq!(rendered.ready(), 448); // whole blocks of 64; 32 samples wait
//! assert_eq!(rendered.channel(Speaker::SurroundLeft).len(), 448);
//! assert!(rendered.peak() < 1.0 && rendered.gain() == 1.0); // what the limiter met, and did
//! # Ok::<(), Box<dyn std::error::Error>>(())
//! ```
//!
//! No function panics, locks, reads the clock or keeps a pointer. Memory is taken from the heap
//! only by the functions named `new`, `with_table`, `fixed`, `up_to` and `restore`; each has a twin
//! over lent memory, so that the crate works without `std` and, without the feature `alloc`, without
//! a heap. An audio thread may call everything but those, [`explain`], [`Renderer::find`] and
//! [`Renderer::save`]; a call takes less than 40 KiB of its stack. [`sys`] has the C entries
//! themselves.
#![no_std]
#![deny(
    missing_docs,
    clippy::arithmetic_side_effects,
    clippy::expect_used,
    clippy::indexing_slicing,
    clippy::panic,
    clippy::undocumented_unsafe_blocks,
    clippy::unreachable,
    clippy::unwrap_used
)]
#[cfg(feature = "alloc")]
extern crate alloc;

mod bed;
mod conceal;
mod entry;
mod explain;
mod find;
mod floats;
mod frame;
mod hold;
mod layout;
mod memory;
mod metadata;
mod object;
mod output;
mod pcm;
mod pcm24;
mod planes;
mod rate;
pub mod records;
mod refusal;
mod rendered;
mod renderer;
mod room;
mod shape;
mod snapshot;
mod speaker;
mod steady;
mod table;
mod writer;

pub use bed::Bed;
pub use conceal::{Concealer, Outcome, Way};
pub use explain::{Argument, Arguments, Cause, explain};
pub use floats::with_default_floats;
pub use frame::Frame;
pub use layout::{Layout, UnknownLayout};
pub use memory::{Bytes, Floats};
pub use metadata::Metadata;
pub use object::{Anchor, Block, Depth, Object};
pub use output::{Output, Stride};
pub use pcm::{Pcm, Stage};
pub use pcm24::{read_24, write_24};
pub use planes::{bytes_from_planes, bytes_to_planes, from_planes, to_planes};
pub use rate::Rate;
pub use refusal::{Blame, Refusal};
pub use rendered::Rendered;
pub use renderer::{MakeError, Renderer};
pub use room::{Panned, Room};
pub use shape::ShapeError;
pub use snapshot::{Snapshot, SnapshotError};
pub use speaker::{Speaker, WAVE_MASK};
pub use steady::Steady;
pub use table::{Axis, HallTable, TableError};
/// The C entries and their declarations, for hosts that call them themselves.
pub use voqlisna_sys as sys;
pub use writer::{Ahead, BuildError, MetadataWriter, Update, UpdateWriter};
