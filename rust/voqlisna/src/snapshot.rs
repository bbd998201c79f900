// SPDX-License-Identifier: Apache-2.0
//! A renderer kept and brought back.

use crate::memory::Bytes;
use crate::{Frame, Refusal, Renderer, Stride, entry};
use core::fmt;
use voqlisna_sys as sys;

const MAGIC: [u8; 4] = *b"HALL";
const HEAD: usize = 16;

/// A saved renderer: "HALL", then version, length and CRC-32 of the block, each a little-endian
/// u32, then the block.
///
/// ```
/// use voqlisna::{Layout, Renderer, Snapshot, SnapshotError};
/// let renderer = Renderer::new(Layout::Hall514)?;
/// let mut file = vec![0; Snapshot::size()];
/// renderer.save(&mut file)?;
///
/// let again = Renderer::restore(Snapshot::read(&file)?)?;
/// assert_eq!(again.block(), renderer.block());
/// assert_eq!(again.layout(), Layout::Hall514);
///
/// file[100] ^= 1;
/// assert_eq!(Snapshot::read(&file).err(), Some(SnapshotError::Damaged));
/// # Ok::<(), Box<dyn std::error::Error>>(())
/// ```
#[derive(Clone, Copy)]
pub struct Snapshot<'a> {
    bytes: &'a [u8],
    block: &'a [u8],
}

impl<'a> Snapshot<'a> {
    /// Bytes of a snapshot.
    pub fn size() -> usize {
        sys::hall_state_size().saturating_add(HEAD)
    }

    /// Checks head, version, length and sum.
    pub fn read(bytes: &'a [u8]) -> Result<Self, SnapshotError> {
        let Some((head, block)) = bytes.split_first_chunk::<HEAD>() else {
            return Err(SnapshotError::NotOne);
        };
        let [a, b, c, d, version @ ..] = head;
        if [*a, *b, *c, *d] != MAGIC {
            return Err(SnapshotError::NotOne);
        }
        let [v0, v1, v2, v3, length @ .., s0, s1, s2, s3] = version;
        let version = u32::from_le_bytes([*v0, *v1, *v2, *v3]);
        if version != sys::VERSION {
            return Err(SnapshotError::Version(version));
        }
        if bytes.len() != Self::size() || *length != (block.len() as u32).to_le_bytes() {
            return Err(SnapshotError::NotOne);
        }
        if u32::from_le_bytes([*s0, *s1, *s2, *s3]) != crc32(block) {
            return Err(SnapshotError::Damaged);
        }
        Ok(Self { bytes, block })
    }

    /// To be stored.
    pub const fn as_bytes(&self) -> &'a [u8] {
        self.bytes
    }

    /// The block itself.
    pub const fn block(&self) -> &'a [u8] {
        self.block
    }
}

impl<B: Bytes> Renderer<B> {
    /// Saves the renderer into lent memory of [`Snapshot::size`] bytes or more.
    pub fn save<'s>(&self, to: &'s mut [u8]) -> Result<Snapshot<'s>, SnapshotError> {
        let (block, needed) = (self.block(), Snapshot::size());
        let to = to
            .get_mut(..needed)
            .ok_or(SnapshotError::Memory { needed })?;
        let words = [sys::VERSION, block.len() as u32, crc32(block)].map(u32::to_le_bytes);
        let bytes = MAGIC.iter().chain(words.as_flattened()).chain(block);
        for (place, byte) in to.iter_mut().zip(bytes) {
            *place = *byte;
        }
        let bytes: &[u8] = to;
        Ok(Snapshot {
            bytes,
            block: bytes.get(HEAD..).unwrap_or_default(),
        })
    }
}

impl<'m> Renderer<&'m mut [u8]> {
    /// Brings a snapshot back into lent memory of exactly [`Renderer::block_size`] bytes. See
    /// [`Renderer::restore`].
    pub fn restore_over(
        snapshot: Snapshot<'_>,
        memory: &'m mut [u8],
    ) -> Result<Self, SnapshotError> {
        let needed = snapshot.block.len();
        if memory.len() != needed {
            return Err(SnapshotError::Memory { needed });
        }
        memory.copy_from_slice(snapshot.block); // of one length
        take_up(memory)
    }
}

#[cfg(feature = "alloc")]
impl Renderer {
    /// Brings a snapshot back: the renderer goes on where it was.
    ///
    /// A block with a field out of its range is turned down by the library itself. One that is in
    /// range but that no run has left (a forged one) is taken; its floats may be any, and so may
    /// its samples.
    pub fn restore(snapshot: Snapshot<'_>) -> Result<Self, SnapshotError> {
        take_up(snapshot.block.into())
    }
}

/// A push of no samples is refused and changes nothing; it is 1 exactly where the block is not
/// valid.
fn take_up<B: Bytes>(mut block: B) -> Result<Renderer<B>, SnapshotError> {
    let mut out = [0.0; Stride::MIN.of_all_speakers()];
    let answer = entry::push(block.lend(), &Frame::NOTHING, &mut out, Stride::MIN);
    match Refusal::from_answer(answer) {
        Some(Refusal::Memory) => Err(SnapshotError::Range),
        _ => Ok(Renderer::adopt(block)),
    }
}

/// CRC-32 as in PNG and zip, bit by bit: not for the audio thread.
fn crc32(bytes: &[u8]) -> u32 {
    let step = |sum: u32, _| (sum >> 1) ^ (0xedb8_8320 & (sum & 1).wrapping_neg());
    !bytes
        .iter()
        .fold(!0, |sum, byte| (0..8).fold(sum ^ u32::from(*byte), step))
}

impl fmt::Debug for Snapshot<'_> {
    fn fmt(&self, f: &mut fmt::Formatter<'_>) -> fmt::Result {
        f.debug_struct("Snapshot")
            .field("bytes", &self.bytes.len())
            .finish_non_exhaustive()
    }
}

/// Why a snapshot is not taken.
#[non_exhaustive]
#[derive(Clone, Copy, Debug, PartialEq, Eq)]
pub enum SnapshotError {
    /// Not a snapshot, or cut.
    NotOne,
    /// Another version of the library wrote it.
    Version(u32),
    /// The check sum is another.
    Damaged,
    /// A field of the block is out of its range.
    Range,
    /// Memory of another length.
    Memory {
        /// Bytes that it must have.
        needed: usize,
    },
}

impl fmt::Display for SnapshotError {
    fn fmt(&self, f: &mut fmt::Formatter<'_>) -> fmt::Result {
        match self {
            Self::NotOne => f.write_str("not a snapshot of a renderer, or not a whole one"),
            Self::Version(found) => write!(
                f,
                "a snapshot of version {found}; this program reads {}",
                sys::VERSION
            ),
            Self::Damaged => f.write_str("the snapshot is damaged: its check sum is another"),
            Self::Range => f.write_str("the snapshot's block has a field out of its range"),
            Self::Memory { needed } => write!(f, "the lent memory must have {needed} bytes"),
        }
    }
}

impl core::error::Error for SnapshotError {}
