// SPDX-License-Identifier: Apache-2.0
//! Metadata of a frame.

/// Bytes of a record.
pub(crate) const RECORD: usize = 40;

/// A record.
pub(crate) type Bytes40 = [u8; RECORD];

/// Metadata records, lent: made by [`crate::MetadataWriter`], or any bytes.
///
/// ```
/// use voqlisna::Metadata;
/// assert_eq!(Metadata::from_records(&[0; 80]).records(), 2); // push judges them
/// assert!(Metadata::NONE.is_empty());
/// ```
#[derive(Clone, Copy, Debug)]
pub struct Metadata<'a>(&'a [u8]);

impl<'a> Metadata<'a> {
    /// None.
    pub const NONE: Metadata<'static> = Metadata(&[]);

    /// For decoders that write records themselves.
    pub const fn from_records(bytes: &'a [u8]) -> Self {
        Self(bytes)
    }

    /// The records.
    pub const fn as_bytes(&self) -> &'a [u8] {
        self.0
    }

    /// No bytes at all.
    pub const fn is_empty(&self) -> bool {
        self.0.is_empty()
    }

    /// Whole records of 40 bytes.
    pub const fn records(&self) -> usize {
        self.0.len() / RECORD
    }
}
