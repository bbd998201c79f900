// SPDX-License-Identifier: Apache-2.0
//! The records of kinds 5 to 8. Kinds 1 to 4, the metadata, are judged by push alone.

/// Bytes of a record.
pub const LENGTH: usize = 40;
pub type Record = [u8; LENGTH];

/// Most beds and objects of a frame.
pub const BEDS: usize = 18;
pub const OBJECTS: usize = 16;
/// Bytes of a record of kind 6 that hold samples.
pub const NINE: usize = 36;

/// A frame's first record.
#[derive(Clone, Copy, Debug, PartialEq)]
pub struct Header {
    pub rate: u32,
    pub samples: u16,
    pub beds: u8,
    pub objects: u8,
    pub records: u16,
    pub codes: [u8; BEDS],
}

impl Header {
    /// Reads a record of kind 5. None where an unused place is not zero, or there are too many beds or objects.
    pub fn read(r: &Record) -> Option<Self> {
        let (beds, objects) = (usize::from(r[10]), usize::from(r[11]));
        let laid = r[0] == 5 && beds <= BEDS && objects <= OBJECTS && zero(&r[1..4]);
        if !laid || !zero(&r[14 + beds..]) {
            return None;
        }
        let mut codes = [0; BEDS];
        codes.copy_from_slice(&r[14..14 + BEDS]);
        Some(Self {
            rate: u32::from_le_bytes([r[4], r[5], r[6], r[7]]),
            samples: u16::from_le_bytes([r[8], r[9]]),
            beds: r[10],
            objects: r[11],
            records: u16::from_le_bytes([r[12], r[13]]),
            codes,
        })
    }

    pub fn write(&self) -> Record {
        let mut r = [0; LENGTH];
        r[0] = 5;
        r[4..8].copy_from_slice(&self.rate.to_le_bytes());
        r[8..10].copy_from_slice(&self.samples.to_le_bytes());
        r[10] = self.beds;
        r[11] = self.objects;
        r[12..14].copy_from_slice(&self.records.to_le_bytes());
        r[14..14 + BEDS].copy_from_slice(&self.codes);
        r
    }

    pub fn codes(&self) -> &[u8] {
        &self.codes[..usize::from(self.beds)]
    }

    pub fn metadata_bytes(&self) -> usize {
        LENGTH * usize::from(self.records)
    }

    pub fn pcm_bytes(&self) -> usize {
        4 * (usize::from(self.beds) + usize::from(self.objects)) * usize::from(self.samples)
    }

    /// "in as few records of kind 6 as hold it"
    pub fn pcm_records(&self) -> usize {
        self.pcm_bytes().div_ceil(NINE)
    }
}

/// A flush or a reset.
pub fn is_plain(r: &Record) -> bool {
    (r[0] == 7 || r[0] == 8) && zero(&r[1..])
}

/// A record of PCM with `n` bytes in use.
pub fn is_pcm(r: &[u8], n: usize) -> bool {
    r[0] == 6 && zero(&r[1..4]) && zero(&r[4 + n..])
}

fn zero(bytes: &[u8]) -> bool {
    bytes.iter().all(|b| *b == 0)
}
