// SPDX-License-Identifier: Apache-2.0
//! A WAVE file of a layout's channels in f32 or 24 bits: WAVE_FORMAT_EXTENSIBLE with the speakers' mask.
//!
//! Behind `WAVE` a chunk `JUNK` of 28 bytes is kept free. Beyond 4 GiB it becomes `ds64` with sizes of 64 bits, and
//! `RIFF` becomes `RF64` (EBU Tech 3306).
use crate::bits;
use std::fs::File;
use std::io::{self, Seek, SeekFrom, Write};
use voqlisna::{Layout, Rendered};

/// Bytes before the first sample.
const HEAD: usize = 104;
/// KSDATAFORMAT_SUBTYPE_IEEE_FLOAT.
const FLOAT: [u8; 16] = [
    3, 0, 0, 0, 0, 0, 0x10, 0, 0x80, 0, 0, 0xaa, 0, 0x38, 0x9b, 0x71,
];
/// KSDATAFORMAT_SUBTYPE_PCM.
const PCM: [u8; 16] = [
    1, 0, 0, 0, 0, 0, 0x10, 0, 0x80, 0, 0, 0xaa, 0, 0x38, 0x9b, 0x71,
];
/// Samples are written in pieces of about this many bytes.
const PIECE: usize = 1 << 16;

/// What a number is.
#[derive(Clone, Copy, Debug, PartialEq)]
pub enum Sample {
    Float,
    /// A whole number of 24 bits.
    Whole24,
}

impl Sample {
    fn bytes(self) -> usize {
        match self {
            Self::Float => 4,
            Self::Whole24 => 3,
        }
    }

    fn kind(self) -> [u8; 16] {
        match self {
            Self::Float => FLOAT,
            Self::Whole24 => PCM,
        }
    }
}

/// What a sample is.
#[derive(Clone, Copy)]
pub struct Format {
    pub rate: u32,
    pub layout: Layout,
    pub sample: Sample,
}

impl Format {
    fn channels(self) -> u16 {
        self.layout.speakers().len() as u16
    }

    /// Bytes of a sample on all channels.
    pub fn row(self) -> usize {
        self.sample.bytes() * usize::from(self.channels())
    }

    /// The chunk that says it.
    pub fn write(self, h: &mut Vec<u8>) {
        let (row, bits) = (self.row() as u16, 8 * self.sample.bytes() as u16);
        h.extend(b"fmt ");
        h.extend(40u32.to_le_bytes());
        h.extend(0xfffeu16.to_le_bytes());
        h.extend(self.channels().to_le_bytes());
        h.extend(self.rate.to_le_bytes());
        h.extend((self.rate * u32::from(row)).to_le_bytes());
        h.extend(row.to_le_bytes());
        h.extend(bits.to_le_bytes());
        // The extension: its length, the bits in use, the speakers, the kind of number.
        h.extend(22u16.to_le_bytes());
        h.extend(bits.to_le_bytes());
        h.extend(self.layout.wave_mask().to_le_bytes());
        h.extend(self.sample.kind());
    }
}

/// How the sizes stand in the first bytes.
#[derive(Clone, Copy, PartialEq)]
enum Sizes {
    /// Not known: the reader goes on to the end.
    Open,
    Short,
    Long,
}

pub struct Wave {
    to: To,
    format: Format,
    rf64: bool,
    rows: u64,
    held: Vec<u8>,
}

enum To {
    /// The first bytes are written again at the end.
    File(File),
    Pipe(Box<dyn Write>),
}

impl Wave {
    /// `rf64`: sizes of 64 bits at any length.
    pub fn file(file: File, format: Format, rf64: bool) -> io::Result<Self> {
        let mut file = file;
        match file.stream_position() {
            Ok(_) => Self::begin(To::File(file), format, rf64),
            Err(_) => Self::begin(To::Pipe(Box::new(file)), format, rf64),
        }
    }

    pub fn pipe(to: Box<dyn Write>, format: Format) -> io::Result<Self> {
        Self::begin(To::Pipe(to), format, false)
    }

    fn begin(to: To, format: Format, rf64: bool) -> io::Result<Self> {
        let (rows, held) = (0, head(format, 0, Sizes::Open));
        let mut wave = Self {
            to,
            format,
            rf64,
            rows,
            held,
        };
        wave.spill()?;
        Ok(wave)
    }

    pub fn put(&mut self, sound: &Rendered<'_>) -> io::Result<()> {
        match self.format.sample {
            Sample::Float => put_floats(sound, &mut self.held),
            Sample::Whole24 => bits::put(sound, &mut self.held)?,
        }
        self.rows += sound.ready() as u64;
        self.spill_a_piece()
    }

    /// Samples of all channels as bytes, sample after sample.
    pub fn rows(&mut self, rows: &[u8]) -> io::Result<()> {
        self.held.extend_from_slice(rows);
        self.rows += (rows.len() / self.format.row()) as u64;
        self.spill_a_piece()
    }

    fn spill_a_piece(&mut self) -> io::Result<()> {
        if self.held.len() >= PIECE {
            self.spill()
        } else {
            Ok(())
        }
    }

    fn spill(&mut self) -> io::Result<()> {
        let to: &mut dyn Write = match &mut self.to {
            To::File(file) => file,
            To::Pipe(pipe) => pipe,
        };
        to.write_all(&self.held)?;
        self.held.clear();
        Ok(())
    }

    /// Writes what is held and the sizes.
    pub fn close(&mut self) -> io::Result<()> {
        self.spill()?;
        match &mut self.to {
            To::Pipe(pipe) => pipe.flush(),
            To::File(file) => sizes(file, self.format, self.rows, self.rf64),
        }
    }

    /// After a failed write: makes a whole file of what has reached it. How many seconds that is, where it can be done.
    pub fn rescue(self) -> Option<f64> {
        let To::File(mut file) = self.to else {
            return None;
        };
        let length = file.metadata().ok().filter(|m| m.is_file())?.len();
        let row = self.format.row() as u64;
        let rows = length.checked_sub(HEAD as u64)? / row;
        file.set_len(HEAD as u64 + rows * row).ok()?;
        sizes(&mut file, self.format, rows, self.rf64).ok()?;
        Some(rows as f64 / f64::from(self.format.rate))
    }
}

fn put_floats(sound: &Rendered<'_>, to: &mut Vec<u8>) {
    let channels: Vec<&[f32]> = sound.channels().map(|(_, samples)| samples).collect();
    for i in 0..sound.ready() {
        for channel in &channels {
            to.extend_from_slice(&channel[i].to_le_bytes());
        }
    }
}

fn sizes(file: &mut File, format: Format, rows: u64, rf64: bool) -> io::Result<()> {
    let data = rows * format.row() as u64;
    let short = data + HEAD as u64 - 8 <= u64::from(u32::MAX) && !rf64;
    file.seek(SeekFrom::Start(0))?;
    file.write_all(&head(
        format,
        rows,
        if short { Sizes::Short } else { Sizes::Long },
    ))
}

/// The first bytes of a file of so many rows.
fn head(format: Format, rows: u64, sizes: Sizes) -> Vec<u8> {
    let data = rows * format.row() as u64;
    let riff = data + HEAD as u64 - 8;
    let long = sizes == Sizes::Long;
    let size = |n: u64| {
        if sizes == Sizes::Short {
            n as u32
        } else {
            u32::MAX
        }
        .to_le_bytes()
    };
    let wide = |n: u64| if long { n } else { 0 }.to_le_bytes();
    let mut h = Vec::with_capacity(HEAD);
    h.extend(if long { b"RF64" } else { b"RIFF" });
    h.extend(size(riff));
    h.extend(b"WAVE");
    h.extend(if long { b"ds64" } else { b"JUNK" });
    h.extend(28u32.to_le_bytes());
    h.extend(wide(riff));
    h.extend(wide(data));
    h.extend(wide(rows));
    h.extend(0u32.to_le_bytes());
    format.write(&mut h);
    h.extend(b"data");
    h.extend(size(data));
    h
}

#[cfg(test)]
mod tests {
    use super::*;

    const fn of(layout: Layout) -> Format {
        let (rate, sample) = (48_000, Sample::Float);
        Format {
            rate,
            layout,
            sample,
        }
    }

    /// The greatest number of rows whose sizes fit into 32 bits: in 7.1.4 31 minutes at 48,000 Hz.
    fn most(layout: Layout) -> u64 {
        (u64::from(u32::MAX) + 8 - HEAD as u64) / of(layout).row() as u64
    }

    fn written(layout: Layout, rows: u64, rf64: bool) -> Vec<u8> {
        let name = format!("voqlisna-{}-{layout}-{rows}-{rf64}", std::process::id());
        let path = std::env::temp_dir().join(name);
        let mut file = File::create(&path).unwrap();
        sizes(&mut file, of(layout), rows, rf64).unwrap();
        let bytes = std::fs::read(&path).unwrap();
        std::fs::remove_file(&path).unwrap();
        bytes
    }

    #[test]
    fn sizes_of_32_bits_as_long_as_they_fit() {
        for (layout, row, minutes) in [
            (Layout::Hall714, 48, 31),
            (Layout::Hall514, 40, 37),
            (Layout::Hall710, 32, 46),
            (Layout::Hall510, 24, 62),
        ] {
            assert_eq!(head(of(layout), 0, Sizes::Open).len(), HEAD);
            let most = most(layout);
            let h = written(layout, most, false);
            assert_eq!(&h[..4], b"RIFF");
            assert_eq!(&h[12..16], b"JUNK");
            let size = u32::from_le_bytes(h[100..104].try_into().unwrap());
            assert_eq!(u64::from(size), most * row);
            assert_eq!(most / 48_000 / 60, minutes);
        }
    }

    #[test]
    fn sizes_of_64_bits_beyond() {
        for layout in Layout::ALL {
            let row = of(layout).row() as u64;
            for (rows, rf64) in [(most(layout) + 1, false), (7, true)] {
                let h = written(layout, rows, rf64);
                assert_eq!(&h[..4], b"RF64");
                assert_eq!(&h[4..8], [0xff; 4]);
                assert_eq!(&h[12..16], b"ds64");
                let long = |at: usize| u64::from_le_bytes(h[at..at + 8].try_into().unwrap());
                assert_eq!(long(20), rows * row + 96);
                assert_eq!(long(28), rows * row);
                assert_eq!(long(36), rows);
                assert_eq!(&h[100..104], [0xff; 4]);
            }
        }
    }
}
