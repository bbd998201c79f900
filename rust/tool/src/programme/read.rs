// SPDX-License-Identifier: Apache-2.0
//! Reads a programme, frame after frame.
use super::record::{Header, LENGTH, NINE, Record, is_pcm, is_plain};
use super::{Ask, Packet, Programme, Window};
use crate::numbers::{counted, grouped};
use crate::trouble::{Trouble, sentence};
use std::io::{self, Read};

/// The most that a frame may have besides 18 beds and 16 objects.
#[derive(Clone, Copy)]
pub struct Limits {
    pub samples: u16,
    pub records: u16,
}

impl Limits {
    /// "it takes up to 256 samples, 18 beds, 16 objects and 1,200 metadata records a frame"
    pub const HALLRENDER: Self = Self {
        samples: 256,
        records: 1_200,
    };
    /// What a push takes; metadata is judged by it.
    pub const TOOL: Self = Self {
        samples: 1_536,
        records: u16::MAX,
    };
}

/// Why a programme cannot be read on.
#[derive(Debug)]
pub enum Broken {
    /// Not as laid out, from this byte on.
    Record { at: u64, why: String },
    /// The system's own trouble.
    Read(io::Error),
}

impl Broken {
    pub fn trouble(&self, name: &str) -> Trouble {
        match self {
            Self::Record { at, why } => {
                Trouble::Wrong(format!("{name}: byte {}: {why}", grouped(*at)))
            }
            Self::Read(e) => Trouble::Failed(format!("{name}: {}", sentence(e))),
        }
    }
}

pub struct Reader<R> {
    window: Window<R>,
    limits: Limits,
    length: Option<u64>,
}

impl<R: Read> Reader<R> {
    /// `length`: the bytes of the input, where that is known.
    pub fn new(from: R, limits: Limits, length: Option<u64>) -> Self {
        Self {
            window: Window::new(from),
            limits,
            length,
        }
    }

    /// A frame whose first record was looked at. Nothing of a frame that is cut is taken.
    fn frame(&mut self, first: &Record, frame: &mut Packet) -> Result<Ask, Broken> {
        let header = Header::read(first)
            .ok_or_else(|| self.bad("a frame's record whose unused places are not zero, or with more than 18 beds or 16 objects"))?;
        self.within(&header)?;
        let behind = LENGTH + header.metadata_bytes();
        let whole = behind + LENGTH * header.pcm_records();
        let at = self.window.at();
        let bytes = self.window.look(whole).map_err(Broken::Read)?;
        if bytes.len() < whole {
            return Err(cut(at, bytes.len(), &header));
        }
        frame.metadata.clear();
        frame.metadata.extend_from_slice(&bytes[LENGTH..behind]);
        frame.pcm.clear();
        for (k, record) in bytes[behind..].chunks_exact(LENGTH).enumerate() {
            let n = NINE.min(header.pcm_bytes() - NINE * k);
            if !is_pcm(record, n) {
                let at = at + (behind + LENGTH * k) as u64;
                let why = format!(
                    "bad record: not a record of PCM (6) of this frame; its kind is {}",
                    record[0]
                );
                return Err(Broken::Record { at, why });
            }
            frame.pcm.extend_from_slice(&record[4..4 + n]);
        }
        self.window.take(whole);
        (frame.rate, frame.samples) = (header.rate, header.samples.into());
        frame.objects = header.objects.into();
        frame.codes.clear();
        frame.codes.extend_from_slice(header.codes());
        Ok(Ask::Frame)
    }

    fn within(&self, header: &Header) -> Result<(), Broken> {
        let Limits { samples, records } = self.limits;
        if header.samples > samples {
            return Err(self.bad(&format!(
                "a frame of {} samples, and at most {} are taken",
                grouped(header.samples.into()),
                grouped(samples.into())
            )));
        }
        if header.records > records {
            return Err(self.bad(&format!(
                "a frame of {} metadata records, and at most {} are taken",
                grouped(header.records.into()),
                grouped(records.into())
            )));
        }
        Ok(())
    }

    fn bad(&self, what: &str) -> Broken {
        Broken::Record {
            at: self.window.at(),
            why: format!("bad record: {what}"),
        }
    }
}

impl<R: Read> Programme for Reader<R> {
    fn next(&mut self, frame: &mut Packet) -> Result<Option<Ask>, Broken> {
        let bytes = self.window.look(LENGTH).map_err(Broken::Read)?;
        if bytes.is_empty() {
            return Ok(None);
        }
        let Ok(record) = Record::try_from(bytes) else {
            let why = format!(
                "the file ends inside a record ({} of 40 bytes)",
                bytes.len()
            );
            return Err(Broken::Record {
                at: self.window.at(),
                why,
            });
        };
        match record[0] {
            5 => self.frame(&record, frame).map(Some),
            kind if is_plain(&record) => {
                self.window.take(LENGTH);
                Ok(Some(if kind == 7 { Ask::Flush } else { Ask::Reset }))
            }
            7 | 8 => Err(self.bad("a flush (7) or reset (8) whose other bytes are not zero")),
            kind => Err(self.bad(&format!(
                "kind {kind} where a frame (5), flush (7) or reset (8) must stand"
            ))),
        }
    }

    fn part(&self) -> Option<f64> {
        self.length
            .map(|n| self.window.at() as f64 / n.max(1) as f64)
    }
}

/// The input ends inside a frame, of which `got` bytes are there.
fn cut(at: u64, got: usize, header: &Header) -> Broken {
    let there = (got - LENGTH) / LENGTH;
    let (records, pcm) = (usize::from(header.records), header.pcm_records());
    let part = |missing: usize, of: usize, what: &str| {
        let of = counted(of as u64, &format!("{what} record"));
        let are = if missing == 1 { "is" } else { "are" };
        format!("{} of {of} {are} missing", grouped(missing as u64))
    };
    let missing = if there < records {
        part(records - there, records, "metadata")
    } else {
        part(records + pcm - there, pcm, "PCM")
    };
    Broken::Record {
        at: at + got as u64,
        why: format!("the file ends inside a frame ({missing})"),
    }
}
