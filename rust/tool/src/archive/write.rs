// SPDX-License-Identifier: Apache-2.0
//! Writes an archive.
use super::{MAGIC, MOST, PLAIN, ROW, WITH_LAYOUT, by_channel};
use crate::files::Out;
use crate::trouble::Trouble;
use crate::wave::Format;
use voqlisna::{Layout, bytes_to_planes};

pub struct Writer {
    out: Out,
    format: Format,
    sound: Vec<u8>,
    planes: Vec<u8>,
}

impl Writer {
    pub fn new(mut out: Out, format: Format) -> Result<Self, Trouble> {
        let Format { rate, layout, .. } = format;
        out.put(&MAGIC)?;
        let plain = layout == Layout::Hall714;
        let version = if plain { PLAIN } else { WITH_LAYOUT };
        out.put(&version.to_le_bytes())?;
        out.put(&rate.to_le_bytes())?;
        if !plain {
            out.put(&layout.code().to_le_bytes())?;
        }
        Ok(Self {
            out,
            format,
            sound: vec![0; ROW * MOST],
            planes: vec![0; ROW * MOST],
        })
    }

    /// A frame of so many samples, at most 1,536, that lie sample after sample.
    pub fn put(&mut self, rows: &[u8]) -> Result<(), Trouble> {
        let samples = rows.len() / self.format.row();
        let bytes = ROW * samples;
        by_channel(rows, self.format, &mut self.sound[..bytes]);
        bytes_to_planes(&self.sound[..bytes], samples, &mut self.planes)
            .map_err(|refusal| Trouble::Wrong(refusal.to_string()))?;
        self.out.put(&(samples as u32).to_le_bytes())?;
        self.out.put(&self.planes[..bytes])
    }

    pub fn close(mut self) -> Result<(), Trouble> {
        self.out.put(&0u32.to_le_bytes())?;
        self.out.close()
    }
}
