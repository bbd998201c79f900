// SPDX-License-Identifier: Apache-2.0
//! Reads an archive.
use super::{HEAD, MAGIC, MOST, PLAIN, ROW, WITH_LAYOUT, by_sample};
use crate::numbers::grouped;
use crate::programme::{Broken, Window};
use crate::wave::{Format, Sample};
use std::io::Read;
use voqlisna::{Layout, Rate, bytes_from_planes};

pub struct Reader<R> {
    window: Window<R>,
    format: Format,
    sound: Vec<u8>,
    ended: bool,
}

impl<R: Read> Reader<R> {
    pub fn new(from: R) -> Result<Self, Broken> {
        let mut window = Window::new(from);
        let head = window.look(HEAD + 4).map_err(Broken::Read)?;
        let (format, bytes) = format(head).map_err(|why| Broken::Record { at: 0, why })?;
        window.take(bytes);
        Ok(Self {
            window,
            format,
            sound: vec![0; ROW * MOST],
            ended: false,
        })
    }

    pub fn format(&self) -> Format {
        self.format
    }

    /// The next frame's samples, sample after sample; none behind the last frame.
    pub fn next(&mut self, rows: &mut Vec<u8>) -> Result<bool, Broken> {
        rows.clear();
        if self.ended {
            return Ok(false);
        }
        let samples = self.count()?;
        if samples == 0 {
            self.ended = true;
            return self.end().map(|()| false);
        }
        let bytes = ROW * samples;
        let frame = self.window.look(4 + bytes).map_err(Broken::Read)?;
        let got = frame.len();
        let Some(planes) = frame.get(4..4 + bytes) else {
            return Err(self.bad(&format!(
                "the file ends inside a frame ({} of {} bytes are missing)",
                grouped((4 + bytes - got) as u64),
                grouped(4 + bytes as u64)
            )));
        };
        let done = bytes_from_planes(planes, samples, &mut self.sound);
        done.map_err(|refusal| self.bad(&refusal.to_string()))?;
        rows.resize(self.format.row() * samples, 0);
        by_sample(&self.sound[..bytes], self.format, rows);
        self.window.take(4 + bytes);
        Ok(true)
    }

    /// The count before a frame, not yet taken.
    fn count(&mut self) -> Result<usize, Broken> {
        let word = self.window.look(4).map_err(Broken::Read)?;
        let Ok(word) = word.try_into() else {
            return Err(self.bad("the file ends before the archive does"));
        };
        let samples = u32::from_le_bytes(word) as usize;
        if samples > MOST {
            return Err(self.bad(&format!(
                "a frame of {} samples, and at most {} may be",
                grouped(samples as u64),
                grouped(MOST as u64)
            )));
        }
        Ok(samples)
    }

    /// Nothing stands behind the count of 0.
    fn end(&mut self) -> Result<(), Broken> {
        self.window.take(4);
        match self.window.look(1).map_err(Broken::Read)?.is_empty() {
            true => Ok(()),
            false => Err(self.bad("the archive is at its end and the file is not")),
        }
    }

    fn bad(&self, why: &str) -> Broken {
        Broken::Record {
            at: self.window.at(),
            why: why.to_owned(),
        }
    }
}

/// The format that the first bytes tell, and how many they are; or why they are not those of an archive.
fn format(head: &[u8]) -> Result<(Format, usize), String> {
    let word = |at: usize| {
        let word = head.get(at..at + 4).and_then(|w| w.try_into().ok());
        word.map(u32::from_le_bytes)
    };
    let (Some(version), Some(rate), true) = (word(8), word(12), head.starts_with(&MAGIC)) else {
        return Err("this is no archive of a show".to_owned());
    };
    let (code, bytes) = match version {
        PLAIN => (Some(0), HEAD),
        WITH_LAYOUT => (word(16), HEAD + 4),
        _ => {
            return Err(format!(
                "an archive of version {version}, and this tool reads versions {PLAIN} and {WITH_LAYOUT}"
            ));
        }
    };
    let Some(layout) = code.and_then(Layout::from_code) else {
        return Err("an archive without a layout".to_owned());
    };
    match Rate::new(rate) {
        Some(_) => {
            let sample = Sample::Float;
            let format = Format {
                rate,
                layout,
                sample,
            };
            Ok((format, bytes))
        }
        None => Err(format!("a rate of {} Hz", grouped(rate.into()))),
    }
}
