// SPDX-License-Identifier: Apache-2.0
//! Reads a WAVE file such as `wave` writes: a layout's channels in f32 or 24 bits, RIFF or RF64, sizes known or open.
use crate::archive::MOST;
use crate::numbers::grouped;
use crate::programme::{Broken, Window};
use crate::wave::{Format, Sample};
use std::io::Read;
use voqlisna::{Layout, Rate};

const CUT: &str = "the file ends before its samples";

pub struct WaveReader<R> {
    window: Window<R>,
    format: Format,
    /// Bytes of samples that are not read yet; none where the reader goes on to the end.
    left: Option<u64>,
}

/// What stood in the chunks before the samples.
#[derive(Default)]
struct Head {
    format: Option<Format>,
    /// The size of the samples where 32 bits do not say it.
    long: Option<u64>,
}

impl<R: Read> WaveReader<R> {
    /// `sample`: what the file must have.
    pub fn new(from: R, sample: Sample) -> Result<Self, Broken> {
        let mut window = Window::new(from);
        let first = window.look(12).map_err(Broken::Read)?;
        if !matches!(first.get(..4), Some(b"RIFF" | b"RF64")) || !first.ends_with(b"WAVE") {
            return Err(bad(&window, "this is no WAVE file"));
        }
        window.take(12);
        let mut head = Head::default();
        loop {
            let (name, size) = chunk(&mut window)?;
            match &name {
                b"data" => return Self::begin(window, head, size),
                b"fmt " => head.format = Some(format(&mut window, size, sample)?),
                b"ds64" => head.long = Some(long(&mut window)?),
                _ => {}
            }
            skip(&mut window, u64::from(size) + u64::from(size % 2))?;
        }
    }

    /// The samples begin here.
    fn begin(window: Window<R>, head: Head, size: u32) -> Result<Self, Broken> {
        let Some(format) = head.format else {
            return Err(bad(&window, "samples before their format"));
        };
        let left = match size {
            u32::MAX => head.long,
            size => Some(size.into()),
        };
        let row = format.row();
        if left.is_some_and(|n| n % row as u64 != 0) {
            let why = format!("the samples are not whole rows of {row} bytes");
            return Err(bad(&window, &why));
        }
        Ok(Self {
            window,
            format,
            left,
        })
    }

    pub fn format(&self) -> Format {
        self.format
    }

    /// Up to 1,536 samples, sample after sample; none at the end.
    pub fn next(&mut self, rows: &mut Vec<u8>) -> Result<bool, Broken> {
        rows.clear();
        let row = self.format.row();
        let most = self.left.unwrap_or(u64::MAX).min((row * MOST) as u64) as usize;
        let bytes = self.window.look(most).map_err(Broken::Read)?;
        let (got, whole) = (bytes.len(), bytes.len() / row * row);
        rows.extend_from_slice(&bytes[..whole]);
        self.window.take(whole);
        self.left = self.left.map(|n| n - whole as u64);
        if whole > 0 || got == 0 && self.left.unwrap_or(0) == 0 {
            return Ok(whole > 0);
        }
        let missing = self.left.map_or((row - got) as u64, |n| n - got as u64);
        let why = format!(
            "the file ends inside its samples ({} bytes are missing)",
            grouped(missing)
        );
        Err(bad(&self.window, &why))
    }
}

/// The name and size of the next chunk.
fn chunk(window: &mut Window<impl Read>) -> Result<([u8; 4], u32), Broken> {
    let head = window.look(8).map_err(Broken::Read)?;
    let Some((name, size)) = head.split_first_chunk() else {
        return Err(bad(window, CUT));
    };
    let Ok(size) = size.try_into() else {
        return Err(bad(window, CUT));
    };
    let told = (*name, u32::from_le_bytes(size));
    window.take(8);
    Ok(told)
}

/// The format, where it is that of a layout's channels with the speakers' mask.
fn format(window: &mut Window<impl Read>, size: u32, sample: Sample) -> Result<Format, Broken> {
    let most = size.min(40) as usize;
    let told = window.look(most).map_err(Broken::Read)?;
    if told.len() < most {
        return Err(bad(window, CUT));
    }
    let hertz = told.get(4..8).and_then(|w| w.try_into().ok());
    let Some(rate) = hertz.and_then(|w| Rate::new(u32::from_le_bytes(w))) else {
        return Err(bad(window, "a rate outside 8,000 to 192,000 Hz"));
    };
    let formats = Layout::ALL.map(|layout| Format {
        rate: rate.hertz(),
        layout,
        sample,
    });
    let is_told = |format: &Format| {
        let mut wanted = Vec::new();
        format.write(&mut wanted);
        told == &wanted[8..]
    };
    let format = formats.into_iter().find(is_told);
    format.ok_or_else(|| {
        let masks = Layout::ALL.map(|layout| format!("{:#x}", layout.wave_mask()));
        let masks = masks.join(", ");
        let numbers = match sample {
            Sample::Float => "f32",
            Sample::Whole24 => "24 bits",
        };
        bad(
            window,
            &format!("not a layout's channels in {numbers} with their mask ({masks})"),
        )
    })
}

/// The size of the samples in 64 bits.
fn long(window: &mut Window<impl Read>) -> Result<u64, Broken> {
    let sizes = window.look(16).map_err(Broken::Read)?;
    match sizes.get(8..16).and_then(|w| w.try_into().ok()) {
        Some(size) => Ok(u64::from_le_bytes(size)),
        None => Err(bad(window, CUT)),
    }
}

/// Goes on by so many bytes.
fn skip(window: &mut Window<impl Read>, bytes: u64) -> Result<(), Broken> {
    let mut left = bytes;
    while left > 0 {
        let got = window
            .look(left.min(1 << 16) as usize)
            .map_err(Broken::Read)?
            .len();
        if got == 0 {
            return Err(bad(window, CUT));
        }
        window.take(got);
        left -= got as u64;
    }
    Ok(())
}

fn bad<R: Read>(window: &Window<R>, why: &str) -> Broken {
    Broken::Record {
        at: window.at(),
        why: why.to_owned(),
    }
}
