// SPDX-License-Identifier: Apache-2.0
//! Bytes to text.
use super::{record, word};
use crate::files::Out;
use crate::programme::{Header, LENGTH, Record, Window, is_pcm, is_plain};
use crate::trouble::Trouble;
use std::io::Read;

/// Shows all that is read; beside an update that lies ahead the sample of the programme where it falls.
pub fn dump(from: impl Read, name: &str, out: &mut Out) -> Result<(), Trouble> {
    let mut window = Window::new(from);
    let mut start = 0;
    loop {
        let failed = |e| Trouble::io(name, &e);
        let bytes = window.look(LENGTH).map_err(failed)?;
        let Ok(first) = Record::try_from(bytes) else {
            if !bytes.is_empty() {
                out.line(&format!("cut {}", word::bytes(bytes)))?;
            }
            return Ok(());
        };
        let taken = match Header::read(&first) {
            Some(header) => {
                let whole = LENGTH * (1 + usize::from(header.records) + header.pcm_records());
                frame(&header, start, window.look(whole).map_err(failed)?, out)?
            }
            None => 0,
        };
        if taken == 0 {
            let bad = if is_plain(&first) { "" } else { "bad " };
            out.line(&format!("{bad}{}", record::show(&first)))?;
        }
        if taken > 0 {
            start += Header::read(&first).map_or(0, |header| header.samples.into());
        }
        window.take(taken.max(LENGTH));
    }
}

/// A whole frame; how many bytes it is, or 0 where it is cut or its PCM is not as laid out.
fn frame(header: &Header, start: u64, bytes: &[u8], out: &mut Out) -> Result<usize, Trouble> {
    let behind = LENGTH + header.metadata_bytes();
    let whole = behind + LENGTH * header.pcm_records();
    if bytes.len() < whole {
        return Ok(0);
    }
    let mut pcm = Vec::with_capacity(header.pcm_bytes());
    for r in bytes[behind..].chunks_exact(LENGTH) {
        let n = 36.min(header.pcm_bytes() - pcm.len());
        if !is_pcm(r, n) {
            return Ok(0);
        }
        pcm.extend_from_slice(&r[4..4 + n]);
    }
    out.line(&record::frame(header))?;
    metadata(&bytes[LENGTH..behind], start, out)?;
    for channel in pcm.chunks_exact(4 * usize::from(header.samples).max(1)) {
        out.line(&words(channel))?;
    }
    Ok(whole)
}

/// Records indented by what they belong to; an object with its number, from 0, and the block's; an update that lies
/// ahead of a frame that begins at `start` with its sample.
fn metadata(bytes: &[u8], start: u64, out: &mut Out) -> Result<(), Trouble> {
    let (mut blocks, mut objects) = (0, 0);
    for r in bytes.chunks_exact(LENGTH) {
        let mut record = [0; LENGTH];
        record.copy_from_slice(r);
        let text = record::show(&record);
        let line = match r[0] {
            2 => {
                (blocks, objects) = (usize::from(r[1]), 0);
                format!("    {text}")
            }
            3 => format!("      {text}"),
            4 if blocks > 0 => {
                objects += 1;
                let (o, b) = ((objects - 1) / blocks, (objects - 1) % blocks);
                format!("        {text} # object {o}, block {b}")
            }
            4 => format!("        {text}"),
            record::AHEAD if text.starts_with("update") => {
                let falls = start + u64::from(record::offset(&record));
                format!("  {text} # at sample {falls}")
            }
            _ => format!("  {text}"),
        };
        out.line(&line)?;
    }
    Ok(())
}

/// A channel's words, repeats counted.
fn words(channel: &[u8]) -> String {
    let mut text = "  pcm".to_owned();
    let words: Vec<u32> = channel
        .chunks_exact(4)
        .map(|b| u32::from_le_bytes([b[0], b[1], b[2], b[3]]))
        .collect();
    for run in words.chunk_by(|a, b| a == b) {
        text += &format!(" {:08x}", run[0]);
        if run.len() > 1 {
            text += &format!(" x{}", run.len());
        }
    }
    text
}
