// SPDX-License-Identifier: Apache-2.0
//! Text to bytes.
use super::{lines, record, word};
use crate::files::Out;
use crate::programme::{Header, LENGTH};
use crate::trouble::Trouble;
use std::io::Read;

/// Writes what the text says.
pub fn undump(from: impl Read, name: &str, out: &mut Out) -> Result<(), Trouble> {
    let mut frame = None;
    let mut last = 0;
    for line in lines(from, name) {
        let (number, line) = line?;
        last = number;
        one(&line, &mut frame, out).map_err(|e| e.at(name, last))?;
    }
    finish(&mut frame, out).map_err(|e| e.at(name, last))
}

/// A line that says nothing, or a failed write.
enum Fault {
    Line(String),
    Write(Trouble),
}

impl Fault {
    fn at(self, name: &str, line: usize) -> Trouble {
        match self {
            Self::Line(why) => Trouble::Wrong(format!("{name}:{line}: {why}")),
            Self::Write(trouble) => trouble,
        }
    }
}

impl From<String> for Fault {
    fn from(why: String) -> Self {
        Self::Line(why)
    }
}

impl From<Trouble> for Fault {
    fn from(trouble: Trouble) -> Self {
        Self::Write(trouble)
    }
}

/// A frame whose lines are still coming.
struct Open {
    header: Header,
    metadata: Vec<u8>,
    pcm: Vec<u8>,
}

fn one(line: &str, frame: &mut Option<Open>, out: &mut Out) -> Result<(), Fault> {
    let (name, rest) = line.split_once(char::is_whitespace).unwrap_or((line, ""));
    match (name, frame.as_mut()) {
        ("pcm", Some(open)) => read_words(rest, &mut open.pcm)?,
        ("pcm", None) => return Err("pcm stands outside of a frame".to_owned().into()),
        ("update" | "element" | "block" | "object" | "raw", Some(open)) => {
            if !open.pcm.is_empty() {
                return Err(format!("{name} stands behind the frame's pcm").into());
            }
            open.metadata.extend_from_slice(&record::read(line)?);
        }
        ("update" | "element" | "block" | "object" | "raw", None) => {
            return Err(format!("{name} stands outside of a frame").into());
        }
        _ => {
            finish(frame, out)?;
            alone(name, rest, line, frame, out)?;
        }
    }
    Ok(())
}

/// A line that belongs to no frame before it.
fn alone(
    name: &str,
    rest: &str,
    line: &str,
    frame: &mut Option<Open>,
    out: &mut Out,
) -> Result<(), Fault> {
    match name {
        "frame" => {
            let (header, told) = record::read_header(line)?;
            if told {
                return Err("records are counted, and told only behind bad"
                    .to_owned()
                    .into());
            }
            let (metadata, pcm) = (Vec::new(), Vec::new());
            *frame = Some(Open {
                header,
                metadata,
                pcm,
            });
        }
        "bad" => out.put(&record::read(rest)?)?,
        "cut" => {
            let bytes = word::read_bytes(rest).filter(|b| !b.is_empty() && b.len() < LENGTH);
            out.put(&bytes.ok_or_else(|| "cut must be followed by 1 to 39 bytes".to_owned())?)?;
        }
        _ => out.put(&record::read(line)?)?,
    }
    Ok(())
}

/// Adds the words of a line of PCM.
fn read_words(text: &str, pcm: &mut Vec<u8>) -> Result<(), String> {
    let mut last = None;
    for token in text.split_whitespace() {
        let (word, times) = match (token.strip_prefix('x'), last) {
            (Some(n), Some(word)) => (word, n.parse::<u16>().ok().and_then(|n| n.checked_sub(1))),
            (Some(_), None) => return Err(format!("{token} has no word before it")),
            (None, _) => (
                word::read_word(token)
                    .ok_or_else(|| format!("{token} is not a word of 8 digits"))?,
                Some(1),
            ),
        };
        let times = times.ok_or_else(|| format!("{token} is not a number of repeats"))?;
        for _ in 0..times {
            pcm.extend_from_slice(&word.to_le_bytes());
        }
        last = if token.starts_with('x') {
            None
        } else {
            Some(word)
        };
    }
    Ok(())
}

/// Writes the frame whose lines have come.
fn finish(frame: &mut Option<Open>, out: &mut Out) -> Result<(), Fault> {
    let Some(Open {
        mut header,
        metadata,
        pcm,
    }) = frame.take()
    else {
        return Ok(());
    };
    let records = metadata.len() / LENGTH;
    header.records = u16::try_from(records).map_err(|_| {
        format!("the frame before has {records} metadata records, and 65,535 can be told")
    })?;
    if pcm.len() != header.pcm_bytes() {
        let (got, needed) = (pcm.len() / 4, header.pcm_bytes() / 4);
        return Err(format!(
            "the frame before has {got} words of PCM, and its header asks for {needed}"
        )
        .into());
    }
    out.put(&header.write())?;
    out.put(&metadata)?;
    for nine in pcm.chunks(36) {
        let mut r = [0; LENGTH];
        r[0] = 6;
        r[4..4 + nine.len()].copy_from_slice(nine);
        out.put(&r)?;
    }
    Ok(())
}
