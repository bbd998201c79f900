// SPDX-License-Identifier: Apache-2.0
//! One record as the words of a line, and back.
use super::word;
use crate::programme::{Header, LENGTH, Record};
use std::str::SplitWhitespace;

/// Bits of an object's flags.
const VALID: u8 = 1;
const DIFFERENTIAL: u8 = 2;
const GAIN: u8 = 4;
const POSITION: u8 = 8;
const DISTANCE: u8 = 16;
const SIZE: u8 = 32;

/// The kind of an update that may lie ahead of its frame.
pub const AHEAD: u8 = 9;

const ANCHORS: [&str; 3] = ["room", "screen", "speaker"];

/// A record of any kind: by its fields, or as `raw` where these do not read back as it.
pub fn show(r: &Record) -> String {
    let text = match r[0] {
        1 | AHEAD => update(r),
        2 => format!("element blocks {}", r[1]),
        3 => format!("block offset {} ramp {}", long(r, 8), long(r, 16)),
        4 => object(r),
        5 => Header::read(r).map_or_else(String::new, |h| {
            format!("{} records {}", frame(&h), h.records)
        }),
        7 => "flush".to_owned(),
        8 => "reset".to_owned(),
        _ => String::new(),
    };
    match read(&text) {
        Ok(back) if back == *r => text,
        _ => format!("raw {}", word::bytes(r)),
    }
}

/// A frame's header, without the number of its metadata records.
pub fn frame(h: &Header) -> String {
    let beds = listed(h.codes());
    format!(
        "frame {} samples {}{beds} objects {}",
        h.rate, h.samples, h.objects
    )
}

fn update(r: &Record) -> String {
    let codes = r.get(8..8 + usize::from(r[6])).unwrap_or(&[]);
    let (objects, fixed, elements, beds) = (r[4], r[5], r[7], listed(codes));
    let ahead = if r[0] == AHEAD { " ahead" } else { "" };
    let at = offset(r);
    format!("update{ahead} at {at} objects {objects} fixed {fixed}{beds} elements {elements}")
}

/// Of an update, in samples from the start of its frame.
pub fn offset(r: &Record) -> u32 {
    match r[0] {
        AHEAD => u32::from_le_bytes([r[28], r[29], r[30], r[31]]),
        _ => u16::from_le_bytes([r[2], r[3]]).into(),
    }
}

fn listed(codes: &[u8]) -> String {
    if codes.is_empty() {
        String::new()
    } else {
        format!(" beds {}", word::beds(codes))
    }
}

fn object(r: &Record) -> String {
    let anchor = ANCHORS.get(usize::from(r[1])).unwrap_or(&"?");
    let mut text = format!("object {anchor}");
    let has = |bit: u8| r[2] & bit != 0;
    for (bit, name, from, to) in [
        (GAIN, "gain", 4, 8),
        (POSITION, "at", 8, 20),
        (DISTANCE, "distance", 20, 24),
        (SIZE, "size", 24, 28),
    ] {
        if has(bit) {
            text += &format!(" {name}");
            for at in (from..to).step_by(4) {
                text += &format!(" {}", word::float(value(r, at)));
            }
        }
    }
    for (bit, name) in [(VALID, "valid"), (DIFFERENTIAL, "differential")] {
        if has(bit) {
            text += &format!(" {name}");
        }
    }
    if value(r, 28).to_bits() != 0 {
        text += &format!(" screen {}", word::float(value(r, 28)));
    }
    text += &format!(" depth {}", word::float(value(r, 32)));
    if value(r, 36).to_bits() != 0 {
        text += &format!(" send {}", word::float(value(r, 36)));
    }
    text
}

fn value(r: &Record, at: usize) -> f32 {
    f32::from_le_bytes([r[at], r[at + 1], r[at + 2], r[at + 3]])
}

fn long(r: &Record, at: usize) -> i64 {
    let mut bytes = [0; 8];
    bytes.copy_from_slice(&r[at..at + 8]);
    i64::from_le_bytes(bytes)
}

/// The record of a line.
pub fn read(line: &str) -> Result<Record, String> {
    let mut words = Words(line.split_whitespace());
    let mut r = [0; LENGTH];
    match words.next("a record")? {
        "update" => read_update(&mut words, &mut r)?,
        "element" => {
            r[0] = 2;
            words.key("blocks")?;
            r[1] = words.number()?;
        }
        "block" => {
            r[0] = 3;
            words.key("offset")?;
            put(&mut r, 8, &words.number::<i64>()?.to_le_bytes());
            words.key("ramp")?;
            put(&mut r, 16, &words.number::<i64>()?.to_le_bytes());
        }
        "object" => read_object(&mut words, &mut r)?,
        "frame" => r = read_frame(&mut words)?.0.write(),
        "flush" => r[0] = 7,
        "reset" => r[0] = 8,
        "raw" => {
            let text = words.next("80 digits")?;
            r = word::read_bytes(text)
                .and_then(|b| Record::try_from(b).ok())
                .ok_or("raw must be followed by 80 hexadecimal digits")?;
        }
        other => return Err(format!("no record is called {other}")),
    }
    words.end()?;
    Ok(r)
}

/// A frame's line; true where it says how many metadata records the header has.
pub fn read_header(line: &str) -> Result<(Header, bool), String> {
    let mut words = Words(line.split_whitespace());
    words.key("frame")?;
    let read = read_frame(&mut words)?;
    words.end()?;
    Ok(read)
}

fn read_frame(words: &mut Words<'_>) -> Result<(Header, bool), String> {
    let mut h = Header {
        rate: words.number()?,
        samples: 0,
        beds: 0,
        objects: 0,
        records: 0,
        codes: [0; 18],
    };
    words.key("samples")?;
    h.samples = words.number()?;
    if words.peek() == Some("beds") {
        let codes = words.beds()?;
        h.beds = codes.len() as u8;
        h.codes[..codes.len()].copy_from_slice(&codes);
    }
    words.key("objects")?;
    h.objects = words.number()?;
    let told = words.peek() == Some("records");
    if told {
        words.key("records")?;
        h.records = words.number()?;
    }
    Ok((h, told))
}

fn read_update(words: &mut Words<'_>, r: &mut Record) -> Result<(), String> {
    r[0] = 1;
    if words.peek() == Some("ahead") {
        words.key("ahead")?;
        r[0] = AHEAD;
    }
    words.key("at")?;
    match r[0] {
        AHEAD => put(r, 28, &words.number::<u32>()?.to_le_bytes()),
        _ => put(r, 2, &words.number::<u16>()?.to_le_bytes()),
    }
    words.key("objects")?;
    r[4] = words.number()?;
    words.key("fixed")?;
    r[5] = words.number()?;
    if words.peek() == Some("beds") {
        let codes = words.beds()?;
        r[6] = codes.len() as u8;
        put(r, 8, &codes);
    }
    words.key("elements")?;
    r[7] = words.number()?;
    Ok(())
}

fn read_object(words: &mut Words<'_>, r: &mut Record) -> Result<(), String> {
    r[0] = 4;
    let anchor = words.next("an anchor")?;
    let known = ANCHORS.iter().position(|a| *a == anchor);
    r[1] = known.ok_or_else(|| format!("no anchor is called {anchor}"))? as u8;
    while let Some(name) = words.0.next() {
        let (bit, from, to) = match name {
            "gain" => (GAIN, 4, 8),
            "at" => (POSITION, 8, 20),
            "distance" => (DISTANCE, 20, 24),
            "size" => (SIZE, 24, 28),
            "valid" => (VALID, 0, 0),
            "differential" => (DIFFERENTIAL, 0, 0),
            "screen" => (0, 28, 32),
            "depth" => (0, 32, 36),
            "send" => (0, 36, 40),
            other => return Err(format!("an object has no {other}")),
        };
        r[2] |= bit;
        for at in (from..to).step_by(4) {
            put(r, at, &words.float()?.to_le_bytes());
        }
    }
    Ok(())
}

fn put(r: &mut Record, at: usize, bytes: &[u8]) {
    r[at..at + bytes.len()].copy_from_slice(bytes);
}

/// The words of a line, one after the other.
struct Words<'a>(SplitWhitespace<'a>);

impl<'a> Words<'a> {
    fn next(&mut self, what: &str) -> Result<&'a str, String> {
        self.0.next().ok_or_else(|| format!("{what} is missing"))
    }

    fn peek(&self) -> Option<&'a str> {
        self.0.clone().next()
    }

    fn key(&mut self, key: &str) -> Result<(), String> {
        match self.next(key)? {
            word if word == key => Ok(()),
            other => Err(format!("{key} must stand where {other} stands")),
        }
    }

    fn number<T: std::str::FromStr>(&mut self) -> Result<T, String> {
        let word = self.next("a number")?;
        let what = || format!("{word} is not a number that fits its place");
        word.parse().map_err(|_| what())
    }

    fn float(&mut self) -> Result<f32, String> {
        let word = self.next("a number")?;
        word::read_float(word).ok_or_else(|| format!("{word} is not a number"))
    }

    /// "beds" and its codes, at most 18.
    fn beds(&mut self) -> Result<Vec<u8>, String> {
        self.key("beds")?;
        let word = self.next("a bed")?;
        let codes = word::read_beds(word).ok_or_else(|| format!("{word} are not beds"))?;
        if codes.len() > 18 {
            return Err(format!("{} beds, and at most 18 have a place", codes.len()));
        }
        Ok(codes)
    }

    fn end(&mut self) -> Result<(), String> {
        match self.0.next() {
            None => Ok(()),
            Some(more) => Err(format!("{more} stands behind the record's end")),
        }
    }
}
