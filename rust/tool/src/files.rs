// SPDX-License-Identifier: Apache-2.0
//! IN and OUT: a file, or standard input or output as `-`.
use crate::trouble::Trouble;
use std::ffi::{OsStr, OsString};
use std::fs::{self, File};
use std::io::{self, BufWriter, Read, Write};
use std::os::unix::fs::MetadataExt;

/// The name of a file in messages.
pub fn name_in(path: &OsStr) -> String {
    match path.to_str() {
        Some("-") => "standard input".to_owned(),
        _ => path.to_string_lossy().into_owned(),
    }
}

/// The same for a file that is written.
pub fn name_out(path: &OsStr) -> String {
    match path.to_str() {
        Some("-") => "standard output".to_owned(),
        _ => path.to_string_lossy().into_owned(),
    }
}

/// Opens IN; beside it how long it is, where that is known.
pub fn open(path: &OsStr) -> Result<(Box<dyn Read>, Option<u64>), Trouble> {
    if path == "-" {
        return Ok((Box::new(io::stdin().lock()), None));
    }
    let file = File::open(path).map_err(|e| Trouble::io(&name_in(path), &e))?;
    let length = file.metadata().ok().filter(|m| m.is_file());
    Ok((Box::new(file), length.map(|m| m.len())))
}

/// Refuses to write over what is read.
pub fn apart(from: &OsStr, to: &OsStr) -> Result<(), Trouble> {
    let place = |path: &OsStr| {
        fs::metadata(path)
            .ok()
            .map(|m| (m.dev(), m.ino(), m.is_file()))
    };
    match (place(from), place(to)) {
        (Some(a), Some(b)) if a == b && a.2 && from != "-" && to != "-" => Err(Trouble::Wrong(
            format!("{} would be written over while it is read", name_in(from)),
        )),
        _ => Ok(()),
    }
}

/// A text or a file of bytes, written as it comes.
pub struct Out {
    to: BufWriter<Box<dyn Write>>,
    name: String,
}

impl Out {
    /// Standard output.
    pub fn standard() -> Self {
        let to: Box<dyn Write> = Box::new(io::stdout().lock());
        Self {
            to: BufWriter::with_capacity(1 << 16, to),
            name: name_out(OsStr::new("-")),
        }
    }

    pub fn create(path: &OsString) -> Result<Self, Trouble> {
        if path == "-" {
            return Ok(Self::standard());
        }
        let name = name_out(path);
        let file = File::create(path).map_err(|e| Trouble::io(&name, &e))?;
        let to: Box<dyn Write> = Box::new(file);
        Ok(Self {
            to: BufWriter::with_capacity(1 << 16, to),
            name,
        })
    }

    pub fn put(&mut self, bytes: &[u8]) -> Result<(), Trouble> {
        self.to
            .write_all(bytes)
            .map_err(|e| Trouble::io(&self.name, &e))
    }

    pub fn line(&mut self, text: &str) -> Result<(), Trouble> {
        self.put(text.as_bytes())?;
        self.put(b"\n")
    }

    pub fn close(mut self) -> Result<(), Trouble> {
        self.to.flush().map_err(|e| Trouble::io(&self.name, &e))
    }
}

/// Writes a picture or another text whole.
pub fn write(path: &OsString, text: &str) -> Result<(), Trouble> {
    let mut out = Out::create(path)?;
    out.put(text.as_bytes())?;
    out.close()
}
