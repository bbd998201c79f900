// SPDX-License-Identifier: Apache-2.0
//! `archive`: a rendered show as planes. `unarchive`: the same show again.
use super::record::rescued;
use crate::archive::{MOST, Reader, Writer};
use crate::files::{self, Out};
use crate::numbers::{counted, grouped};
use crate::programme::Broken;
use crate::trouble::Trouble;
use crate::wave::{Format, Sample, Wave};
use crate::wave_reader::WaveReader;
use std::ffi::OsString;
use std::fs::File;
use std::io::{self, Write};

/// Also where the WAVE file breaks off, the archive of what is there is whole.
pub fn archive(from: &OsString, to: &OsString) -> Result<(), Trouble> {
    files::apart(from, to)?;
    let (input, _) = files::open(from)?;
    let wrong = |broken: Broken| broken.trouble(&files::name_in(from));
    let mut wave = WaveReader::new(input, Sample::Float).map_err(wrong)?;
    let format = wave.format();
    let mut archive = Writer::new(Out::create(to)?, format)?;
    let (mut rows, mut samples) = (Vec::with_capacity(format.row() * MOST), 0);
    let end = loop {
        match wave.next(&mut rows) {
            Ok(true) => archive.put(&rows)?,
            Ok(false) => break Ok(()),
            Err(broken) => break Err(wrong(broken)),
        }
        samples += rows.len() / format.row();
    };
    archive.close()?;
    say(to, format, samples)?;
    end
}

/// Also where the archive breaks off, the WAVE file of what is there is whole.
pub fn unarchive(from: &OsString, to: &OsString, rf64: bool) -> Result<(), Trouble> {
    files::apart(from, to)?;
    let (input, _) = files::open(from)?;
    let wrong = |broken: Broken| broken.trouble(&files::name_in(from));
    let mut archive = Reader::new(input).map_err(wrong)?;
    let name = files::name_out(to);
    let failed = |e: &io::Error| Trouble::io(&name, e);
    let format = archive.format();
    let mut wave = begin(to, format, rf64).map_err(|e| failed(&e))?;
    let (mut rows, mut samples) = (Vec::with_capacity(format.row() * MOST), 0);
    let end = loop {
        match archive.next(&mut rows) {
            Ok(true) => {}
            Ok(false) => break Ok(()),
            Err(broken) => break Err(wrong(broken)),
        }
        samples += rows.len() / format.row();
        if let Err(e) = wave.rows(&rows) {
            return Err(closed(wave, failed(&e)));
        }
    };
    if let Err(e) = wave.close() {
        return Err(closed(wave, failed(&e)));
    }
    say(to, format, samples)?;
    end
}

pub fn begin(to: &OsString, format: Format, rf64: bool) -> io::Result<Wave> {
    match to == "-" {
        true => Wave::pipe(Box::new(io::stdout().lock()), format),
        false => Wave::file(File::create(to)?, format, rf64),
    }
}

/// After a failed write.
pub fn closed(wave: Wave, trouble: Trouble) -> Trouble {
    match trouble {
        Trouble::Failed(message) => rescued(wave, message),
        other => other,
    }
}

/// "show.hall: 20.000 s, 960,000 samples at 48,000 Hz", on standard error where standard output is the file.
pub fn say(to: &OsString, format: Format, samples: usize) -> Result<(), Trouble> {
    let text = format!(
        "{}: {:.3} s, {} at {} Hz",
        files::name_out(to),
        samples as f64 / f64::from(format.rate),
        counted(samples as u64, "sample"),
        grouped(format.rate.into())
    );
    if to == "-" {
        let _ = writeln!(io::stderr(), "{text}");
        return Ok(());
    }
    let mut out = Out::standard();
    out.line(&text)?;
    out.close()
}
