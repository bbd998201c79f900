// SPDX-License-Identifier: Apache-2.0
//! `floats`: a WAVE file of 24 bits in f32.
use super::archive::{begin, closed, say};
use crate::bits::{floats, widened};
use crate::files;
use crate::programme::Broken;
use crate::trouble::Trouble;
use crate::wave::Sample;
use crate::wave_reader::WaveReader;
use std::ffi::OsString;
use std::io;

/// Also where the file breaks off, that of what is there is whole.
pub fn convert(from: &OsString, to: &OsString, rf64: bool) -> Result<(), Trouble> {
    files::apart(from, to)?;
    let (input, _) = files::open(from)?;
    let wrong = |broken: Broken| broken.trouble(&files::name_in(from));
    let mut reader = WaveReader::new(input, Sample::Whole24).map_err(wrong)?;
    let name = files::name_out(to);
    let failed = |e: &io::Error| Trouble::io(&name, e);
    let format = reader.format();
    let mut wave = begin(to, widened(format), rf64).map_err(|e| failed(&e))?;
    let (mut rows, mut samples) = (Vec::new(), 0);
    let end = loop {
        match reader.next(&mut rows) {
            Ok(true) => {}
            Ok(false) => break Ok(()),
            Err(broken) => break Err(wrong(broken)),
        }
        samples += rows.len() / format.row();
        let sound = floats(&rows, format.layout);
        if let Err(e) = sound.and_then(|sound| wave.rows(&sound)) {
            return Err(closed(wave, failed(&e)));
        }
    };
    if let Err(e) = wave.close() {
        return Err(closed(wave, failed(&e)));
    }
    say(to, format, samples)?;
    end
}
