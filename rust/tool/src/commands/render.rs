// SPDX-License-Identifier: Apache-2.0
//! `render`: a programme into a WAVE file.
use super::record::Recorder;
use super::{table, told};
use crate::arguments::{Policy, Render};
use crate::cues::Cues;
use crate::files;
use crate::hall::{Counts, Hall};
use crate::numbers::{counted, grouped};
use crate::programme::{Limits, Reader};
use crate::trouble::Trouble;
use std::ffi::OsString;

pub fn render(given: &Render) -> Result<(), Trouble> {
    let written: Vec<_> = given.meters.file().into_iter().chain([&given.to]).collect();
    for to in &written {
        files::apart(&given.from, to)?;
    }
    let setup = table::setup(&given.hall, &written)?;
    let mut hall = Hall::new(&setup)?.with(cues(&given.cues, &written)?);
    let (name, to) = (files::name_in(&given.from), &given.to);
    let (input, length) = files::open(&given.from)?;
    let mut programme = Reader::new(input, Limits::TOOL, length);
    let mut recorder = Recorder::new(to, given.rf64, given.sample, &given.meters, told::line)?;
    let ran = hall.run(&mut programme, given.policy, &mut recorder);
    let ((counts, broken), written) = recorder.close(ran)?;
    if written {
        recorder.say(&format!("{}; {}", recorder.summary(), refusals(&counts)))?;
        recorder.say_meters()?;
    }
    if let (Policy::Stop, Some(first)) = (given.policy, &recorder.first) {
        return Err(Trouble::Refused(Some(format!("{name}: {first}"))));
    }
    match broken {
        Some(broken) => Err(broken.trouble(&name)),
        None if !written => Err(Trouble::Refused(Some(format!(
            "{name}: no frame was accepted, so there is nothing to write"
        )))),
        None => match hall.cued(&counts) {
            Some(trouble) => Err(trouble),
            None if counts.lost > 0 => Err(Trouble::Refused(None)),
            None => Ok(()),
        },
    }
}

/// The cues in a file, where these files are written.
pub fn cues(from: &Option<OsString>, written: &[&OsString]) -> Result<Cues, Trouble> {
    for to in written {
        from.as_ref()
            .map_or(Ok(()), |from| files::apart(from, to))?;
    }
    Cues::open(from.as_deref())
}

/// "3 of 3,750 frames refused (5: 2, 8: 1), 2 concealed, 1 lost"
fn refusals(counts: &Counts) -> String {
    if counts.refused() == 0 {
        return format!("{}, none refused", counted(counts.frames, "frame"));
    }
    let each: Vec<String> = counts
        .refused
        .iter()
        .map(|(k, n)| format!("{k}: {}", grouped(*n)))
        .collect();
    format!(
        "{} of {} refused ({}), {} concealed, {} lost",
        grouped(counts.refused()),
        counted(counts.frames, "frame"),
        each.join(", "),
        grouped(counts.concealed),
        grouped(counts.lost)
    )
}
