// SPDX-License-Identifier: Apache-2.0
//! `demo`: the show into a WAVE file.
use super::record::Recorder;
use super::told::cause;
use super::{render, table};
use crate::arguments::{Demo, Policy};
use crate::hall::{Counts, Hall, Refused};
use crate::numbers::{counted, grouped};
use crate::show::Show;
use crate::trouble::Trouble;

pub fn demo(given: &Demo) -> Result<(), Trouble> {
    let to = &given.to;
    let written: Vec<_> = given.meters.file().into_iter().chain([to]).collect();
    let setup = table::setup(&given.hall, &written)?;
    let mut recorder = Recorder::new(to, false, given.sample, &given.meters, told)?;
    let mut show = Show::new(given.seconds);
    let mut hall = Hall::new(&setup)?.with(render::cues(&given.cues, &written)?);
    let ran = hall.run(&mut show, Policy::Conceal, &mut recorder);
    let ((counts, _), _) = recorder.close(ran)?;
    say(given, &mut recorder, &counts)?;
    hall.cued(&counts).map_or(Ok(()), Err)
}

fn say(given: &Demo, recorder: &mut Recorder<'_>, counts: &Counts) -> Result<(), Trouble> {
    let Some(first) = &recorder.first else {
        return Ok(());
    };
    recorder.say(&format!(
        "{}; {} of {} refused at {first} and concealed",
        recorder.summary(),
        grouped(counts.refused()),
        counted(counts.frames, "frame")
    ))?;
    recorder.say_meters()?;
    if given.to == "-" {
        return Ok(());
    }
    let to = given.to.to_string_lossy();
    recorder.say(&format!(
        "listen: play {to}   see: voqlisna plot levels -o levels.svg"
    ))
}

/// "10.000 s (8, decoder: channel 4, sample 17 is NaN)"
fn told(what: &Refused<'_>) -> String {
    let (number, who) = (what.refusal.number(), what.refusal.blame());
    format!("{:.3} s ({number}, {who}: {})", what.at, cause(what))
}
