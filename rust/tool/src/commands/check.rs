// SPDX-License-Identifier: Apache-2.0
//! `check`: every refusal with its cause. After one it goes on as `render` does, so that one fault is told once. What is
//! refused is the same in every layout.
use super::told;
use crate::arguments::Policy;
use crate::files::{self, Out};
use crate::hall::{Counts, Hall, Listener, Refused};
use crate::numbers::{counted, grouped};
use crate::programme::{Limits, Reader};
use crate::setup::Setup;
use crate::trouble::Trouble;
use std::ffi::OsString;
use voqlisna::{Blame, Rendered};

pub fn check(from: &OsString) -> Result<(), Trouble> {
    let (input, length) = files::open(from)?;
    let mut programme = Reader::new(input, Limits::TOOL, length);
    let (out, by) = (Out::standard(), Vec::new());
    let mut report = Report { out, by };
    let (counts, broken) =
        Hall::new(&Setup::BUILT_IN)?.run(&mut programme, Policy::Conceal, &mut report)?;
    let Report { mut out, by } = report;
    out.line(&summary(&counts, &by))?;
    out.close()?;
    match broken {
        Some(broken) => Err(broken.trouble(&files::name_in(from))),
        None if counts.refused() > 0 => Err(Trouble::Refused(None)),
        None => Ok(()),
    }
}

struct Report {
    out: Out,
    /// Refused frames by whose fault it is.
    by: Vec<(Blame, u64)>,
}

impl Listener for Report {
    fn sound(&mut self, _: u32, _: &Rendered<'_>) -> Result<(), Trouble> {
        Ok(())
    }

    fn refused(&mut self, what: &Refused<'_>) -> Result<(), Trouble> {
        let who = what.refusal.blame();
        match self.by.iter_mut().find(|b| b.0 == who) {
            Some(b) => b.1 += 1,
            None => self.by.push((who, 1)),
        }
        self.out.line(&told::line(what))
    }
}

/// "101 frames, 31 refused: 19 programme, 4 decoder, 8 stream"
fn summary(counts: &Counts, by: &[(Blame, u64)]) -> String {
    let mut text = counted(counts.frames, "frame");
    if by.is_empty() {
        text += ", none refused";
    } else {
        let each: Vec<String> = by
            .iter()
            .map(|(w, n)| format!("{} {w}", grouped(*n)))
            .collect();
        text += &format!(
            ", {} refused: {}",
            grouped(counts.refused()),
            each.join(", ")
        );
    }
    if counts.longest > usize::from(Limits::HALLRENDER.samples) {
        text += &format!(
            "; up to {} samples a frame (hallrender takes 256)",
            grouped(counts.longest as u64)
        );
    }
    text
}
