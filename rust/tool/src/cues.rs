// SPDX-License-Identifier: Apache-2.0
//! What an operator does while a programme plays, as text: a line for each cue, in any order.
//!
//! ```text
//! 48000 hold 2       # sample of the programme, what, dynamic object from 0
//! 96000 release 2
//! ```
//!
//! A cue is called between pushes: before the first frame that begins at its sample or later.
use crate::files;
use crate::numbers::grouped;
use crate::text::lines;
use crate::trouble::Trouble;
use std::ffi::OsStr;
use std::fmt;
use std::io::Read;
use voqlisna::{Refusal, Renderer};

/// Most dynamic objects of a frame.
const OBJECTS: u32 = 16;

#[derive(Clone, Copy, Debug, PartialEq)]
enum What {
    Hold,
    Release,
}

#[derive(Clone, Copy, Debug, PartialEq)]
struct Cue {
    line: usize,
    sample: u64,
    what: What,
    object: u32,
}

impl Cue {
    fn call(&self, renderer: &mut Renderer) -> Result<(), Refusal> {
        match self.what {
            What::Hold => renderer.hold(self.object),
            What::Release => renderer.release(self.object),
        }
    }
}

/// "48000 hold 2"
impl fmt::Display for Cue {
    fn fmt(&self, f: &mut fmt::Formatter<'_>) -> fmt::Result {
        let what = match self.what {
            What::Hold => "hold",
            What::Release => "release",
        };
        write!(f, "{} {what} {}", self.sample, self.object)
    }
}

/// Cues in the order in which they are called, and what came of them.
#[derive(Debug, Default)]
pub struct Cues {
    name: String,
    all: Vec<Cue>,
    called: usize,
    refused: Vec<String>,
}

impl Cues {
    /// The cues in a file; where none is named there are none.
    pub fn open(path: Option<&OsStr>) -> Result<Self, Trouble> {
        let Some(path) = path else {
            return Ok(Self::default());
        };
        let (input, _) = files::open(path)?;
        Self::read(input, files::name_in(path))
    }

    fn read(from: impl Read, name: String) -> Result<Self, Trouble> {
        let mut all = Vec::new();
        for line in lines(from, &name) {
            let (line, text) = line?;
            let cue = read_line(line, &text);
            all.push(cue.map_err(|why| Trouble::Wrong(format!("{name}:{line}: {why}")))?);
        }
        // At one sample they stay in the order of their lines.
        all.sort_by_key(|cue| cue.sample);
        Ok(Self {
            name,
            all,
            ..Self::default()
        })
    }

    /// Calls those that are due where a frame begins at this sample.
    pub fn call(&mut self, at: u64, renderer: &mut Renderer) {
        let left = self.all.iter().skip(self.called);
        let due = left.take_while(|cue| cue.sample <= at).count();
        for cue in &self.all[self.called..self.called + due] {
            if let Err(refusal) = cue.call(renderer) {
                let (name, line, number) = (&self.name, cue.line, refusal.number());
                let said = format!("{name}:{line}: {cue}: refused {number}: {refusal}");
                self.refused.push(said);
            }
        }
        self.called += due;
    }

    /// What went wrong, in a run whose last frame begins at this sample: cues that were refused, and those that came
    /// too late.
    pub fn trouble(&self, last: u64) -> Option<Trouble> {
        let late = self.all.iter().skip(self.called).map(|cue| {
            let (name, line, last) = (&self.name, cue.line, grouped(last));
            format!("{name}:{line}: {cue}: not called, the last frame begins at sample {last}")
        });
        let all: Vec<String> = self.refused.iter().cloned().chain(late).collect();
        (!all.is_empty()).then(|| Trouble::Refused(Some(all.join("\nvoqlisna: "))))
    }
}

fn read_line(line: usize, text: &str) -> Result<Cue, String> {
    let mut words = text.split_whitespace();
    let sample = words.next().unwrap_or_default();
    let sample = sample
        .parse()
        .map_err(|_| format!("the sample is {sample}, and must be a whole number from 0 on"))?;
    let what = match words.next() {
        Some("hold") => What::Hold,
        Some("release") => What::Release,
        Some(other) => {
            return Err(format!("{other} stands where hold or release must stand"));
        }
        None => return Err("hold or release is missing".into()),
    };
    let object = words.next().ok_or("the object is missing")?;
    let number: Option<u32> = object.parse().ok().filter(|n| *n < OBJECTS);
    let object =
        number.ok_or_else(|| format!("the object is {object}, and must be from 0 to 15"))?;
    match words.next() {
        None => Ok(Cue {
            line,
            sample,
            what,
            object,
        }),
        Some(more) => Err(format!("{more} stands behind the object")),
    }
}

#[cfg(test)]
mod tests {
    use super::*;

    fn read(text: &str) -> Result<Vec<String>, String> {
        let cues = Cues::read(text.as_bytes(), "c".into());
        let cues = cues.map_err(|e| e.message().unwrap_or_default().to_owned())?;
        Ok(cues.all.iter().map(Cue::to_string).collect())
    }

    #[test]
    fn lines_are_read_in_any_order() {
        assert_eq!(read(""), Ok(vec![]));
        let text =
            "# rehearsal\n 96000  release 2 # the ship\r\n\n48000 hold 2\n96000 hold 0\n0 hold 15";
        let wanted = [
            "0 hold 15",
            "48000 hold 2",
            "96000 release 2",
            "96000 hold 0",
        ];
        assert_eq!(read(text), Ok(wanted.map(str::to_owned).to_vec()));
    }

    #[test]
    fn what_is_wrong_is_told_by_its_line() {
        for (line, why) in [
            (
                "x hold 1",
                "the sample is x, and must be a whole number from 0 on",
            ),
            (
                "-1 hold 1",
                "the sample is -1, and must be a whole number from 0 on",
            ),
            (
                "4.8e4 hold 1",
                "the sample is 4.8e4, and must be a whole number from 0 on",
            ),
            (
                "48,000 hold 1",
                "the sample is 48,000, and must be a whole number from 0 on",
            ),
            ("5", "hold or release is missing"),
            (
                "5 freeze 1",
                "freeze stands where hold or release must stand",
            ),
            ("5 1 hold", "1 stands where hold or release must stand"),
            ("5 hold", "the object is missing"),
            ("5 hold 16", "the object is 16, and must be from 0 to 15"),
            ("5 hold -1", "the object is -1, and must be from 0 to 15"),
            ("5 hold all", "the object is all, and must be from 0 to 15"),
            ("5 hold 1 2", "2 stands behind the object"),
        ] {
            let text = format!("0 hold 0\n\n{line}\n");
            assert_eq!(read(&text), Err(format!("c:3: {why}")));
        }
        let none = Cues::read(&b"1 hold 1\n\xff"[..], "c".into()).err();
        let message = none.as_ref().and_then(Trouble::message);
        assert_eq!(message, Some("c:2: not text"));
    }
}
