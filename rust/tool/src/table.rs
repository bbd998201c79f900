// SPDX-License-Identifier: Apache-2.0
//! A hall table as text, and back: a line for each of the twelve channels, in any order.
//!
//! ```text
//! # channel            x            y            z
//! FL         -0.70710677            0            1
//! ```
use crate::files;
use crate::layers::layers;
use crate::setup::Setup;
use crate::text::{float, lines};
use crate::trouble::Trouble;
use std::ffi::OsStr;
use std::io::Read;
use std::str::SplitWhitespace;
use voqlisna::{HallTable, Panned, Speaker, TableError};

/// What is said before the places.
const HEAD: &str = "\
# Where the loudspeakers hang. x: -1 at the left wall, 1 at the right one; y: 0 at the ears, 1 at the ceiling;
# z: 1 at the screen, -1 at the rear wall. The place of LFE is not used.
# channel            x            y            z
";

/// The table in a file.
pub fn open(path: &OsStr) -> Result<HallTable, Trouble> {
    let (input, _) = files::open(path)?;
    read(input, &files::name_in(path))
}

fn read(from: impl Read, name: &str) -> Result<HallTable, Trouble> {
    let mut places = [None; 12];
    for line in lines(from, name) {
        let (number, line) = line?;
        let at = |why: String| Trouble::Wrong(format!("{name}:{number}: {why}"));
        let (speaker, place) = read_line(&line).map_err(at)?;
        let slot = &mut places[speaker.channel()];
        if let Some((before, _)) = slot {
            return Err(at(format!("{speaker} has its place in line {before}")));
        }
        *slot = Some((number, place));
    }
    let missing = Speaker::ALL
        .into_iter()
        .filter(|s| places[s.channel()].is_none());
    let missing: Vec<&str> = missing.map(Speaker::short_name).collect();
    if !missing.is_empty() {
        let missing = missing.join(", ");
        return Err(Trouble::Wrong(format!("{name}: no place for {missing}")));
    }
    let places = places.map(Option::unwrap_or_default);
    HallTable::new(places.map(|(_, place)| place)).map_err(|e| {
        let line = |s: Speaker| places[s.channel()].0;
        Trouble::Wrong(format!("{name}:{}", told(e, line)))
    })
}

/// What is wrong with a table whose places stand in these lines.
fn told(error: TableError, line: impl Fn(Speaker) -> usize) -> String {
    match error {
        TableError::Coordinate { speaker, .. } => format!("{}: {error}", line(speaker)),
        TableError::SamePlace { first, second } => {
            let (a, b) = (line(first), line(second));
            format!("{}: {error} (lines {a} and {b})", a.max(b))
        }
        _ => error.to_string(),
    }
}

fn read_line(line: &str) -> Result<(Speaker, Panned), String> {
    let mut words = line.split_whitespace();
    let name = words.next().unwrap_or_default();
    let speaker = Speaker::from_short_name(name).ok_or_else(|| {
        let all = Speaker::ALL.map(Speaker::short_name).join(" ");
        format!("no channel is called {name}: they are {all}")
    })?;
    let mut next = |axis: &str| coordinate(&mut words, axis, speaker);
    let place = Panned {
        x: next("x")?,
        y: next("y")?,
        z: next("z")?,
    };
    match words.next() {
        None => Ok((speaker, place)),
        Some(more) => Err(format!("{more} stands behind the place of {speaker}")),
    }
}

fn coordinate(
    words: &mut SplitWhitespace<'_>,
    axis: &str,
    speaker: Speaker,
) -> Result<f32, String> {
    let word = words.next();
    let word = word.ok_or_else(|| format!("{axis} of {speaker} is missing"))?;
    word.parse().map_err(|_| {
        let comma = if word.contains(',') {
            " (a comma is not taken)"
        } else {
            ""
        };
        format!("{axis} of {speaker} is {word}, and must be a number{comma}")
    })
}

/// The hall's table as `read` takes it; behind it the layers of the speakers that the hall has.
pub fn text(setup: &Setup) -> String {
    let table = setup.table();
    let mut text = HEAD.to_owned();
    for speaker in Speaker::ALL {
        let Panned { x, y, z } = table.place(speaker);
        let [x, y, z] = [x, y, z].map(float);
        text += &format!("{speaker:<7} {x:>14} {y:>12} {z:>12}\n");
    }
    text + &told_layers(setup)
}

/// "#   y 0: FL FC FR | SL SR | BL BR"
fn told_layers(setup: &Setup) -> String {
    let mut text = format!(
        "# Objects are panned over these layers of {}, and in each over its rows:\n",
        setup.layout
    );
    for layer in layers(setup) {
        text += &format!("#   {layer}\n");
    }
    text
}

#[cfg(test)]
mod tests {
    use super::*;
    use voqlisna::Layout;

    fn said(text: &str) -> Result<HallTable, String> {
        let table = read(text.as_bytes(), "t");
        table.map_err(|e| e.message().unwrap_or_default().to_owned())
    }

    /// The built-in table's text with a line in place of its line for a channel.
    fn with(channel: &str, line: &str) -> String {
        let all = text(&Setup::BUILT_IN);
        let lines = all
            .lines()
            .map(|l| match l.starts_with(&format!("{channel} ")) {
                true => line,
                false => l,
            });
        lines.fold(String::new(), |all, l| all + l + "\n")
    }

    #[test]
    fn what_is_written_is_read_bit_for_bit() {
        assert_eq!(said(&text(&Setup::BUILT_IN)), Ok(HallTable::BUILT_IN));
        let mut bits = 1u32;
        for _ in 0..2_000 {
            let places = [(); 12].map(|()| {
                let [x, y, z] = [(); 3].map(|()| {
                    bits = bits.wrapping_mul(1_664_525).wrapping_add(1_013_904_223);
                    // Of any size up to 1, subnormal ones too.
                    f32::from_bits((bits % 0x3f80_0001) | (bits & 0x8000_0000))
                });
                Panned { x, y, z }
            });
            let table = HallTable::new(places).unwrap();
            let layout = Layout::ALL[bits as usize % 4];
            let setup = Setup {
                layout,
                table: Some(table),
            };
            let back = said(&text(&setup)).unwrap();
            assert_eq!(back.to_bytes(), table.to_bytes());
        }
    }

    #[test]
    fn order_letters_and_comments_are_free() {
        let lines = text(&Setup::BUILT_IN);
        let turned: Vec<&str> = lines.lines().rev().collect();
        let small = turned.join(" # a comment\r\n\r\n").to_lowercase();
        assert_eq!(said(&small), Ok(HallTable::BUILT_IN));
        let table = said(&with("TFL", "tfl -1.0 +9e-1 .5#")).unwrap();
        let Panned { x, y, z } = table.place(Speaker::TopFrontLeft);
        assert_eq!((x, y, z), (-1.0, 0.9, 0.5));
        assert!(said(&with("FL", "FL -0 -0 -0")).is_ok());
    }

    /// Lines in place of a channel's, and what is said of the table.
    const WRONG: [(&str, &str, &str); 19] = [
        (
            "FR",
            "RF 0 0 1",
            "t:5: no channel is called RF: they are FL FR FC LFE BL BR SL SR TFL TFR TBL TBR",
        ),
        ("FR", "FR", "t:5: x of FR is missing"),
        ("FR", "FR 0.5 0", "t:5: z of FR is missing"),
        ("FR", "FR 0.5 0 1 2", "t:5: 2 stands behind the place of FR"),
        (
            "FR",
            "FR left 0 1",
            "t:5: x of FR is left, and must be a number",
        ),
        (
            "FR",
            "FR 0,5 0 1",
            "t:5: x of FR is 0,5, and must be a number (a comma is not taken)",
        ),
        (
            "FR",
            "FR 0.5, 0, 1",
            "t:5: x of FR is 0.5,, and must be a number (a comma is not taken)",
        ),
        ("TBL", "FR 0 0.5 1", "t:14: FR has its place in line 5"),
        ("TBL", "", "t: no place for TBL"),
        ("FL", "# FL 0 0 0", "t: no place for FL"),
        (
            "FR",
            "FR 1.0000001 0 1",
            "t:5: x of FR is 1.0000001, and must be from -1 to 1",
        ),
        (
            "SL",
            "SL -1 -1.5 0",
            "t:10: y of SL is -1.5, and must be from -1 to 1",
        ),
        (
            "SL",
            "SL -1 0 inf",
            "t:10: z of SL is inf, and must be from -1 to 1",
        ),
        (
            "SL",
            "SL -1 0 nan",
            "t:10: z of SL is NaN, and must be from -1 to 1",
        ),
        (
            "LFE",
            "LFE 0 0 1e9",
            "t:7: z of LFE is 1000000000, and must be from -1 to 1",
        ),
        (
            "TBR",
            "TBR 1 0 -0.48368952",
            "t:15: SR and TBR are at the same place (lines 11 and 15)",
        ),
        (
            "FL",
            "FL 0 -0 1",
            "t:6: FL and FC are at the same place (lines 4 and 6)",
        ),
        (
            "FL",
            "FL 0 1e-50 1",
            "t:6: FL and FC are at the same place (lines 4 and 6)",
        ),
        (
            "FL",
            "FL 2 2 2",
            "t:4: x of FL is 2, and must be from -1 to 1",
        ),
    ];

    #[test]
    fn what_is_wrong_is_told_by_line_and_channel() {
        for (channel, line, message) in WRONG {
            assert_eq!(said(&with(channel, line)), Err(message.to_owned()));
        }
        let all = "FL, FR, FC, LFE, BL, BR, SL, SR, TFL, TFR, TBL, TBR";
        assert_eq!(said(""), Err(format!("t: no place for {all}")));
        let none = read(&[b'\n', 0xff][..], "t").err();
        let message = none.as_ref().and_then(Trouble::message);
        assert_eq!(message, Some("t:2: not text"));
    }

    /// A coordinate is told before two speakers at one place, as 17 before 18; the place of LFE is another matter.
    #[test]
    fn coordinates_first() {
        let both = with("FL", "FL 0 0 1").replace("TBR         0.70710677", "TBR         1.5");
        let message = "t:15: x of TBR is 1.5, and must be from -1 to 1";
        assert_eq!(said(&both), Err(message.to_owned()));
        assert!(said(&with("LFE", "LFE -1 0 -0.48368952")).is_ok());
    }
}
