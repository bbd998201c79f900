// SPDX-License-Identifier: Apache-2.0
//! Each command, in a module of its own.
mod archive;
mod check;
mod demo;
mod floats;
mod hex;
mod meters;
mod place;
mod record;
mod render;
mod table;
mod told;

use crate::arguments::{Command, Picture};
use crate::files::{self, Out};
use crate::numbers::grouped;
use crate::trouble::Trouble;
use crate::{pictures, text};
use std::ffi::OsString;
use voqlisna::{Layout, Renderer, sys};

pub fn run(command: Command) -> Result<(), Trouble> {
    match command {
        Command::Help => say(include_str!("../help.txt")),
        Command::Version => say(&version()),
        Command::Demo(demo) => demo::demo(&demo),
        Command::Render(render) => render::render(&render),
        Command::Check { from } => check::check(&from),
        Command::Dump { from } => dump(&from),
        Command::Undump { from, to } => undump(&from, &to),
        Command::Hex { from } => hex::hex(&from),
        Command::Archive { from, to } => archive::archive(&from, &to),
        Command::Unarchive { from, to, rf64 } => archive::unarchive(&from, &to, rf64),
        Command::Floats { from, to, rf64 } => floats::convert(&from, &to, rf64),
        Command::Draw { what, to } => {
            let picture = match what {
                Picture::Map(hall) => pictures::map(&table::setup(&hall, &[&to])?)?,
                Picture::Bass => pictures::bass()?,
                Picture::Decay => pictures::decay()?,
                Picture::Limiter => pictures::limiter()?,
                Picture::Levels => pictures::levels()?,
                Picture::Hold => pictures::hold()?,
            };
            files::write(&to, &picture)
        }
        Command::Table(hall) => say(&table::told(&hall)?),
        Command::Where(given) => place::place(&given),
        Command::Places(hall) => say(&place::places(&hall)?),
    }
}

/// Versions and sizes as the linked library tells them.
fn version() -> String {
    format!(
        "voqlisna {}, library {}, state block {} bytes, layouts {}\n",
        env!("CARGO_PKG_VERSION"),
        sys::hall_version(),
        grouped(<Renderer>::block_size() as u64),
        Layout::ALL.map(Layout::name).join(" ")
    )
}

fn say(text: &str) -> Result<(), Trouble> {
    let mut out = Out::standard();
    out.put(text.as_bytes())?;
    out.close()
}

fn dump(from: &OsString) -> Result<(), Trouble> {
    let (input, _) = files::open(from)?;
    let mut out = Out::standard();
    text::dump(input, &files::name_in(from), &mut out)?;
    out.close()
}

fn undump(from: &OsString, to: &OsString) -> Result<(), Trouble> {
    files::apart(from, to)?;
    let (input, _) = files::open(from)?;
    let mut out = Out::create(to)?;
    text::undump(input, &files::name_in(from), &mut out)?;
    out.close()
}
