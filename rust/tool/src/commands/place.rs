// SPDX-License-Identifier: Apache-2.0
//! `where`: the places at which just some of the speakers sound.
use super::table;
use crate::arguments::{self, Where};
use crate::files;
use crate::grid::{self, names};
use crate::hall::renderer;
use crate::numbers::grouped;
use crate::pictures::{self, Placed};
use crate::setup::Setup;
use crate::text::float;
use crate::trouble::Trouble;
use std::collections::BTreeMap;
use std::io::{self, Write};
use voqlisna::{Panned, Room, Speaker};

/// Prints the place for these speakers, on standard error where its picture goes to standard output.
pub fn place(given: &Where) -> Result<(), Trouble> {
    let written: Vec<_> = given.picture.iter().collect();
    let setup = table::setup(&given.hall, &written)?;
    let renderer = renderer(&setup)?;
    let mask = grid::mask(given.speakers.iter().copied());
    let speakers = grid::speakers(mask);
    let place = renderer
        .find(&speakers)
        .ok_or_else(|| none(&setup, &speakers))?;
    let mut placed = Placed::new(renderer)?;
    let levels = placed.at(place.room())?;
    let text = told(&setup, &speakers, place, &levels);
    let Some(to) = &given.picture else {
        return super::say(&text);
    };
    let heard = grid::heard(&mut placed)?;
    let picture = pictures::spot(&setup, &speakers, place, &levels, &heard);
    files::write(to, &picture)?;
    if to == "-" {
        let _ = write!(io::stderr(), "{text}");
        return Ok(());
    }
    super::say(&text)
}

/// "FL FC in 7.1.4", and a line each for the place as it is panned, as a record has it, and for the levels there.
fn told(setup: &Setup, speakers: &[Speaker], place: Panned, levels: &[f32; 12]) -> String {
    let Panned { x, y, z } = place;
    let room = place.room();
    let [x, y, z] = [x, y, z].map(float);
    let level = |s: &Speaker| format!("{s} {:.3}", levels[s.channel()]);
    let levels: Vec<String> = speakers.iter().map(level).collect();
    format!(
        "{} in {}\n  as panned    x {x}  y {y}  z {z}\n  in a record  at {}\n  levels       {}\n",
        names(speakers),
        setup.layout,
        record(room),
        levels.join("  ")
    )
}

/// As `dump` writes it.
fn record(room: Room) -> String {
    [room.x, room.y, room.z].map(float).join(" ")
}

/// Why there is none.
fn none(setup: &Setup, speakers: &[Speaker]) -> Trouble {
    let layout = setup.layout;
    let absent = speakers.iter().find(|s| !layout.has(**s));
    let why = match absent {
        _ if speakers.contains(&Speaker::Bass) => "nothing is panned to LFE".to_owned(),
        Some(absent) => format!("{layout} has no {absent}"),
        None => format!("no place of the grid sounds from just these in {layout}"),
    };
    Trouble::Refused(Some(format!("{}: {why}", names(speakers))))
}

/// Each set of speakers that sounds alone somewhere on the grid: the place that is found for it, and at how many places
/// it is heard.
pub fn places(hall: &arguments::Hall) -> Result<String, Trouble> {
    let setup = table::setup(hall, &[])?;
    let mut placed = Placed::new(renderer(&setup)?)?;
    let mut counts: BTreeMap<(u32, u16), u64> = BTreeMap::new();
    for (_, mask) in grid::heard(&mut placed)? {
        *counts.entry((mask.count_ones(), mask)).or_default() += 1;
    }
    let renderer = renderer(&setup)?;
    let mut text = head(&setup, counts.len());
    for ((_, mask), count) in counts {
        let speakers = grid::speakers(mask);
        let place = renderer.find(&speakers);
        let place = place.ok_or_else(|| none(&setup, &speakers))?;
        text += &row(&speakers, place, count);
    }
    Ok(text)
}

fn head(setup: &Setup, sets: usize) -> String {
    let (layout, all) = (
        setup.layout,
        grouped((grid::UP * grid::ACROSS * grid::ACROSS) as u64),
    );
    format!(
        "# {layout}: {sets} sets of loudspeakers sound alone somewhere, of {all} places, for an object of gain 1 and size 0.\n\
         # Behind a set: the first place, as it is panned and in a record, and at how many it sounds.\n\
         # {:<26}{:>9}{:>8}{:>9}   {:<24}{:>7}\n",
        "loudspeakers", "x", "y", "z", "in a record: at", "places"
    )
}

fn row(speakers: &[Speaker], place: Panned, count: u64) -> String {
    let Panned { x, y, z } = place;
    let [x, y, z] = [x, y, z].map(float);
    let (names, record, count) = (names(speakers), record(place.room()), grouped(count));
    format!("{names:<28}{x:>9}{y:>8}{z:>9}   {record:<24}{count:>7}\n")
}
