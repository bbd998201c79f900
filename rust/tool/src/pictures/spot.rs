// SPDX-License-Identifier: Apache-2.0
//! Where in a hall just some of its speakers sound.
use super::hung::{Look, views};
use super::map::LEFT;
use crate::grid::names;
use crate::numbers::grouped;
use crate::setup::Setup;
use crate::svg::{Align, RED, Svg};
use crate::text::float;
use voqlisna::{Panned, Speaker};

/// Below the views, and from a line to the next.
const BELOW: f64 = 344.0;
const LINE: f64 = 19.0;
/// Levels in a line.
const LEVELS: usize = 6;

/// `heard`: the speakers that sound at each place of the grid.
pub fn spot(
    setup: &Setup,
    speakers: &[Speaker],
    place: Panned,
    levels: &[f32; 12],
    heard: &[(Panned, u16)],
) -> String {
    let wanted = crate::grid::mask(speakers.iter().copied());
    let alone = heard.iter().filter(|(_, mask)| *mask == wanted);
    let alone: Vec<Panned> = alone.map(|(place, _)| *place).collect();
    let level = |s: &Speaker| format!("{s} {:.3}", levels[s.channel()]);
    let levels: Vec<String> = speakers.iter().map(level).collect();
    let lines = levels.len().div_ceil(LEVELS) as f64;
    let mut svg = Svg::new(640.0, BELOW + LINE * lines + 41.0);
    svg.title((LEFT, 30.0), &title(setup, speakers));
    let look = Look {
        sounds: &|s| speakers.contains(&s),
        shaded: &alone,
        place: Some(place),
    };
    views(&mut svg, setup, &look);
    for (k, line) in levels.chunks(LEVELS).enumerate() {
        let said = if k == 0 { "At the cross: " } else { "" };
        let said = format!("{said}{}", line.join(", "));
        svg.coloured((LEFT, BELOW + LINE * k as f64), Align::Start, RED, &said);
    }
    let caption = caption(place, alone.len(), heard.len());
    for (k, line) in caption.iter().enumerate() {
        svg.caption((LEFT, BELOW + 4.0 + LINE * (lines + k as f64)), line);
    }
    svg.finish()
}

fn title(setup: &Setup, speakers: &[Speaker]) -> String {
    let s = if speakers.len() == 1 { "s" } else { "" };
    format!(
        "Where {} sound{s} alone in {}",
        names(speakers),
        setup.layout
    )
}

fn caption(place: Panned, alone: usize, all: usize) -> [String; 2] {
    let Panned { x, y, z } = place;
    let [x, y, z] = [x, y, z].map(|x| float(x).replace('-', "\u{2212}"));
    let (alone, all) = (grouped(alone as u64), grouped(all as u64));
    [
        format!(
            "Shaded: {alone} of {all} places of the grid, at which an object of gain 1 and size 0"
        ),
        format!("was heard from just these. The cross: the first of them, x {x}, y {y}, z {z}."),
    ]
}
