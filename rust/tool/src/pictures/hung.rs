// SPDX-License-Identifier: Apache-2.0
//! Where a hall's speakers hang: from above and from the side.
use super::map::{LEFT, SPEAKER};
use super::names::Names;
use crate::grid;
use crate::setup::Setup;
use crate::svg::{Align, Area, Axis, BLUE, DARK, Frame, GREY, Scale, Svg};
use std::collections::BTreeSet;
use voqlisna::{Panned, Speaker};

const ABOVE: Area = Area {
    x: 84.0,
    y: 84.0,
    width: 190.0,
    height: 190.0,
};
/// For heights from -1 to 1; where no speaker is below the ears, its upper half alone.
const SIDE: Area = Area { x: 372.0, ..ABOVE };

/// From the left wall to the right one, and from the rear wall to the screen.
const ACROSS: Scale = Scale::Linear(-1.0, 1.0);
const TO_THE_REAR: Scale = Scale::Linear(1.0, -1.0);
const TICKS: [f64; 3] = [-1.0, 0.0, 1.0];

const RADIUS: f64 = 5.0;
/// The mark of a speaker that does not sound.
const SILENT: &str = "fill=\"#fff\" stroke=\"#767676\" stroke-width=\"1.5\"";
/// Two speakers that are nearer share a name.
const NEAR: f64 = 14.0;

/// What is drawn besides the speakers, and which of these sound.
pub struct Look<'a> {
    pub sounds: &'a dyn Fn(Speaker) -> bool,
    /// Places of the grid.
    pub shaded: &'a [Panned],
    /// One that has a cross.
    pub place: Option<Panned>,
}

impl Look<'_> {
    /// The speakers alone.
    pub const PLAIN: Self = Self {
        sounds: &|_| true,
        shaded: &[],
        place: None,
    };
}

/// Both views, one beside the other.
pub fn views(svg: &mut Svg, setup: &Setup, look: &Look<'_>) {
    above(svg, setup, look);
    side(svg, setup, look);
}

fn above(svg: &mut Svg, setup: &Setup, look: &Look<'_>) {
    title(svg, ABOVE, "From above, the screen at the top");
    let axis = |name| Axis {
        scale: ACROSS,
        ticks: &TICKS,
        name,
    };
    let (x, z) = (axis("x, to the right"), axis("z, to the front"));
    let frame = Frame::new(svg, ABOVE, &x, &z);
    let at = |p: Panned| frame.at(p.x.into(), p.z.into());
    let step = ABOVE.width / (grid::ACROSS - 1) as f64;
    shade(svg, look.shaded.iter().map(|p| at(*p)), (step, step));
    speakers(svg, setup, look, ABOVE, at);
}

fn side(svg: &mut Svg, setup: &Setup, look: &Look<'_>) {
    title(svg, SIDE, "From the side, the screen at the left");
    let below = setup.is_below_the_ears();
    let (lowest, part, ticks) = match below {
        true => (-1.0, 1.0, &TICKS[..]),
        false => (0.0, 0.5, &TICKS[1..]),
    };
    let z = Axis {
        scale: TO_THE_REAR,
        ticks: &TICKS,
        name: "z, to the front",
    };
    let y = Axis {
        scale: Scale::Linear(lowest, 1.0),
        ticks,
        name: "y, up",
    };
    let height = part * SIDE.height;
    let area = Area { height, ..SIDE };
    let frame = Frame::new(svg, area, &z, &y);
    if below {
        frame.level(svg, 0.0, GREY);
    }
    let at = |p: Panned| frame.at(p.z.into(), p.y.into());
    let step = (
        SIDE.width / (grid::ACROSS - 1) as f64,
        SIDE.height / 2.0 / (grid::UP - 1) as f64,
    );
    shade(svg, look.shaded.iter().map(|p| at(*p)), step);
    speakers(svg, setup, look, area, at);
}

/// A cell of these sides about each place; those that lie one behind the other are one.
fn shade(svg: &mut Svg, places: impl Iterator<Item = (f64, f64)>, step: (f64, f64)) {
    let cell = |(x, y): (f64, f64)| ((y / step.1).round() as i64, (x / step.0).round() as i64);
    // Where the grid lies between whole cells.
    let mut places = places.peekable();
    let Some(first) = places.peek().copied() else {
        return;
    };
    let (row, column) = cell(first);
    let corner = (
        first.0 - step.0 * (column as f64 + 0.5),
        first.1 - step.1 * (row as f64 + 0.5),
    );
    let cells: BTreeSet<(i64, i64)> = places.map(cell).collect();
    let cells: Vec<(i64, i64)> = cells.into_iter().collect();
    let mut d = String::new();
    for run in cells.chunk_by(|a, b| a.0 == b.0 && a.1 + 1 == b.1) {
        let (row, column) = run[0];
        let x = corner.0 + step.0 * column as f64;
        let y = corner.1 + step.1 * row as f64;
        let (width, height) = (step.0 * run.len() as f64, step.1);
        d += &format!("M{x:.2} {y:.2}h{width:.2}v{height:.2}h-{width:.2}z");
    }
    svg.path(&d, "fill=\"#a9c4ea\"");
}

fn cross(svg: &mut Svg, (x, y): (f64, f64)) {
    let d = format!("M{:.1} {y:.1}h16M{x:.1} {:.1}v16", x - 8.0, y - 8.0);
    svg.path(&d, "stroke=\"#fff\" stroke-width=\"5\" fill=\"none\"");
    svg.path(
        &d,
        &format!("stroke=\"{BLUE}\" stroke-width=\"2.5\" fill=\"none\""),
    );
}

fn title(svg: &mut Svg, area: Area, text: &str) {
    let x = area.x - ABOVE.x + LEFT;
    svg.label((x, area.y - 20.0), Align::Start, text);
}

/// A dot for each speaker, and its name.
fn speakers(
    svg: &mut Svg,
    setup: &Setup,
    look: &Look<'_>,
    area: Area,
    at: impl Fn(Panned) -> (f64, f64),
) {
    let mut names = Names::new(area, NEAR);
    for (speaker, place) in setup.speakers() {
        names.keep_clear(at(place), RADIUS);
        names.add(at(place), DARK, speaker);
    }
    // Those that sound are over those that do not.
    for (sounding, mark) in [(false, SILENT), (true, SPEAKER)] {
        let speakers = setup.speakers().into_iter();
        for (_, place) in speakers.filter(|(s, _)| (look.sounds)(*s) == sounding) {
            svg.dot(at(place), RADIUS, mark);
        }
    }
    if let Some(place) = look.place {
        names.keep_clear(at(place), 2.0 * RADIUS);
    }
    names.draw(svg);
    if let Some(place) = look.place {
        cross(svg, at(place));
    }
}
