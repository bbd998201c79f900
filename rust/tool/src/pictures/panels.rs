// SPDX-License-Identifier: Apache-2.0
//! How loud each speaker is for an object at its height, over all places from wall to wall.
use super::heard::Placed;
use super::map::{LEFT, SPEAKER};
use crate::layers::Layer;
use crate::setup::Setup;
use crate::svg::{Align, Area, GREY, Svg};
use crate::text::float;
use crate::trouble::Trouble;
use std::fmt::Write;
use voqlisna::{Panned, Speaker};

/// Places along each side of a layer, and half of them.
const SIDE: usize = 65;
const HALF: f32 = 32.0;
/// Steps in which a level is drawn, from 1 to full.
pub const STEPS: usize = 10;
/// A panel, and how far it is from the next one in its row, and from that below it.
const PANEL: f64 = 122.0;
const NEXT: f64 = 134.0;
const BELOW: f64 = 176.0;
/// Panels in a row.
const ROW: usize = 7;

/// The levels at each place of a layer, row by row from the screen.
pub type Levels = Vec<[f32; 12]>;

pub fn levels(placed: &mut Placed, height: f32) -> Result<Levels, Trouble> {
    let mut levels = Vec::with_capacity(SIDE * SIDE);
    for k in 0..SIDE * SIDE {
        let (i, j) = ((k % SIDE) as f32, (k / SIDE) as f32);
        let place = Panned {
            x: i / HALF - 1.0,
            y: height,
            z: 1.0 - j / HALF,
        };
        levels.push(placed.at(place.room())?);
    }
    Ok(levels)
}

/// The corners of a layer's panels.
type Corners = Vec<(f64, f64)>;

/// Those of all layers, from `top` on, and where the last panels end. A layer of several panels is not parted where a
/// row has room for it.
pub fn corners(layers: &[(Layer, Levels)], top: f64) -> (Vec<Corners>, f64) {
    let (mut row, mut column) = (0, 0);
    let mut all = Vec::new();
    for (layer, _) in layers {
        let count = layer.speakers().count();
        if column > 0 && column + count > ROW {
            (row, column) = (row + 1, 0);
        }
        let corner = |k: usize| {
            let (right, down) = ((column + k) % ROW, row + (column + k) / ROW);
            (LEFT + NEXT * right as f64, top + BELOW * down as f64)
        };
        all.push((0..count).map(corner).collect());
        (row, column) = (row + (column + count) / ROW, (column + count) % ROW);
    }
    let rows = if column == 0 { row } else { row + 1 };
    (all, top + BELOW * rows as f64 - BELOW + PANEL)
}

/// A layer: a panel for each of its speakers.
pub fn panels(svg: &mut Svg, setup: &Setup, (layer, levels): &(Layer, Levels), corners: &Corners) {
    if let Some((x, y)) = corners.first() {
        let height = format!("Height {}", told(layer.height));
        svg.label((*x, y - 26.0), Align::Start, &height);
    }
    for (speaker, corner) in layer.speakers().zip(corners) {
        panel(svg, *corner, speaker, levels);
        dots(svg, *corner, speaker, layer, setup);
    }
}

/// A height as a table has it.
pub fn told(height: f32) -> String {
    float(height).replace('-', "\u{2212}")
}

fn panel(svg: &mut Svg, corner: (f64, f64), speaker: Speaker, levels: &Levels) {
    let (x, y) = corner;
    svg.label((x, y - 6.0), Align::Start, speaker.short_name());
    let step = |level: &[f32; 12]| (level[speaker.channel()] * STEPS as f32).round() as usize;
    let steps: Vec<usize> = levels.iter().map(step).collect();
    for wanted in 1..=STEPS {
        let d = runs(&steps, wanted);
        if !d.is_empty() {
            svg.cells(corner, PANEL / SIDE as f64, &d, &shade(wanted));
        }
    }
    let (width, height) = (PANEL, PANEL);
    svg.outline(Area {
        x,
        y,
        width,
        height,
    });
}

/// The panel's speaker and the others of its layer.
fn dots(svg: &mut Svg, corner: (f64, f64), speaker: Speaker, layer: &Layer, setup: &Setup) {
    let half = PANEL / 2.0;
    for (other, place) in setup.speakers() {
        let x = corner.0 + half * (1.0 + f64::from(place.x));
        let y = corner.1 + half * (1.0 - f64::from(place.z));
        if other == speaker {
            svg.dot((x, y), 5.0, SPEAKER);
        } else if layer.speakers().any(|s| s == other) {
            svg.dot((x, y), 3.0, &format!("fill=\"#fff\" stroke=\"{GREY}\""));
        }
    }
}

/// The places of one step, as a path of runs in each row.
fn runs(steps: &[usize], wanted: usize) -> String {
    let mut d = String::new();
    for (row, steps) in steps.chunks_exact(SIDE).enumerate() {
        let mut i = 0;
        for run in steps.chunk_by(|a, b| a == b) {
            let n = run.len();
            if run[0] == wanted {
                let _ = write!(d, "M{i} {row}h{n}v1h-{n}z");
            }
            i += n;
        }
    }
    d
}

/// From nearly white to dark blue.
pub fn shade(step: usize) -> String {
    let part = step as f64 / STEPS as f64;
    let mix = |from: f64, to: f64| (from + (to - from) * part).round() as u8;
    format!(
        "#{:02x}{:02x}{:02x}",
        mix(247.0, 16.0),
        mix(250.0, 52.0),
        mix(255.0, 120.0)
    )
}
