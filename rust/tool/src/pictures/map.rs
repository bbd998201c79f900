// SPDX-License-Identifier: Apache-2.0
//! A hall: where its speakers hang, and how loud each one is for an object of gain 1.
use super::heard::{Placed, Squares};
use super::hung::{Look, views};
use super::panels::{Levels, STEPS, corners, levels, panels, shade, told};
use super::rise::rise;
use crate::hall::renderer;
use crate::layers::{Layer, layers};
use crate::numbers::grouped;
use crate::setup::Setup;
use crate::svg::{Align, PALE, Svg};
use crate::trouble::Trouble;
use voqlisna::Layout;

pub const LEFT: f64 = 30.0;
/// The mark of a speaker.
pub const SPEAKER: &str = "fill=\"#c0392b\" stroke=\"#fff\" stroke-width=\"1.5\"";
/// What stands beside the views of the hall.
const RIGHT: f64 = 640.0;
/// Where the panels begin, and how far it is from their end to that of the picture.
const PANELS: f64 = 394.0;
const FOOT: f64 = 122.0;

pub fn map(setup: &Setup) -> Result<String, Trouble> {
    let mut placed = Placed::new(renderer(setup)?)?;
    let mut measured: Vec<(Layer, Levels)> = Vec::new();
    for layer in layers(setup) {
        let levels = levels(&mut placed, layer.height)?;
        measured.push((layer, levels));
    }
    let (corners, foot) = corners(&measured, PANELS);
    let mut svg = Svg::new(990.0, foot + FOOT);
    svg.title((LEFT, 30.0), &title(setup));
    views(&mut svg, setup, &Look::PLAIN);
    match measured.as_slice() {
        [(only, levels)] => elsewhere(&mut svg, &mut placed, only.height, levels)?,
        [.., (highest, _)] => rise(&mut svg, &mut placed, setup, highest)?,
        [] => {}
    }
    let what = "For an object at a speaker's height: the level of that speaker, from above, the screen at the top";
    svg.label((LEFT, PANELS - 52.0), Align::Start, what);
    for (layer, corners) in measured.iter().zip(&corners) {
        panels(&mut svg, setup, layer, corners);
    }
    legend(&mut svg, foot + 24.0);
    svg.caption((LEFT, foot + FOOT - 18.0), &caption(setup, &placed));
    Ok(svg.finish())
}

fn title(setup: &Setup) -> String {
    let title = "Which speaker sounds where";
    match (setup.layout, setup.is_own()) {
        (Layout::Hall714, false) => title.to_owned(),
        (layout, false) => format!("{title} in {layout}"),
        (layout, true) => format!("{title} in {layout}, in a hall with its own table"),
    }
}

/// Whether an object at another height than the speakers' is heard otherwise.
fn elsewhere(
    svg: &mut Svg,
    placed: &mut Placed,
    height: f32,
    here: &Levels,
) -> Result<(), Trouble> {
    let other = if height < 1.0 { 1.0 } else { 0.0 };
    let there = levels(placed, other)?;
    let count = here.iter().zip(&there).filter(|(a, b)| a != b).count();
    let all = grouped(here.len() as u64);
    let (other, height) = (told(other), told(height));
    let said = match count {
        0 => [
            format!("Object at height {other}: as at height {height},"),
            format!("at each of {all} places"),
        ],
        _ => [
            format!("Object at height {other}: otherwise than at"),
            format!("height {height}, at {count} of {all} places"),
        ],
    };
    for (line, said) in said.iter().enumerate() {
        svg.label((RIGHT, 64.0 + 19.0 * line as f64), Align::Start, said);
    }
    Ok(())
}

/// "The squares of the eleven levels add up to .."
fn caption(setup: &Setup, placed: &Placed) -> String {
    let Squares {
        places,
        least,
        most,
    } = &placed.squares;
    let places = grouped(*places);
    let count = match setup.layout {
        Layout::Hall714 => "eleven",
        Layout::Hall514 => "nine",
        Layout::Hall710 => "seven",
        Layout::Hall510 => "five",
    };
    format!(
        "Measured at {places} places with an object of gain 1 and size 0. The squares of the {count} levels add up to {least:.7} to {most:.7}."
    )
}

fn legend(svg: &mut Svg, y: f64) {
    let side = 26.0;
    for step in 0..=STEPS {
        let x = LEFT + side * step as f64;
        let fill = if step == 0 {
            "#fff".to_owned()
        } else {
            shade(step)
        };
        let style = format!("fill=\"{fill}\" stroke=\"{PALE}\"");
        svg.path(&format!("M{x:.1} {y}h{side}v14h-{side}z"), &style);
        if step % 5 == 0 {
            let level = format!("{}", step as f64 / STEPS as f64);
            svg.label((x + side / 2.0, y + 30.0), Align::Middle, &level);
        }
    }
    svg.label((LEFT + side * 11.0 + 12.0, y + 12.0), Align::Start, "level");
    svg.dot((LEFT + 380.0, y + 7.0), 5.0, SPEAKER);
    svg.label((LEFT + 392.0, y + 12.0), Align::Start, "the speaker");
}
