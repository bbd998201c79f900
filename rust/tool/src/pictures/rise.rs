// SPDX-License-Identifier: Apache-2.0
//! An object that rises to the highest speaker: how loud each speaker is on the way.
use super::heard::Placed;
use super::names::Names;
use crate::layers::Layer;
use crate::setup::Setup;
use crate::svg::{Align, Area, Axis, BLUE, DARK, Frame, GOLD, RED, Scale, Svg, TEAL};
use crate::trouble::Trouble;
use voqlisna::{Panned, Speaker};

const AREA: Area = Area {
    x: 640.0,
    y: 84.0,
    width: 320.0,
    height: 190.0,
};
const STEPS: u8 = 64;
const TICKS: [f64; 5] = [0.0, 0.25, 0.5, 0.75, 1.0];
/// For heights from -1 on.
const TICKS_BELOW: [f64; 5] = [-1.0, -0.5, 0.0, 0.5, 1.0];
const LEVEL: Axis<'_> = Axis {
    scale: Scale::Linear(0.0, 1.2),
    ticks: &TICKS,
    name: "level",
};

/// Curves whose greatest levels are nearer share a name.
const NEAR: f64 = 4.0;

/// Levels at a height.
type Step = (f64, [f32; 12]);

/// To a speaker of the highest layer.
pub fn rise(
    svg: &mut Svg,
    placed: &mut Placed,
    setup: &Setup,
    highest: &Layer,
) -> Result<(), Trouble> {
    let Some(to) = highest.speakers().next() else {
        return Ok(());
    };
    let below = setup.is_below_the_ears();
    let lowest = if below { -1.0 } else { 0.0 };
    let steps = steps(placed, setup.table().place(to), lowest)?;
    let title = format!("Object rising to {to}");
    svg.label((AREA.x, AREA.y - 20.0), Align::Start, &title);
    let height = Axis {
        scale: Scale::Linear(lowest.into(), 1.0),
        ticks: if below { &TICKS_BELOW } else { &TICKS },
        name: "height",
    };
    let frame = Frame::new(svg, AREA, &height, &LEVEL);
    let sounds = |s: &Speaker| steps.iter().any(|(_, levels)| levels[s.channel()] > 0.001);
    let mut names = Names::new(AREA, NEAR);
    let colours = [GOLD, TEAL, BLUE, RED, DARK].into_iter().cycle();
    for (speaker, colour) in Speaker::ALL.into_iter().filter(sounds).zip(colours) {
        let level = |(y, levels): &Step| (*y, f64::from(levels[speaker.channel()]));
        let curve: Vec<(f64, f64)> = steps.iter().map(level).collect();
        frame.curve(svg, &curve, colour, 2.0);
        for (height, level) in &curve {
            names.keep_clear(frame.at(*height, *level), 2.0);
        }
        names.add(loudest(&frame, &curve), colour, speaker);
    }
    names.draw(svg);
    Ok(())
}

/// Below a place, at it and above it.
fn steps(placed: &mut Placed, place: Panned, lowest: f32) -> Result<Vec<Step>, Trouble> {
    let mut steps = Vec::new();
    for k in 0..=STEPS {
        let y = lowest + (1.0 - lowest) * f32::from(k) / f32::from(STEPS);
        steps.push((y.into(), placed.at(Panned { y, ..place }.room())?));
    }
    Ok(steps)
}

/// Where a curve is highest.
fn loudest(frame: &Frame, curve: &[(f64, f64)]) -> (f64, f64) {
    let mut most = (0.0, 0.0);
    for point in curve {
        if point.1 > most.1 {
            most = *point;
        }
    }
    frame.at(most.0, most.1)
}
