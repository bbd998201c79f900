// SPDX-License-Identifier: Apache-2.0
//! The limiter on a burst: levels before and behind it, and its gain.
use super::heard;
use crate::hall::renderer;
use crate::numbers::grouped;
use crate::setup::Setup;
use crate::svg::{Align, Area, Axis, BLUE, Frame, GREY, RED, Scale, Svg};
use crate::trouble::Trouble;
use voqlisna::{Bed, Rate, Speaker};

/// A block of the limiter, which is a turn of the tone: 750 Hz at 48,000.
const BLOCK: usize = 64;
/// Blocks of the tone at 0.5, of the burst at 4, and of the tone again.
const BEFORE: usize = 150;
const BURST: usize = 75;
const AFTER: usize = 825;
const QUIET: f32 = 0.5;
const LOUD: f32 = 4.0;

const SECONDS: f64 = 1.4;
const TICKS: &[f64] = &[0.0, 0.2, 0.4, 0.6, 0.8, 1.0, 1.2, 1.4];
const LEVELS: Axis<'_> = Axis {
    scale: Scale::Linear(-30.0, 18.0),
    ticks: &[-30.0, -24.0, -18.0, -12.0, -6.0, 0.0, 6.0, 12.0],
    name: "peak of a block in dB",
};
const GAIN: Axis<'_> = Axis {
    scale: Scale::Linear(0.0, 1.05),
    ticks: &[0.0, 0.2, 0.4, 0.6, 0.8, 1.0],
    name: "gain (output / input)",
};

/// A block's peak before and behind the limiter.
struct Heard {
    fed: f64,
    given: f64,
}

impl Heard {
    fn gain(&self) -> f64 {
        self.given / self.fed
    }
}

pub fn limiter() -> Result<String, Trouble> {
    let blocks = heard()?;
    let behind = &blocks[BEFORE + BURST..];
    let full = behind
        .iter()
        .position(|b| b.fed == b.given)
        .unwrap_or(AFTER);
    let mut svg = Svg::new(860.0, 674.0);
    svg.title((70.0, 30.0), "The limiter on a burst");
    levels(&mut svg, &blocks);
    gain(&mut svg, &blocks, full);
    let least = blocks.iter().map(Heard::gain).fold(1.0, f64::min);
    let samples = grouped((full * BLOCK) as u64);
    let burst = seconds(BURST);
    svg.caption(
        (70.0, 638.0),
        &format!("Measured: 750 Hz at 0.5 on one channel, at 4 for {burst:.1} s. The least gain is {least:.3}; from the burst's end"),
    );
    svg.caption(
        (70.0, 657.0),
        &format!("the gain grows with every block of 64 samples, and after {samples} samples the output is the input again."),
    );
    Ok(svg.finish())
}

fn seconds(blocks: usize) -> f64 {
    (blocks * BLOCK) as f64 / 48_000.0
}

fn time(name: &str) -> Axis<'_> {
    Axis {
        scale: Scale::Linear(0.0, SECONDS),
        ticks: TICKS,
        name,
    }
}

fn area(y: f64, height: f64) -> Area {
    let (x, width) = (70.0, 760.0);
    Area {
        x,
        y,
        width,
        height,
    }
}

fn levels(svg: &mut Svg, blocks: &[Heard]) {
    let frame = Frame::new(svg, area(48.0, 250.0), &time(""), &LEVELS);
    frame.level(svg, 0.0, RED);
    let curve = |of: fn(&Heard) -> f64| steps(blocks.iter().map(|b| 20.0 * of(b).log10()));
    frame.curve(svg, &curve(|b| b.fed), GREY, 1.5);
    frame.curve(svg, &curve(|b| b.given), BLUE, 2.0);
    let (x, y) = frame.at(SECONDS, 0.0);
    svg.coloured((x - 8.0, y - 7.0), Align::End, RED, "full scale");
    svg.label(frame.at(0.32, 11.0), Align::Start, "input");
    svg.coloured(frame.at(0.32, -14.0), Align::Start, BLUE, "output");
}

/// `full`: blocks from the burst's end to full level.
fn gain(svg: &mut Svg, blocks: &[Heard], full: usize) {
    let frame = Frame::new(svg, area(350.0, 220.0), &time("time in s"), &GAIN);
    frame.curve(svg, &steps(blocks.iter().map(Heard::gain)), BLUE, 2.0);
    let (from, to) = (seconds(BEFORE + BURST), seconds(BEFORE + BURST + full));
    frame.moment(svg, from, RED);
    frame.moment(svg, to, RED);
    let (left, right) = (frame.at(from, 0.14), frame.at(to, 0.14));
    svg.segment(
        left,
        right,
        &format!("stroke=\"{RED}\" stroke-width=\"1.5\""),
    );
    let said = format!(
        "{} samples, {:.3} s",
        grouped((full * BLOCK) as u64),
        seconds(full)
    );
    let middle = ((left.0 + right.0) / 2.0, left.1 - 8.0);
    svg.coloured(middle, Align::Middle, RED, &said);
}

/// A value for each block, as steps over time.
fn steps(values: impl Iterator<Item = f64>) -> Vec<(f64, f64)> {
    let mut points: Vec<(f64, f64)> = Vec::new();
    for (k, v) in values.enumerate() {
        if points.last().is_some_and(|p| p.1 == v) {
            points.pop();
        } else {
            points.push((seconds(k), v));
        }
        points.push((seconds(k + 1), v));
    }
    points
}

/// The tone through the library.
fn heard() -> Result<Vec<Heard>, Trouble> {
    let turn = |i: usize| (std::f32::consts::TAU * i as f32 / BLOCK as f32).sin();
    let burst = BLOCK * BEFORE..BLOCK * (BEFORE + BURST);
    let level = |i: usize| if burst.contains(&i) { LOUD } else { QUIET };
    let all = 0..BLOCK * (BEFORE + BURST + AFTER);
    let fed: Vec<f32> = all.map(|i| level(i) * turn(i % BLOCK)).collect();
    let given = heard::bed(
        renderer(&Setup::BUILT_IN)?,
        Rate::HZ_48000,
        Bed::Center,
        Speaker::Center,
        &fed,
    )?;
    let peak = |block: &[f32]| f64::from(block.iter().fold(0f32, |p, x| p.max(x.abs())));
    let pairs = fed.chunks_exact(BLOCK).zip(given.chunks_exact(BLOCK));
    let pairs = pairs.map(|(f, g)| (peak(f), peak(g)));
    Ok(pairs.map(|(fed, given)| Heard { fed, given }).collect())
}
