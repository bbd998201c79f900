// SPDX-License-Identifier: Apache-2.0
//! The levels of the demo's twelve channels, from the peaks of its samples, and what its limiter met and did, from the
//! answers.
use crate::arguments::Policy;
use crate::hall::{Hall, Listener, Refused};
use crate::met::Met;
use crate::numbers::level;
use crate::setup::Setup;
use crate::show::Show;
use crate::svg::{Align, Area, Axis, BLUE, Frame, GOLD, GREY, RED, Scale, Svg, dashed};
use crate::trouble::Trouble;
use voqlisna::{Rendered, Speaker};

const SECONDS: f64 = 20.0;
/// Samples of which a peak is shown: 40 ms.
const PART: usize = 1_920;
const LEAST: f64 = -48.0;
const LEFT: f64 = 70.0;
const WIDTH: f64 = 760.0;
const TOP: f64 = 74.0;
/// From a lane to the next, and the lane itself.
const LANE: f64 = 42.0;
const HEIGHT: f64 = 34.0;
const BOTTOM: f64 = TOP + LANE * Speaker::ALL.len() as f64;
/// The limiter's own, below.
const LIMITER: Area = Area {
    x: LEFT,
    y: BOTTOM + 6.0,
    width: WIDTH,
    height: 110.0,
};
const FOOT: f64 = LIMITER.y + LIMITER.height;
const MET: Axis<'_> = Axis {
    scale: Scale::Linear(LEAST, 18.0),
    ticks: &[-36.0, -24.0, -12.0, 0.0, 12.0],
    name: "",
};

pub fn levels() -> Result<String, Trouble> {
    let mut peaks = Peaks::default();
    Hall::new(&Setup::BUILT_IN)?.run(&mut Show::new(SECONDS), Policy::Conceal, &mut peaks)?;
    let mut svg = Svg::new(860.0, FOOT + 97.0);
    svg.title((LEFT, 30.0), "The levels of the demo");
    for s in Speaker::ALL {
        lane(&mut svg, s, &peaks.parts);
    }
    limiter(&mut svg, &peaks.met);
    for second in (0..=20).step_by(2) {
        let place = (x(f64::from(second)), FOOT + 18.0);
        svg.label(place, Align::Middle, &second.to_string());
    }
    svg.label((x(SECONDS / 2.0), FOOT + 38.0), Align::Middle, "time in s");
    mark(
        &mut svg,
        peaks.refused,
        RED,
        Align::End,
        "refused by 8, concealed",
    );
    mark(
        &mut svg,
        peaks.loudest.1,
        GOLD,
        Align::Middle,
        "a stroke above full scale, limited",
    );
    for (line, said) in peaks.told().iter().enumerate() {
        let place = (LEFT, FOOT + 64.0 + 19.0 * line as f64);
        svg.caption(place, &said.replace('-', "\u{2212}"));
    }
    Ok(svg.finish())
}

fn x(seconds: f64) -> f64 {
    LEFT + WIDTH * seconds / SECONDS
}

/// A line over all lanes, with a name on top.
fn mark(svg: &mut Svg, seconds: f64, colour: &str, align: Align, name: &str) {
    let x = x(seconds);
    svg.segment((x, 62.0), (x, FOOT), &dashed(colour));
    svg.coloured((x, 56.0), align, colour, name);
}

fn lane(svg: &mut Svg, s: Speaker, parts: &[[f32; 12]]) {
    let area = Area {
        x: LEFT,
        y: TOP + LANE * s.channel() as f64,
        width: WIDTH,
        height: HEIGHT,
    };
    let axis = |from, to| Axis {
        scale: Scale::Linear(from, to),
        ticks: &[],
        name: "",
    };
    let frame = Frame::new(svg, area, &axis(0.0, SECONDS), &axis(LEAST, 0.0));
    let point = |k: usize, part: &[f32; 12]| {
        let level = level(part[s.channel()].into());
        (middle(k), level.max(LEAST))
    };
    let points: Vec<(f64, f64)> = parts.iter().enumerate().map(|(k, p)| point(k, p)).collect();
    frame.filled(svg, &points, BLUE);
    let place = (LEFT - 10.0, area.y + HEIGHT / 2.0 + 5.0);
    svg.label(place, Align::End, s.short_name());
}

/// The middle of a part, in seconds.
fn middle(part: usize) -> f64 {
    (part as f64 + 0.5) * PART as f64 / 48_000.0
}

fn limiter(svg: &mut Svg, met: &[Met]) {
    let time = Axis {
        scale: Scale::Linear(0.0, SECONDS),
        ticks: &[],
        name: "",
    };
    let frame = Frame::new(svg, LIMITER, &time, &MET);
    let curve = |of: fn(&Met) -> f32| -> Vec<(f64, f64)> {
        let point = |(k, m): (usize, &Met)| (middle(k), level(of(m).into()).max(LEAST));
        met.iter().enumerate().map(point).collect()
    };
    frame.filled(svg, &curve(|m| m.peak), GREY);
    frame.curve(svg, &curve(|m| m.gain), GOLD, 2.5);
    let (left, top) = (LEFT + 10.0, LIMITER.y + 17.0);
    svg.coloured((left, top), Align::Start, GREY, "peak before the limiter");
    svg.coloured((left + 175.0, top), Align::Start, GOLD, "its gain");
}

/// The peak of each channel, and what the limiter met, part after part.
#[derive(Default)]
struct Peaks {
    parts: Vec<[f32; 12]>,
    /// A call counts where its samples begin.
    met: Vec<Met>,
    /// The greatest peak that the limiter met, and when, in seconds.
    loudest: (f32, f64),
    samples: usize,
    /// When the broken packet came, in seconds.
    refused: f64,
}

impl Peaks {
    fn told(&self) -> [String; 2] {
        let most = self
            .parts
            .as_flattened()
            .iter()
            .copied()
            .fold(0f32, f32::max);
        let Met { peak, gain } = self.met.iter().copied().fold(Met::NOTHING, Met::with);
        let [most, peak, gain] = [most, peak, gain].map(|x| level(x.into()));
        let at = self.loudest.1;
        [
            format!(
                "Peaks of {} ms of each output channel, from {LEAST:.0} to 0 dB; the greatest is {most:.2} dB.",
                PART / 48
            ),
            format!(
                "The limiter, as each push answers it: it met {peak:+.2} dB at {at:.2} s, its least gain is {gain:.2} dB."
            ),
        ]
    }
}

impl Listener for Peaks {
    fn sound(&mut self, _: u32, sound: &Rendered<'_>) -> Result<(), Trouble> {
        let channels = Speaker::ALL.map(|s| sound.channel(s));
        let met = Met::of(sound);
        if met.peak > self.loudest.0 {
            self.loudest = (met.peak, self.samples as f64 / 48_000.0);
        }
        match self.met.get_mut(self.samples / PART) {
            Some(part) => *part = part.with(met),
            None => self.met.push(met),
        }
        for i in 0..sound.ready() {
            if self.samples % PART == 0 {
                self.parts.push([0.0; 12]);
            }
            self.samples += 1;
            if let Some(part) = self.parts.last_mut() {
                for (peak, channel) in part.iter_mut().zip(channels) {
                    *peak = peak.max(channel[i].abs());
                }
            }
        }
        Ok(())
    }

    fn refused(&mut self, what: &Refused<'_>) -> Result<(), Trouble> {
        self.refused = what.at;
        Ok(())
    }
}
