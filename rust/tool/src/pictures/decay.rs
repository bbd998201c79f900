// SPDX-License-Identifier: Apache-2.0
//! How soon the bass feed forgets: its low-pass behind the loudest frame that passes, beside the proved bound.
use super::bass::FED;
use super::{AREA, CURVES, heard};
use crate::hall::renderer;
use crate::numbers::{grouped, level};
use crate::setup::Setup;
use crate::svg::{Align, Axis, Frame, GREY, RED, Scale, Svg};
use crate::trouble::Trouble;
use voqlisna::Rate;

/// The largest sample, and what it feeds on 16 objects sent and 18 beds at gain 8.
const LOUD: f32 = 16.0;
const LOUDEST: f64 = 16.0 * 8.0 * (16.0 + 18.0 * FED);
/// Samples of the loud frame, and halvings from it to what follows.
const FRAME: usize = 1_536;
const HALVINGS: usize = 8;
/// The picture's time, in ms before and behind the frame's end, and of one peak.
const BEFORE: f64 = -5.0;
const BEHIND: f64 = 150.0;
const PART: f64 = 0.25;
const ACROSS: Axis<'_> = Axis {
    scale: Scale::Linear(BEFORE, BEHIND),
    ticks: &[0.0, 16.0, 32.0, 48.0, 64.0, 80.0, 96.0, 112.0, 128.0, 144.0],
    name: "time since the loud frame in ms",
};
const UP: Axis<'_> = Axis {
    scale: Scale::Linear(-60.0, 12.0),
    ticks: &[-60.0, -48.0, -36.0, -24.0, -12.0, 0.0, 12.0],
    name: "level in dB, 0 is the loudest that is fed",
};

pub fn decay() -> Result<String, Trouble> {
    let mut svg = Svg::new(860.0, 519.0);
    svg.title((70.0, 30.0), "How soon the bass feed forgets");
    let frame = Frame::new(&mut svg, AREA, &ACROSS, &UP);
    frame.curve(&mut svg, &proved(48_000), RED, 2.0);
    let said = "proved: each halving of the level takes at most rate / 64 + 1 samples, 16 ms";
    svg.coloured(frame.at(35.0, 2.0), Align::Start, RED, said);
    frame.moment(&mut svg, 0.0, GREY);
    let quiet = level(0.5f64.powi(HALVINGS as i32));
    let (x, y) = frame.at(BEHIND, quiet);
    svg.coloured((x - 8.0, y + 17.0), Align::End, GREY, "what is fed now");
    svg.backed(
        (208.0, 272.0),
        "until it stays at most twice what is fed now:",
    );
    for (k, (hertz, style)) in CURVES.into_iter().enumerate() {
        let decay = Decay::new(hertz)?;
        frame.styled(&mut svg, &decay.curve(), style);
        let y = 294.0 + 20.0 * k as f64;
        svg.segment((208.0, y - 4.5), (240.0, y - 4.5), style);
        svg.backed((250.0, y), &decay.told());
    }
    let captions = [
        "Measured: the loudest frame that passes refusal 8, and then 1/256 of it, at three rates. Channel 3 over the",
        "limiter's gain, the peak of each 0.25 ms.",
    ];
    for (line, said) in captions.into_iter().enumerate() {
        svg.caption((70.0, 484.0 + 19.0 * line as f64), said);
    }
    Ok(svg.finish())
}

/// As many samples as k halvings take.
fn halvings(hertz: u32, k: usize) -> usize {
    k * (hertz as usize / 64 + 1) + 2
}

fn ms(samples: usize, hertz: u32) -> f64 {
    samples as f64 * 1_000.0 / f64::from(hertz)
}

/// The sample at a time since the loud frame's end.
fn at(ms: f64, hertz: u32) -> usize {
    (FRAME as f64 + ms / 1_000.0 * f64::from(hertz)).round() as usize
}

/// Twice the greatest that was fed, and from the time of k halvings on twice its 2^k-th part.
fn proved(hertz: u32) -> Vec<(f64, f64)> {
    let bound = |k: usize| level(2.0 * 0.5f64.powi(k as i32));
    let mut ends: Vec<f64> = (1..=HALVINGS)
        .map(|k| ms(halvings(hertz, k), hertz))
        .collect();
    ends.push(BEHIND);
    let starts = std::iter::once(BEFORE).chain(ends.iter().copied());
    let steps = starts.zip(&ends).enumerate();
    steps
        .flat_map(|(k, (from, to))| [(from, bound(k)), (*to, bound(k))])
        .collect()
}

/// The low-pass's output, over the greatest that was fed.
struct Decay {
    hertz: u32,
    heard: Vec<f64>,
}

impl Decay {
    fn new(hertz: u32) -> Result<Self, Trouble> {
        let mut fed = vec![LOUD; FRAME];
        let quiet = LOUD / 2f32.powi(HALVINGS as i32);
        fed.resize(at(BEHIND, hertz).next_multiple_of(64), quiet);
        let rate = Rate::new(hertz).unwrap_or(Rate::HZ_48000);
        let heard = heard::low_pass(renderer(&Setup::BUILT_IN)?, rate, &fed)?;
        let heard = heard.into_iter().map(|y| y.abs() / LOUDEST).collect();
        Ok(Self { hertz, heard })
    }

    /// The peak of each part.
    fn curve(&self) -> Vec<(f64, f64)> {
        let part = |k: i32| {
            let start = |k: i32| at(f64::from(k) * PART, self.hertz);
            let part = self.heard[start(k)..start(k + 1)].iter().copied();
            let peak = part.fold(0.0, f64::max);
            ((f64::from(k) + 0.5) * PART, level(peak).max(-60.0))
        };
        let (from, to) = ((BEFORE / PART) as i32, (BEHIND / PART) as i32);
        (from..to).map(part).collect()
    }

    /// Quiet samples until the output stays at most twice what is fed now.
    fn left(&self) -> usize {
        let bound = 2.0 * 0.5f64.powi(HALVINGS as i32);
        let behind = self.heard[FRAME..].iter();
        behind
            .rev()
            .position(|y| *y > bound)
            .map_or(0, |k| self.heard.len() - FRAME - k)
    }

    fn told(&self) -> String {
        let (left, promised) = (self.left(), halvings(self.hertz, HALVINGS));
        format!(
            "{} Hz: measured {:.1} ms, proved {:.1} ms",
            grouped(self.hertz.into()),
            ms(left, self.hertz),
            ms(promised, self.hertz)
        )
    }
}
