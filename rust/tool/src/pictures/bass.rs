// SPDX-License-Identifier: Apache-2.0
//! The bass feed's response: the spectrum of what one sample becomes.
use super::{AREA, CURVES, heard};
use crate::hall::renderer;
use crate::numbers::grouped;
use crate::setup::Setup;
use crate::svg::{Align, Axis, Frame, RED, Scale, Svg};
use crate::trouble::Trouble;
use voqlisna::{Bed, Rate, Speaker};

/// What a bass bed is multiplied by on its way into the low-pass.
pub const FED: f64 = 0.316_227_76;
const LOWEST: f64 = 10.0;
const HIGHEST: f64 = 4_000.0;
const DEEPEST: f64 = -60.0;
const ACROSS: Axis<'_> = Axis {
    scale: Scale::Log(LOWEST, HIGHEST),
    ticks: &[
        10.0, 20.0, 50.0, 120.0, 200.0, 500.0, 1_000.0, 2_000.0, 4_000.0,
    ],
    name: "frequency in Hz",
};
const UP: Axis<'_> = Axis {
    scale: Scale::Linear(DEEPEST, 12.0),
    ticks: &[-60.0, -48.0, -36.0, -24.0, -12.0, -3.0, 0.0, 6.0, 12.0],
    name: "level in dB, 0 is what is fed",
};
pub fn bass() -> Result<String, Trouble> {
    let mut svg = Svg::new(860.0, 500.0);
    svg.title((70.0, 30.0), "The bass feed behind its low-pass");
    let frame = Frame::new(&mut svg, AREA, &ACROSS, &UP);
    let bound = 20.0 * 2f64.log10();
    frame.level(&mut svg, bound, RED);
    let (x, y) = frame.at(LOWEST, bound);
    let proved = "proved: no sample beyond twice the greatest that is fed";
    svg.coloured((x + 8.0, y - 7.0), Align::Start, RED, proved);
    for (k, (hertz, style)) in CURVES.into_iter().enumerate() {
        let response = Response::new(hertz)?;
        frame.styled(&mut svg, &response.curve(), style);
        let y = 306.0 + 20.0 * k as f64;
        svg.segment((92.0, y - 4.5), (124.0, y - 4.5), style);
        svg.backed((134.0, y), &response.told());
    }
    svg.dot(frame.at(120.0, -3.0), 4.0, &format!("fill=\"{RED}\""));
    let said = "Measured: one sample into the bed LFE, and the spectrum of what channel 3 gives, at three rates.";
    svg.caption((70.0, 484.0), said);
    Ok(svg.finish())
}

struct Response {
    hertz: u32,
    heard: Vec<f64>,
}

impl Response {
    fn new(hertz: u32) -> Result<Self, Trouble> {
        // A quarter of a second, in which the low-pass has come to rest.
        let mut fed = vec![0.0; hertz as usize / 4];
        fed[0] = 1.0;
        let rate = Rate::new(hertz).unwrap_or(Rate::HZ_48000);
        let heard = heard::bed(
            renderer(&Setup::BUILT_IN)?,
            rate,
            Bed::Bass,
            Speaker::Bass,
            &fed,
        )?;
        let heard = heard.into_iter().map(f64::from).collect();
        Ok(Self { hertz, heard })
    }

    /// In dB, of a steady tone of this frequency.
    fn level(&self, f: f64) -> f64 {
        let w = std::f64::consts::TAU * f / f64::from(self.hertz);
        let (mut re, mut im) = (0.0, 0.0);
        for (i, x) in self.heard.iter().enumerate() {
            re += x * (w * i as f64).cos();
            im -= x * (w * i as f64).sin();
        }
        20.0 * (f64::hypot(re, im) / FED).log10()
    }

    /// Down to the frame's lower edge.
    fn curve(&self) -> Vec<(f64, f64)> {
        let most = HIGHEST.min(f64::from(self.hertz) * 0.49);
        (0..=160)
            .map(|k| LOWEST * (HIGHEST / LOWEST).powf(f64::from(k) / 160.0))
            .take_while(|f| *f <= most)
            .map(|f| (f, self.level(f)))
            .take_while(|(_, level)| *level > DEEPEST)
            .collect()
    }

    fn told(&self) -> String {
        let at = |f| format!("{:.2}", self.level(f)).replace('-', "\u{2212}");
        let hertz = grouped(self.hertz.into());
        format!(
            "{hertz} Hz: {} dB at 120 Hz, {} dB at 1,000",
            at(120.0),
            at(1_000.0)
        )
    }
}
