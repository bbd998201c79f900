// SPDX-License-Identifier: Apache-2.0
//! `--meters`: what the limiter met, call after call; bars for the terminal, columns for a file, a line for the end.
use crate::files::Out;
use crate::met::Met;
use crate::numbers::level;
use crate::trouble::Trouble;
use std::ffi::OsString;
use voqlisna::Rendered;

const COLUMNS: &str = "time_s\tpeak\tgain\tpeak_db\treduction_db";

/// A cell of a bar is 3 dB. Cells of a peak below and above full level, and of a reduction.
const CELL: f64 = 3.0;
const BELOW: usize = 16;
const ABOVE: usize = 4;
const DOWN: usize = 8;

pub struct Meters {
    columns: Option<Out>,
    all: Met,
    /// When the greatest peak was, in seconds of the output.
    at: f64,
    /// Seconds of calls whose gain was below 1.
    down: f64,
    /// Since the bars were last shown.
    since: Met,
}

impl Meters {
    /// Columns go to the file, where one is named.
    pub fn new(file: Option<&OsString>) -> Result<Self, Trouble> {
        let mut columns = file.map(Out::create).transpose()?;
        if let Some(out) = &mut columns {
            out.line(COLUMNS)?;
        }
        Ok(Self {
            columns,
            all: Met::NOTHING,
            at: 0.0,
            down: 0.0,
            since: Met::NOTHING,
        })
    }

    /// What a call gave, `at` so many seconds of the output. A call that gave no sample met nothing.
    pub fn add(&mut self, at: f64, rate: u32, sound: &Rendered<'_>) -> Result<(), Trouble> {
        if sound.ready() == 0 {
            return Ok(());
        }
        let met = Met::of(sound);
        if met.peak > self.all.peak {
            self.at = at;
        }
        if met.gain < 1.0 {
            self.down += sound.ready() as f64 / f64::from(rate);
        }
        self.all = self.all.with(met);
        self.since = self.since.with(met);
        match &mut self.columns {
            Some(out) => out.line(&row(at, met)),
            None => Ok(()),
        }
    }

    /// The bars since they were last asked for: "peak [==============  |    ] -6.0 dB, down [        ] 0.0 dB"
    pub fn bars(&mut self) -> String {
        let met = std::mem::replace(&mut self.since, Met::NOTHING);
        bars(met)
    }

    /// "before the limiter: peak +9.3 dB at 15.003 s; turned down by up to 10.2 dB, for 0.704 s in all"
    pub fn summary(&self) -> String {
        let mut text = match self.all.peak {
            0.0 => "before the limiter: silent".to_owned(),
            peak => format!(
                "before the limiter: peak {:+.1} dB at {:.3} s",
                level(peak.into()),
                self.at
            ),
        };
        text += &match self.down {
            0.0 => "; never turned down".to_owned(),
            seconds => format!(
                "; turned down by up to {:.1} dB, for {seconds:.3} s in all",
                self.all.reduction()
            ),
        };
        text
    }

    pub fn close(self) -> Result<(), Trouble> {
        self.columns.map_or(Ok(()), Out::close)
    }
}

/// Peak and gain as numbers that read back as they are, then in dB.
fn row(at: f64, met: Met) -> String {
    let Met { peak, gain } = met;
    format!(
        "{at:.6}\t{peak:?}\t{gain:?}\t{:.2}\t{:.2}",
        level(peak.into()),
        met.reduction()
    )
}

fn bars(met: Met) -> String {
    let peak = level(met.peak.into());
    let cells = |db: f64, most: usize| ((db / CELL).ceil().max(0.0) as usize).min(most);
    let bar = |filled: usize, of: usize| "=".repeat(filled) + &" ".repeat(of - filled);
    let below = cells(peak + BELOW as f64 * CELL, BELOW);
    format!(
        "peak [{}|{}] {peak:+.1} dB, down [{}] {:.1} dB",
        bar(below, BELOW),
        bar(cells(peak, ABOVE), ABOVE),
        bar(cells(met.reduction(), DOWN), DOWN),
        met.reduction()
    )
}

#[cfg(test)]
mod tests {
    use super::*;

    #[test]
    fn bars_of_three_decibels() {
        for (peak, gain, wanted) in [
            (
                0.0,
                1.0,
                "peak [                |    ] -inf dB, down [        ] 0.0 dB",
            ),
            (
                1e-3,
                1.0,
                "peak [                |    ] -60.0 dB, down [        ] 0.0 dB",
            ),
            (
                0.5,
                1.0,
                "peak [==============  |    ] -6.0 dB, down [        ] 0.0 dB",
            ),
            (
                1.0,
                0.9,
                "peak [================|    ] +0.0 dB, down [=       ] 0.9 dB",
            ),
            (
                2.5,
                0.36,
                "peak [================|=== ] +8.0 dB, down [===     ] 8.9 dB",
            ),
            (
                40.0,
                0.0225,
                "peak [================|====] +32.0 dB, down [========] 33.0 dB",
            ),
        ] {
            let shown = bars(Met { peak, gain });
            assert_eq!(shown, wanted);
            assert!("100:00.0, 100 %, ".len() + shown.len() < 80);
        }
    }

    #[test]
    fn columns_read_back() {
        for (peak, gain, wanted) in [
            (0.0, 1.0, "0.500000\t0.0\t1.0\t-inf\t0.00"),
            (4.0, 0.225, "0.500000\t4.0\t0.225\t12.04\t12.96"),
            (1e-30, 0.1, "0.500000\t1e-30\t0.1\t-600.00\t20.00"),
        ] {
            let text = row(0.5, Met { peak, gain });
            assert_eq!(text, wanted);
            let read = |k: usize| text.split('\t').nth(k).unwrap().parse::<f32>().unwrap();
            assert_eq!((read(1), read(2)), (peak, gain));
        }
    }
}
