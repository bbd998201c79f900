// SPDX-License-Identifier: Apache-2.0
//! Tones from sums, products, quotients and square roots alone, so that every machine makes the same bits.

pub const RATE: f64 = 48_000.0;

/// The sine of an angle in turns.
pub fn sine(turns: f64) -> f64 {
    // Between two quarters of a turn the sine goes up, from -1 to 1; the other half mirrors it.
    let t = turns - turns.floor();
    let t = if t < 0.25 {
        t
    } else if t < 0.75 {
        0.5 - t
    } else {
        t - 1.0
    };
    let x = t * std::f64::consts::TAU;
    let square = x * x;
    let mut term = x;
    let mut sum = x;
    for k in 1..10 {
        term = -term * square / f64::from(2 * k * (2 * k + 1));
        sum += term;
    }
    sum
}

pub fn cosine(turns: f64) -> f64 {
    sine(turns + 0.25)
}

/// From 0 to 1 between 0 and 1, without a corner at either end.
pub fn smooth(x: f64) -> f64 {
    let x = x.clamp(0.0, 1.0);
    x * x * (3.0 - 2.0 * x)
}

/// The frequency of a key; 69 is the A of 440 Hz.
pub fn hertz(key: u8) -> f64 {
    const SEMITONE: f64 = 1.059_463_094_359_295_3;
    let mut f = 440.0;
    for _ in 69..key {
        f *= SEMITONE;
    }
    for _ in key..69 {
        f /= SEMITONE;
    }
    f
}

/// A turning pointer that may grow shorter.
#[derive(Clone, Copy, Default)]
pub struct Phasor {
    at: (f64, f64),
    by: (f64, f64),
}

impl Phasor {
    /// `left`: the part of its length that is left after a second.
    pub fn new(hertz: f64, level: f64, left: f64) -> Self {
        let (turns, keep) = (hertz / RATE, per_sample(left));
        Self {
            at: (level, 0.0),
            by: (keep * cosine(turns), keep * sine(turns)),
        }
    }

    pub fn next(&mut self) -> f64 {
        let ((x, y), (c, s)) = (self.at, self.by);
        self.at = (x * c - y * s, x * s + y * c);
        y
    }
}

/// The factor that, sample after sample, leaves `left` after a second: its root of order 48,000.
fn per_sample(left: f64) -> f64 {
    if left >= 1.0 {
        return 1.0;
    }
    // 48,000 = 2^7 x 375: seven square roots; the logarithm's series gives the 375th root as e^-x, and x is small.
    let mut root = left;
    for _ in 0..7 {
        root = root.sqrt();
    }
    let d = 1.0 - root;
    let (mut power, mut log) = (d, 0.0);
    for k in 1..40 {
        log += power / f64::from(k);
        power *= d;
    }
    let x = log / 375.0;
    1.0 - x + x * x / 2.0 - x * x * x / 6.0
}

/// Noise from -1 to 1, and chance, from a seed.
pub struct Noise(pub u64);

impl Noise {
    pub fn next(&mut self) -> f64 {
        self.0 ^= self.0 << 13;
        self.0 ^= self.0 >> 7;
        self.0 ^= self.0 << 17;
        (self.0 >> 11) as f64 / (1u64 << 52) as f64 - 1.0
    }
}

#[cfg(test)]
mod tests {
    use super::*;

    #[test]
    fn tones_are_what_they_are_called() {
        for k in -40..=40 {
            let turns = f64::from(k) / 16.0;
            assert!((sine(turns) - (turns * std::f64::consts::TAU).sin()).abs() < 1e-12);
        }
        assert!((hertz(57) - 220.0).abs() < 1e-9 && (hertz(81) - 880.0).abs() < 1e-9);
        for left in [0.9, 0.5, 0.01] {
            assert!((per_sample(left).powi(48_000) - left).abs() < 1e-9);
        }
        let mut phasor = Phasor::new(440.0, 1.0, 1.0);
        for i in 0..48_000 {
            let turns = 440.0 * f64::from(i) / RATE;
            assert!((phasor.next() - sine(turns)).abs() < 1e-9);
        }
    }
}
