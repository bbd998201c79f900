//! Times that are taken in turn, and what is said of them.

use std::fmt;
use std::time::{Duration, Instant};

/// At least.
pub const ROUNDS: usize = 15;

/// Seconds of each side in each round: all sides one after another, each round from the next one
/// on, at least `ROUNDS` and as many as begin within `seconds`.
pub fn rounds(
    sides: usize,
    seconds: f64,
    mut time: impl FnMut(usize) -> Duration,
) -> Vec<Vec<f64>> {
    let (mut times, start) = (vec![Vec::new(); sides], Instant::now());
    let mut round = 0;
    while round < ROUNDS || start.elapsed().as_secs_f64() < seconds {
        for turn in 0..sides {
            let side = (round + turn) % sides;
            times[side].push(time(side).as_secs_f64());
        }
        round += 1;
    }
    times
}

pub fn least(times: &[f64]) -> f64 {
    times.iter().copied().fold(f64::INFINITY, f64::min)
}

pub fn median(times: &[f64]) -> f64 {
    let mut times = times.to_vec();
    times.sort_by(f64::total_cmp);
    times.get(times.len() / 2).copied().unwrap_or(f64::NAN)
}

/// The least time over another's, and the quartiles of the rounds' own ratios.
pub struct Ratio {
    least: f64,
    quartiles: [f64; 2],
}

impl Ratio {
    pub fn new(a: &[f64], b: &[f64]) -> Self {
        let mut ratios: Vec<f64> = a.iter().zip(b).map(|(a, b)| a / b).collect();
        ratios.sort_by(f64::total_cmp);
        Ratio {
            least: least(a) / least(b),
            quartiles: [1, 3].map(|part| ratios[ratios.len() * part / 4]),
        }
    }

    /// As it is printed.
    pub fn is_above(&self, bound: f64) -> bool {
        self.least >= bound + 0.005
    }
}

impl fmt::Display for Ratio {
    fn fmt(&self, f: &mut fmt::Formatter) -> fmt::Result {
        let [from, to] = self.quartiles;
        write!(f, "{:.2} ({from:.2}–{to:.2})", self.least)
    }
}
