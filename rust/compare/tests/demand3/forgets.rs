//! How soon the bass feed forgets, from the loudest start: at five rates and for some numbers of
//! halvings k, after how many quiet samples the low-pass's outputs stay at most 2 X, beside the number
//! that `lowpass-forgets` promises. Y is the largest that the loudest frame feeds, X is Y / 2^k.

use compare::calls::Call;
use compare::entry;
use compare::host::fresh;
use compare::{floats, loudest_frame};

const RATES: [u32; 5] = [8_000, 44_100, 48_000, 96_000, 192_000];
const HALVINGS: [u32; 4] = [1, 4, 8, 16];
const TABLE: &str = include_str!("../../../../docs/COMPARED.md");

/// The samples of the present, as parts of X: each as a function of the time in samples.
const PRESENT: [fn(u32, u32) -> f32; 4] = [
    |_, _| 0.0,
    |_, _| 1.0,
    |_, _| -1.0,
    // at 120 Hz, where the response bends
    |rate, i| {
        if (i * 240 / rate).is_multiple_of(2) {
            1.0
        } else {
            -1.0
        }
    },
];

/// Samples from k halvings' start on until the past has left, as promised.
fn promised(rate: u32, k: u32) -> u32 {
    k * (rate / 64 + 1) + 2
}

/// A renderer that is fed one sample a call on every channel.
struct Fed {
    rate: u32,
    state: Vec<u8>,
    out: Vec<u8>,
}

impl Fed {
    /// The sample that entered the low-pass, and what it gave: x1 and y1 of the block.
    fn sample(&mut self, x: f32) -> (f32, f32) {
        let mut frame = loudest_frame(self.rate, &[x]);
        let is_new = self.state[..4] == [0; 4];
        frame.updates.truncate(is_new.into());
        let answer = entry::push(&mut self.state, &Call::from(&frame), &mut self.out, 64);
        assert_eq!(answer.kind, 0);
        let filter = floats(&self.state[28..64]);
        (filter[5], filter[7])
    }

    /// The loudest start: as far down as it goes, and up again to where the response swings farthest.
    /// Gives the largest that was fed.
    fn loudest(rate: u32) -> (Self, f32) {
        let mut fed = Self {
            rate,
            state: fresh(0),
            out: vec![0; 12 * 64 * 4],
        };
        let down = std::iter::repeat_n(-16.0, rate as usize / 20);
        let up = std::iter::repeat_n(16.0, rate as usize / 170);
        let (mut most, mut last) = (0f32, 0.0);
        for x in down.chain(up) {
            let (enters, gives) = fed.sample(x);
            most = most.max(enters.abs());
            last = gives;
        }
        assert!(
            most.round() == 2_777.0 && last > 1.08 * most,
            "{last} of {most}"
        );
        (fed, most)
    }
}

/// Quiet samples until all outputs are at most 2 X, at worst.
fn measured(rate: u32, k: u32) -> u32 {
    let quiet = 16.0 / 2f32.powi(k as i32);
    let leaves = |present: fn(u32, u32) -> f32| {
        let (mut fed, most) = Fed::loudest(rate);
        let x = most / 2f32.powi(k as i32);
        let mut left = 0;
        for i in 0..promised(rate, k) + rate / 100 {
            let (enters, gives) = fed.sample(quiet * present(rate, i));
            assert!(enters.abs() <= x, "{enters} of {x}");
            if gives.abs() > 2.0 * x {
                left = i + 1;
            }
        }
        left
    };
    PRESENT.into_iter().map(leaves).max().unwrap()
}

#[test]
fn a_loud_past_leaves_in_time() {
    for rate in RATES {
        let cell = |k: u32| {
            let (measured, promised) = (measured(rate, k), promised(rate, k));
            assert!(measured > 0, "the past is loud: {rate}, {k}");
            assert!(
                measured <= promised,
                "{rate}, {k}: {measured} of {promised}"
            );
            format!("{} of {}", grouped(measured), grouped(promised))
        };
        let row = format!("| {} | {} |", grouped(rate), HALVINGS.map(cell).join(" | "));
        println!("{row}");
        assert!(TABLE.contains(&row), "docs/COMPARED.md: {row}");
    }
}

/// 1536 as 1,536.
fn grouped(n: u32) -> String {
    match n / 1_000 {
        0 => n.to_string(),
        thousands => format!("{},{:03}", grouped(thousands), n % 1_000),
    }
}
