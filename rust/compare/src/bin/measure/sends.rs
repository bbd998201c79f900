// SPDX-License-Identifier: Apache-2.0
//! What sends to the bass feed cost: the same pushes with every send zero, on all sides, and with
//! none zero, on the library, since no other side has them.

use crate::case::{Case, Inputs};
use crate::sides::{NAMES, Side, assert_equal, assert_sent, sides};
use crate::table::{FULL, digits, digits_of};
use crate::times::{Ratio, least, rounds};

const LENGTHS: [usize; 5] = [1, 64, 256, 480, 1_536];
const SEND: f32 = 0.5;

/// Seconds a push in each round, of each side with sends of zero, then of the library with others.
pub struct Row {
    samples: usize,
    pub times: Vec<Vec<f64>>,
}

/// All of them with nothing found yet.
pub fn rows() -> Vec<Row> {
    let row = |samples| Row {
        samples,
        times: vec![Vec::new(); NAMES.len() + 1],
    };
    LENGTHS.into_iter().map(row).collect()
}

/// The rounds of a row, a line for each of its sides.
fn timed(sides: &mut [Side], samples: usize, seconds: f64) -> Vec<Vec<f64>> {
    let zero = Case { samples, ..FULL };
    let sent = Case { send: SEND, ..zero };
    let inputs: [Inputs; 2] = [zero, sent].map(|case| case.inputs());
    assert_equal(sides, &inputs[0]);
    assert_sent(&inputs[1]);
    let mut times = rounds(NAMES.len() + 1, seconds, |side| match sides.get_mut(side) {
        Some(side) => side.time(&inputs[0], 1, None),
        None => sides[0].time(&inputs[1], 1, None),
    });
    let pushes = zero.pushes() as f64;
    times.iter_mut().flatten().for_each(|time| *time /= pushes);
    times
}

/// Rounds of all rows, printed.
pub fn sweep(seconds: f64) {
    let mut sides = sides();
    for samples in LENGTHS {
        for times in timed(&mut sides, samples, seconds) {
            let line: Vec<String> = times.iter().map(f64::to_string).collect();
            println!("{}", line.join(" "));
        }
    }
}

pub fn print(rows: &[Row]) {
    println!("\n### Sends: 16 objects, 10 beds, moving\n");
    let (zero, sent) = (0, NAMES.len());
    let others = NAMES.iter().skip(1);
    let over: Vec<String> = others.clone().map(|n| format!("0, over the {n}")).collect();
    println!(
        "| samples | {} | {SEND}, over 0 | µs: 0, {SEND} |",
        over.join(" | ")
    );
    println!("|---|{}", "---|".repeat(over.len() + 2));
    for Row { samples, times } in rows {
        let ratio = |a: usize, b: usize| Ratio::new(&times[a], &times[b]).to_string();
        let over: Vec<String> = (1..NAMES.len()).map(|side| ratio(zero, side)).collect();
        let micros = [zero, sent].map(|side| digits(least(&times[side]) * 1e6));
        println!(
            "| {} | {} | {} | {} |",
            digits_of(*samples),
            over.join(" | "),
            ratio(sent, zero),
            micros.join(", ")
        );
    }
}
