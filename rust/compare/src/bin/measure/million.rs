// SPDX-License-Identifier: Apache-2.0
//! A million pushes of one sample (document 02, R-4), on all sides.

use crate::case::{Case, Inputs, PERIOD};
use crate::sides::{NAMES, assert_equal, sides};
use crate::table::{FULL, digits};
use crate::times::{Ratio, least};

const PUSHES: usize = 1_000_000;
/// Runs of each side.
const RUNS: usize = 5;

const CASES: [(&str, Case); 2] = [
    (
        "1 bed",
        Case {
            samples: 1,
            objects: 0,
            beds: 1,
            ..FULL
        },
    ),
    ("10 beds, 16 objects", Case { samples: 1, ..FULL }),
];

/// One push that starts the stream and a million behind it: an update every 1,536 samples, the
/// other frames come round again.
fn inputs(case: Case) -> Inputs {
    let mut inputs = case.inputs();
    let others = inputs.frames.len() - 2;
    let frame = |k: usize| {
        if k.is_multiple_of(PERIOD) {
            1
        } else {
            2 + k % others
        }
    };
    inputs.order = (0..PUSHES).map(frame).collect();
    inputs.order.insert(0, 0);
    inputs
}

pub fn print() {
    println!("\n### A million pushes of one sample, moving\n");
    let others = NAMES
        .iter()
        .skip(1)
        .map(|name| format!(" over the {name} |"));
    println!(
        "| | seconds: {} |{}",
        NAMES.join(", "),
        others.collect::<String>()
    );
    println!("|---|---|{}", "---|".repeat(NAMES.len() - 1));
    for (title, case) in CASES {
        let (mut sides, inputs) = (sides(), inputs(case));
        assert_equal(&mut sides, &inputs);
        let mut times = vec![Vec::new(); sides.len()];
        for run in 0..RUNS {
            for turn in 0..sides.len() {
                let side = (run + turn) % sides.len();
                times[side].push(sides[side].time(&inputs, 1, None).as_secs_f64());
            }
        }
        let seconds: Vec<String> = times.iter().map(|times| digits(least(times))).collect();
        let ratios =
            (1..sides.len()).map(|side| format!(" {} |", Ratio::new(&times[0], &times[side])));
        println!(
            "| {title} | {} |{}",
            seconds.join(", "),
            ratios.collect::<String>()
        );
    }
}
