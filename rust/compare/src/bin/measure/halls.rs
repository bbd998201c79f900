// SPDX-License-Identifier: Apache-2.0
//! What a hall table of its own costs: the same pushes in 7.1.4 with the built-in table and with
//! three heights, and in 5.1.0 with the built-in one, on the library.

use crate::case::{Case, Inputs};
use crate::sides::{Library, Side, assert_amended};
use crate::table::{FULL, digits, digits_of};
use crate::times::{Ratio, least, rounds};
use compare::setup::{BUILT_IN, Setup, table};

const LENGTHS: [usize; 5] = [1, 64, 256, 480, 1_536];
const HALLS: [&str; 3] = ["7.1.4", "7.1.4 with a table", "5.1.0"];

fn halls() -> [Setup; 3] {
    let mut places = BUILT_IN;
    places[6][1] = 0.5;
    places[7][1] = 0.5;
    let three = Setup {
        layout: 0,
        table: table(&places),
    };
    [Setup::built_in(0), three, Setup::built_in(3)]
}

/// Seconds a push in each round, of each hall.
pub struct Row {
    samples: usize,
    pub times: Vec<Vec<f64>>,
}

/// All of them with nothing found yet.
pub fn rows() -> Vec<Row> {
    let row = |samples| Row {
        samples,
        times: vec![Vec::new(); HALLS.len()],
    };
    LENGTHS.into_iter().map(row).collect()
}

/// The rounds of a row, a line for each hall.
fn timed(samples: usize, seconds: f64) -> Vec<Vec<f64>> {
    let case = Case { samples, ..FULL };
    let inputs: Inputs = case.inputs();
    let halls = halls();
    halls.iter().for_each(|hall| assert_amended(&inputs, hall));
    let mut sides = halls.map(|hall| Side::Library(Library::in_hall(&hall)));
    let mut times = rounds(sides.len(), seconds, |side| {
        sides[side].time(&inputs, 1, None)
    });
    let pushes = case.pushes() as f64;
    times.iter_mut().flatten().for_each(|time| *time /= pushes);
    times
}

/// Rounds of all rows, printed.
pub fn sweep(seconds: f64) {
    for samples in LENGTHS {
        for times in timed(samples, seconds) {
            let line: Vec<String> = times.iter().map(f64::to_string).collect();
            println!("{}", line.join(" "));
        }
    }
}

pub fn print(rows: &[Row]) {
    println!("\n### Halls: 16 objects, 10 beds, moving\n");
    let over: Vec<String> = HALLS[1..]
        .iter()
        .map(|hall| format!("{hall}, over {}", HALLS[0]))
        .collect();
    println!(
        "| samples | {} | µs: {} |",
        over.join(" | "),
        HALLS.join(", ")
    );
    println!("|---|{}", "---|".repeat(HALLS.len()));
    for Row { samples, times } in rows {
        let ratio = |hall: &Vec<f64>| Ratio::new(hall, &times[0]).to_string();
        let over: Vec<String> = times[1..].iter().map(ratio).collect();
        let micros: Vec<String> = times
            .iter()
            .map(|times| digits(least(times) * 1e6))
            .collect();
        println!(
            "| {} | {} | {} |",
            digits_of(*samples),
            over.join(" | "),
            micros.join(", ")
        );
    }
}
