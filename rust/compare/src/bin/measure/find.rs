// SPDX-License-Identifier: Apache-2.0
//! How long a search takes: of a mask that no place has, so of the whole grid, and the slowest
//! and the mean of those that some place has, in each layout and over a table of eleven heights.

use crate::times::least;
use compare::entry;
use compare::setup::{BUILT_IN, Setup, table};
use std::hint::black_box;
use std::time::Instant;

const ROUNDS: usize = 7;
/// The bass alone: no place has it.
const NOWHERE: u32 = 8;

/// Each full-range speaker a little above the one before it.
fn eleven_heights() -> Setup {
    let mut places = BUILT_IN;
    for (height, place) in (0u8..).zip(&mut places) {
        place[1] = f32::from(height) / 11.0;
    }
    Setup {
        layout: 0,
        table: table(&places),
    }
}

/// The least of some rounds, in milliseconds, and the answer's kind.
fn millis(block: &[u8], mask: u32) -> (f64, u32) {
    let mut kind = 0;
    let mut round = || {
        let start = Instant::now();
        kind = black_box(entry::find(black_box(block), mask)).kind;
        start.elapsed().as_secs_f64()
    };
    let times: Vec<f64> = (0..ROUNDS).map(|_| round()).collect();
    (least(&times) * 1e3, kind)
}

fn row(name: &str, setup: &Setup) {
    let block = setup.fresh();
    let (whole, kind) = millis(&block, NOWHERE);
    assert_eq!(kind, 2);
    let found = (1..4_096).filter(|&mask| entry::find(&block, mask).kind == 0);
    let times: Vec<f64> = found.map(|mask| millis(&block, mask).0).collect();
    let slowest = times.iter().fold(0f64, |most, &time| most.max(time));
    let mean = times.iter().sum::<f64>() / times.len() as f64;
    println!(
        "| {name} | {whole:.2} | {slowest:.2} | {mean:.2} | {} |",
        times.len()
    );
}

pub fn print() {
    println!("| hall | ms, the whole grid | the slowest found | the mean | sets found |");
    println!("|---|---|---|---|---|");
    for (layout, name) in (0..).zip(["7.1.4", "5.1.4", "7.1.0", "5.1.0"]) {
        row(name, &Setup::built_in(layout));
    }
    row("7.1.4, eleven heights", &eleven_heights());
}
