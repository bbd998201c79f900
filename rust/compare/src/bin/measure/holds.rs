// SPDX-License-Identifier: Apache-2.0
//! What a hold and a release cost, of 16 objects that move, and those that change nothing.

use crate::case::Case;
use crate::table::FULL;
use crate::times::{least, rounds};
use compare::entry;
use compare::host::Host;
use std::hint::black_box;
use std::time::Instant;

const SECONDS: f64 = 0.5;
/// Calls of a round.
const CALLS: u32 = 1_600;
const OBJECTS: u32 = 16;

/// A renderer after the pushes of the full case.
fn moving() -> Host {
    let case = Case {
        samples: 64,
        ..FULL
    };
    let (inputs, mut host) = (case.inputs(), Host::new(1_536));
    for &frame in &inputs.order {
        let answer = entry::push(&mut host.state, &inputs.calls[frame], &mut host.out, 1_536);
        assert_eq!(answer.kind, 0);
    }
    host
}

/// Each object in turn: held and released, held though it is, refused.
fn round(state: &mut [u8], kind: usize) {
    for k in 0..CALLS {
        let object = k / 2 % OBJECTS;
        let (object, wanted) = match kind {
            0 => (object, k % 2 == 0),
            1 => (object, false),
            _ => (OBJECTS + object, true),
        };
        let answer = entry::mark(black_box(state), object, wanted);
        assert_eq!(answer.kind, if kind == 2 { 1 } else { 3 });
    }
}

pub fn print() {
    let mut hosts = [0; 3].map(|_| moving());
    let times = rounds(hosts.len(), SECONDS, |kind| {
        let start = Instant::now();
        round(&mut hosts[kind].state, kind);
        start.elapsed()
    });
    let names = [
        "a hold or a release",
        "one that is known",
        "one that is refused",
    ];
    println!("| call | µs |\n|---|---|");
    for (name, times) in names.iter().zip(&times) {
        let micros = least(times) * 1e6 / f64::from(CALLS);
        println!("| {name} | {micros:.2} |");
    }
}
