//! A renderer on one thread, and one on each of two threads at once.

use crate::case::{Case, Inputs};
use crate::sides::{Library, Side};
use crate::table::{FULL, digits};
use crate::times::{ROUNDS, least, median};
use std::sync::Barrier;
use std::thread;
use std::time::Instant;

const RUNS: usize = 40;

/// Seconds of a push in each run of each thread, of runs that lie within the others' time.
fn at_once(threads: usize, inputs: &Inputs) -> Vec<Vec<f64>> {
    let barrier = Barrier::new(threads);
    let work = || {
        let mut side = Side::Library(Library::new());
        barrier.wait();
        let mut run = || {
            let from = Instant::now();
            let time = side.time(inputs, 1, None);
            (from, Instant::now(), time.as_secs_f64())
        };
        (0..RUNS).map(|_| run()).collect::<Vec<_>>()
    };
    let runs: Vec<_> = thread::scope(|scope| {
        let threads: Vec<_> = (0..threads).map(|_| scope.spawn(work)).collect();
        threads
            .into_iter()
            .map(|thread| thread.join().unwrap())
            .collect()
    });
    let first = runs.iter().map(|runs: &Vec<_>| runs[0].0).max().unwrap();
    let last = runs.iter().map(|runs| runs[RUNS - 1].1).min().unwrap();
    let pushes = (inputs.order.len() - 1) as f64;
    let within = runs.iter().map(|runs| {
        let within = runs.iter().filter(|run| run.0 >= first && run.1 <= last);
        within.map(|run| run.2 / pushes).collect()
    });
    within.collect()
}

pub fn print() {
    let case = Case {
        samples: 480,
        ..FULL
    };
    let inputs = case.inputs();
    let mut times = vec![Vec::new(); 3];
    for _ in 0..ROUNDS {
        let found = [at_once(1, &inputs), at_once(2, &inputs)].concat();
        times
            .iter_mut()
            .zip(found)
            .for_each(|(all, found)| all.extend(found));
    }
    println!(
        "\n### A renderer on each of two threads: µs a push of 480 samples, 16 objects, 10 beds, moving\n"
    );
    println!("| | one thread alone | first of two | second of two |\n|---|---|---|---|");
    for (name, of) in [("least", least as fn(&[f64]) -> f64), ("median", median)] {
        let cells: Vec<String> = times.iter().map(|times| digits(of(times) * 1e6)).collect();
        println!("| {name} | {} |", cells.join(" | "));
    }
}
