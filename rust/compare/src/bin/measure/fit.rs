//! How a push's time grows: a line through the measured cases, fitted so that the squares of the
//! relative errors are least.

use crate::case::{Case, Inputs};
use crate::sides::NAMES;
use crate::table::Row;
use crate::times::{least, median};
use oracle::frame::Update;

const TERMS: [&str; 7] = [
    "push",
    "record",
    "part",
    "part and object",
    "sample",
    "sample and object",
    "sample and bed",
];

type Terms = [f64; TERMS.len()];

/// How often each term is in a push of the case. A part is what lies between two borders of pushes,
/// slots and limiter blocks.
fn terms(case: &Case) -> Terms {
    let inputs = case.inputs();
    let pushes = case.pushes() as f64;
    let parts = parts(&inputs) as f64 / pushes;
    let timed = inputs.order[1..].iter();
    let bytes: usize = timed.map(|&frame| inputs.calls[frame].meta.len()).sum();
    let [samples, objects, beds] = [case.samples, case.objects, case.beds].map(|n| n as f64);
    [
        1.0,
        bytes as f64 / 40.0 / pushes,
        parts,
        parts * objects,
        samples,
        samples * objects,
        samples * beds,
    ]
}

/// Parts of the timed pushes.
fn parts(inputs: &Inputs) -> usize {
    let (mut at, mut slot, mut parts) = (0, 0, 0);
    for (k, &frame) in inputs.order.iter().enumerate() {
        let frame = &inputs.frames[frame];
        for i in 0..frame.samples {
            let starts = |update: &Update| usize::from(update.offset) == i;
            if frame.updates.iter().any(starts) {
                slot = at;
            }
            let begins = i == 0 || at % 64 == 0 || (at - slot) % 64 == 0;
            parts += usize::from(begins && k > 0);
            at += 1;
        }
    }
    parts
}

/// The solution of `a x = b`, by Gauss.
fn solved<const N: usize>(mut a: [[f64; N]; N], mut b: [f64; N]) -> [f64; N] {
    for k in 0..N {
        let pivot = (k..N)
            .max_by(|&i, &j| a[i][k].abs().total_cmp(&a[j][k].abs()))
            .unwrap();
        a.swap(k, pivot);
        b.swap(k, pivot);
        for i in 0..N {
            let factor = a[i][k] / a[k][k];
            if i != k {
                (0..N).for_each(|j| a[i][j] -= factor * a[k][j]);
                b[i] -= factor * b[k];
            }
        }
    }
    std::array::from_fn(|k| b[k] / a[k][k])
}

/// What each term costs, in nanoseconds.
fn costs(found: &[(Terms, f64)]) -> Terms {
    let (mut a, mut b) = ([[0.0; TERMS.len()]; TERMS.len()], [0.0; TERMS.len()]);
    for (terms, time) in found {
        for i in 0..TERMS.len() {
            b[i] += terms[i] / time;
            (0..TERMS.len()).for_each(|j| a[i][j] += terms[i] * terms[j] / (time * time));
        }
    }
    solved(a, b)
}

/// Of the libraries.
pub fn print(rows: &[Row]) {
    println!("\n### Growth: nanoseconds for each\n");
    let titles = TERMS.join(" | ");
    println!("| side | {titles} | half of the cases within | all within |");
    println!("|---|{}", "---|".repeat(TERMS.len() + 2));
    for (side, name) in NAMES.iter().enumerate().take(NAMES.len() - 1) {
        let warm = rows.iter().filter(|row| !row.case.cold);
        let found: Vec<_> = warm
            .map(|row| (terms(&row.case), least(&row.times[side]) * 1e9))
            .collect();
        let costs = costs(&found);
        let off = |(terms, time): &(Terms, f64)| {
            let line: f64 = terms.iter().zip(costs).map(|(n, cost)| n * cost).sum();
            100.0 * (line / time - 1.0).abs()
        };
        let errors: Vec<f64> = found.iter().map(off).collect();
        let most = errors.iter().copied().fold(0.0, f64::max);
        let cells = costs.map(|cost| format!("{cost:.2}")).join(" | ");
        println!(
            "| {name} | {cells} | {:.0} % | {most:.0} % |",
            median(&errors)
        );
    }
}
