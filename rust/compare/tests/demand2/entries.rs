//! The exported entries `push`, `flush`, `reset` and the two that make against the model, as `scale`
//! runs them, in each layout and over tables of its own (document 02, R-6): answers, ready samples bit
//! for bit, every byte of the state block and the output that a call must leave alone, and the renderer
//! that the block holds.

use compare::scale::{self, Reached, What};
use compare::seeds;
use compare::seeds::Seeds;
use std::thread;

const RUNS: u64 = 60_000;
/// From a renderer of each smaller layout (document 02, R-5).
const SMALLER_RUNS: u64 = 10_000;

fn reached(seeds: Seeds, layout: u32) -> Reached {
    let mut reached = Reached::default();
    seeds.for_each(|seed| scale::run(seed, layout, &mut reached));
    reached
}

/// The runs of that layout, on two threads.
fn run(seeds: Seeds, layout: u32) -> Reached {
    let [even, odd] = seeds.halves();
    let mut all = Reached::default();
    thread::scope(|scope| {
        let other = scope.spawn(|| reached(odd, layout));
        all.join(&reached(even, layout));
        all.join(&other.join().unwrap());
    });
    println!("from layout {layout}\n{all}");
    let never = [What::Refusal(7), What::Bed(6)];
    assert_eq!(never.map(|what| all.times(what)), [0, 0]);
    all
}

/// No run differs, and everything that can arise does.
#[test]
#[cfg_attr(no_sources, ignore = "Rust sources not at hand")]
fn entries_answer_as_the_model() {
    let all = run(seeds!(0..RUNS), 0);
    if seeds::all() {
        assert_eq!(all.missing(0), []);
        assert!(all.rates() > 30_000, "{} rates", all.rates());
        // Where nothing is lifted, nothing sent and no table is its own, the unchanged Rust is beside.
        assert!(3 * all.times(What::Unchanged) > all.times(What::Frame));
        let others: u64 = (1..4).map(|layout| all.times(What::Layout(layout))).sum();
        assert!(all.times(What::Layout(0)) > 10 * others);
    }
}

/// The same from the smaller layouts.
#[test]
#[cfg_attr(no_sources, ignore = "Rust sources not at hand")]
fn entries_answer_as_the_model_in_smaller_layouts() {
    for layout in 1..4 {
        let all = run(seeds!(0..SMALLER_RUNS), layout);
        if seeds::all() {
            assert_eq!(all.missing(layout), []);
            assert!(2 * all.times(What::Layout(layout)) > all.times(What::Frame));
        }
    }
}
