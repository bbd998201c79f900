//! Lifted bed channels (document 02, R-1) at the entries: from a lift to the next reset they are
//! held against the Rust with R-1's rule, elsewhere against the unchanged one.

use compare::calls::{Call, Calls, Step};
use compare::host::Host;
use compare::model::{Judged, Model, Outcome, lifts};
use compare::{all_same, ranges, seeds};
use oracle::frame::Frame;
use oracle::state::Metadata;
use oracle::{Oracle, Pushed};

const RUNS: u64 = 4_000;
const CALLS: usize = 16;
const STRIDE: usize = 256;

/// What the runs come to.
#[derive(Debug, Default)]
struct Tally {
    /// Runs that lift a channel.
    runs: u64,
    /// Of these, runs in which the unchanged Rust panics or answers otherwise.
    unlike: u64,
    /// Accepted pushes that lift a channel: with more and with fewer dynamic objects.
    rises: u64,
    falls: u64,
    /// The same with the number of dynamic objects that was there before the last lift.
    back: u64,
    /// The same with two elements, and with two updates at offset 0.
    two_elements: u64,
    two_updates: u64,
    /// Accepted pushes from a lift to the next reset.
    accepted: u64,
    /// Resets after a lift.
    resets: u64,
    /// Accepted pushes with another number of dynamic objects that keep no element, and those with
    /// another `bed_or_isf_objects` and as many dynamic objects, held against the unchanged Rust.
    others: u64,
    beyond: u64,
}

struct Run {
    calls: Calls,
    host: Host,
    model: Model,
    /// The unchanged Rust, while it answers as the entries do.
    rust: Option<Oracle>,
    /// The numbers of dynamic objects before each lift.
    numbers: Vec<usize>,
    lifted: bool,
    unlike: bool,
}

impl Run {
    fn new(seed: u64) -> Self {
        Run {
            calls: Calls::lifting(seed + 2_000_000, STRIDE as u64).with_sends(false),
            host: Host::new(STRIDE),
            model: Model::new(),
            rust: Some(Oracle::new()),
            numbers: Vec::new(),
            lifted: false,
            unlike: false,
        }
    }

    fn push(&mut self, call: &Call, name: &str, tally: &mut Tally) {
        let outcome = self.host.push(&mut self.model, call, name);
        let Some(Judged { before, frame }) = self.model.take_judged() else {
            return;
        };
        let lifts = lifts(&before.metadata, &frame.applied());
        if let Some(mut rust) = self.rust.take() {
            rust.store_debug_rows(frame.samples / 64 + 1);
            let same = match (rust.push(&frame), &outcome) {
                (Pushed::Ready(a), Outcome::Ready(b, _)) => all_same(&a.concat(), &b.concat()),
                (Pushed::Refused(refusal), Outcome::Refused([number, ..])) => {
                    u32::from(refusal.number) == *number
                }
                // Refused for another reason: no trace.
                (Pushed::Panicked, Outcome::Refused(_)) => lifts,
                _ => false,
            };
            self.rust = same.then_some(rust);
        }
        self.unlike |= self.rust.is_none();
        if matches!(outcome, Outcome::Ready(..)) {
            self.count(&before.metadata, &frame, lifts, tally);
        }
    }

    /// An accepted push.
    fn count(&mut self, before: &Metadata, frame: &Frame, lifts: bool, tally: &mut Tally) {
        let after = self.model.state().metadata;
        let [was, is] = [before, &after].map(|metadata| metadata.dynamic_sources.len());
        let add = |count: &mut u64, holds: bool| *count += u64::from(holds);
        if lifts {
            let at_0 = frame.updates.iter().filter(|update| update.offset == 0);
            add(&mut tally.rises, was < is);
            add(&mut tally.falls, is < was);
            add(&mut tally.back, self.numbers.last() == Some(&is));
            add(&mut tally.two_elements, after.elements.len() == 2);
            add(&mut tally.two_updates, at_0.count() > 1);
            self.numbers.push(was);
            self.lifted = true;
        }
        let same_isf = before.bed_or_isf_objects == after.bed_or_isf_objects;
        let alike = before.initialized && !self.model.lifted();
        add(&mut tally.accepted, self.model.lifted());
        add(&mut tally.others, alike && was != is);
        add(&mut tally.beyond, alike && was == is && !same_isf);
    }

    fn call(&mut self, name: &str, tally: &mut Tally) {
        match self.calls.next_step() {
            Step::Push(call) => self.push(&call, name, tally),
            Step::Flush => {
                self.host.step(&mut self.model, &Step::Flush, name);
                self.rust.as_mut().map(Oracle::flush);
            }
            Step::Reset => {
                tally.resets += u64::from(self.model.lifted());
                self.host.step(&mut self.model, &Step::Reset, name);
                self.rust = Some(Oracle::new());
                self.numbers.clear();
            }
            step => panic!("none is drawn: {step:?}"),
        }
        // Before a lift, and after a reset, the entries are as the unchanged Rust.
        assert!(self.rust.is_some() || self.model.lifted(), "{name}");
        assert!(ranges::hold(&self.host.state), "{name}");
        let differs = self.model.difference(&self.host.state);
        assert_eq!(differs, None, "{name}");
    }
}

/// Answers, samples, the output and the renderer in the block, at each call.
#[test]
#[cfg_attr(no_sources, ignore = "Rust sources not at hand")]
fn lifted_channels_start_afresh() {
    let mut tally = Tally::default();
    for seed in seeds!(0..RUNS) {
        let mut run = Run::new(seed);
        for k in 0..CALLS {
            run.call(&format!("call {k}"), &mut tally);
        }
        tally.runs += u64::from(run.lifted);
        tally.unlike += u64::from(run.unlike);
    }
    println!("{tally:?}");
    if seeds::all() {
        assert!(tally.runs >= 2_000 && tally.unlike >= 1_000, "{tally:?}");
        assert!(tally.accepted >= 10_000, "{tally:?}");
        let lifts = [tally.rises, tally.falls, tally.back];
        let kinds = [tally.two_elements, tally.two_updates, tally.resets];
        assert!(lifts.iter().chain(&kinds).all(|&n| n >= 500), "{tally:?}");
        assert!(tally.others >= 100 && tally.beyond >= 100, "{tally:?}");
    }
}
