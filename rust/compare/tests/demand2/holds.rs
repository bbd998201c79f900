// SPDX-License-Identifier: Apache-2.0
//! Holds (document 02, R-11) at the entries: from a hold to the next new renderer they are held against
//! the Rust with R-11's rule and against a reading of it, before it against the unchanged one too.

use compare::calls::{Call, Calls, Step};
use compare::host::Host;
use compare::model::{Effects, Judged, Model, Outcome};
use compare::setup::Setup;
use compare::{Generator, all_same, ranges, seeds, tables};
use oracle::amended;
use oracle::frame::Frame;
use oracle::state::{Metadata, Source};

const RUNS: u64 = 12_000;
const CALLS: usize = 24;
const STRIDE: usize = 256;

/// What the runs come to.
#[derive(Debug, Default)]
struct Tally {
    /// Runs in which an object is held, and of these those that give other samples than without holds.
    runs: u64,
    unlike: u64,
    /// Accepted pushes from a hold to the next new renderer, in the Rust's hall and in others; those
    /// that were held against the reading; those in which some object is held.
    in_the_rusts: u64,
    in_others: u64,
    read: u64,
    in_effect: u64,
    /// Objects in slots that a hold stopped, and releases with and without a ramp left.
    stopped: u64,
    goes_on: u64,
    jumps: u64,
    /// Holds and releases that change a mark, at a slot's start and in one; that undo one not yet in
    /// effect; that are known; that are refused.
    at_start: u64,
    within: u64,
    hold_undone: u64,
    release_undone: u64,
    known_hold: u64,
    known_release: u64,
    refused: u64,
    /// Accepted pushes that end a hold in effect, and one that is not yet, by another number of objects;
    /// and new renderers of such blocks.
    ended: u64,
    ended_before: u64,
    renewed: u64,
    /// Accepted pushes with a held object behind a lifted channel, with one that is sent to the bass
    /// feed, with two elements, and those that keep a held object over an update.
    lifted: u64,
    sent: u64,
    two_elements: u64,
    updated: u64,
}

struct Run {
    calls: Calls,
    host: Host,
    model: Model,
    /// The same pushes without the holds.
    free: amended::Oracle,
    held: bool,
    unlike: bool,
}

fn any(metadata: &Metadata, holds: fn(&Source) -> bool) -> bool {
    metadata.dynamic_sources.iter().any(holds)
}

impl Run {
    fn new(seed: u64) -> Self {
        let (calls, samples) = (seed + 6_000_000, STRIDE as u64);
        let layout = (seed / 4 % 4) as u32;
        let calls = match seed % 4 {
            0 => Calls::lifting(calls, samples).with_holds(),
            1 => Calls::for_entries(calls, samples).with_holds(),
            _ => Calls::holding(calls, samples),
        };
        let mut setup = Setup::built_in(layout);
        if seed / 16 % 4 == 3 {
            setup.table = tables::accepted(&mut Generator::new(seed));
        }
        Run {
            calls: calls.with_making(layout),
            host: Host::in_hall(STRIDE, &setup),
            model: Model::in_hall(&setup),
            free: amended::Oracle::in_hall(&setup.hall()),
            held: false,
            unlike: false,
        }
    }

    fn push(&mut self, call: &Call, name: &str, tally: &mut Tally) {
        let outcome = self.host.push(&mut self.model, call, name);
        let Some(Judged { before, frame }) = self.model.take_judged() else {
            return;
        };
        self.free.store_debug_rows(frame.samples / 64 + 1);
        let free = self.free.push(&frame);
        if let (oracle::Pushed::Ready(free), Outcome::Ready(found, _)) = (free, &outcome) {
            self.unlike |= self.held && !all_same(&free.concat(), &found.concat());
            self.count(&before.metadata, &frame, tally);
        }
    }

    /// An accepted push.
    fn count(&mut self, before: &Metadata, frame: &Frame, tally: &mut Tally) {
        let (model, after) = (&self.model, self.model.state().metadata);
        let add = |count: &mut u64, holds: bool| *count += u64::from(holds);
        let held = any(&after, |source| source.held);
        let rusts = model.setup().is_the_rusts();
        add(&mut tally.in_the_rusts, model.held() && rusts);
        add(&mut tally.in_others, model.held() && !rusts);
        add(&mut tally.read, model.held() && model.was_read());
        add(&mut tally.in_effect, held);
        let Effects {
            stopped,
            goes_on,
            jumps,
        } = model.effects();
        tally.stopped += stopped;
        tally.goes_on += goes_on;
        tally.jumps += jumps;
        let other = before.dynamic_sources.len() != after.dynamic_sources.len();
        add(&mut tally.ended, other && any(before, |s| s.held));
        add(
            &mut tally.ended_before,
            other && any(before, |s| s.wanted && !s.held),
        );
        add(&mut tally.lifted, held && model.lifted());
        add(
            &mut tally.sent,
            any(&after, |s| s.held && s.send * s.gain > 0.0),
        );
        add(&mut tally.two_elements, held && after.elements.len() == 2);
        let kept = any(before, |s| s.held && s.wanted) && !frame.applied().is_empty();
        add(&mut tally.updated, kept && held);
    }

    fn mark(&mut self, step: &Step, name: &str, tally: &mut Tally) {
        let before = self.model.state();
        let outcome = self.host.step(&mut self.model, step, name);
        let holds = matches!(step, Step::Hold(_));
        match outcome {
            Outcome::Marked(Some((object, wanted))) => {
                let source = &before.metadata.dynamic_sources[object];
                assert_eq!(wanted, holds);
                tally.hold_undone += u64::from(!wanted && !source.held);
                tally.release_undone += u64::from(wanted && source.held);
                let start = before.metadata_timeslot_phase == 0;
                tally.at_start += u64::from(start);
                tally.within += u64::from(!start);
            }
            Outcome::Marked(None) => {
                tally.known_hold += u64::from(holds);
                tally.known_release += u64::from(!holds);
            }
            Outcome::Refused([24, 0, 0]) => tally.refused += 1,
            outcome => panic!("{name}: {outcome:?}"),
        }
        self.held |= self.model.held();
    }

    fn call(&mut self, name: &str, tally: &mut Tally) {
        let step = self.calls.next_step();
        match &step {
            Step::Push(call) => self.push(call, name, tally),
            Step::Hold(_) | Step::Release(_) => self.mark(&step, name, tally),
            Step::Flush => {
                self.host.step(&mut self.model, &step, name);
                self.free.flush();
            }
            _ => {
                let was = any(&self.model.state().metadata, |s| s.wanted || s.held);
                let outcome = self.host.step(&mut self.model, &step, name);
                if let Outcome::New(setup) = outcome {
                    tally.renewed += u64::from(was);
                    assert!(!self.model.held(), "{name}");
                    self.free = amended::Oracle::in_hall(&setup.hall());
                }
            }
        }
        assert!(ranges::hold(&self.host.state), "{name}");
        let differs = self.model.difference(&self.host.state);
        assert_eq!(differs, None, "{name}");
    }
}

/// Answers, samples, the output and the renderer in the block, at each call.
#[test]
#[cfg_attr(no_sources, ignore = "Rust sources not at hand")]
fn held_objects_stay() {
    let mut tally = Tally::default();
    for seed in seeds!(0..RUNS) {
        let mut run = Run::new(seed);
        for k in 0..CALLS {
            run.call(&format!("call {k}"), &mut tally);
        }
        tally.runs += u64::from(run.held);
        tally.unlike += u64::from(run.unlike);
    }
    println!("{tally:?}");
    if seeds::all() {
        let Tally { runs, unlike, .. } = tally;
        assert!(runs >= 10_000 && unlike >= 2_500, "{tally:?}");
        let pushes = [tally.in_the_rusts, tally.in_others, tally.in_effect];
        let holds = [tally.read, tally.stopped, tally.within];
        let all = pushes.iter().chain(&holds);
        assert!(
            all.min().unwrap() >= &5_000 && tally.at_start >= 2_000,
            "{tally:?}"
        );
        let known = [tally.known_hold, tally.known_release, tally.refused];
        let kinds = [tally.goes_on, tally.ended, tally.renewed];
        let undone = [tally.hold_undone, tally.release_undone];
        let kept = [tally.lifted, tally.sent, tally.two_elements, tally.updated];
        let all = known.iter().chain(&kinds).chain(&undone).chain(&kept);
        assert!(all.min().unwrap() >= &400, "{tally:?}");
        assert!(tally.jumps >= 200 && tally.ended_before >= 500, "{tally:?}");
    }
}
