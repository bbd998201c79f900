// SPDX-License-Identifier: Apache-2.0
//! Runs of the entries beside the model, each from a seed: answers, ready samples bit for bit,
//! every byte of the state block and the output that a call must leave alone, and the renderer
//! that the block holds. A difference panics.

mod damage;
mod reached;
mod seen;
mod table;

use crate::calls::{Call, Calls, Step};
use crate::case::Case;
use crate::host::Host;
use crate::model::{Effects, Judged, Model, Outcome, waits};
use crate::setup::Setup;
use crate::{Generator, ranges, streams, tables};
use oracle::frame::Update;
use seen::Push;
use std::vec;

pub use reached::{Reached, What};

/// Calls of most runs and of one in 32, those on damaged memory apart.
const CALLS: [usize; 2] = [16, 160];

/// Bytes of the most metadata that a frame of `hallrender` has.
const LONG: usize = 40 * 1_200;

/// Where a run's calls come from.
enum Source {
    Drawn(Calls),
    /// The steps of a damaged stream.
    Read(vec::IntoIter<Step>),
}

/// One run: its calls, the host's memory, and the model beside it.
struct Run<'a> {
    inputs: Generator,
    source: Source,
    host: Host,
    model: Model,
    /// The last applied update.
    last: Option<Update>,
    /// That of the last accepted push.
    stride: usize,
    reached: &'a mut Reached,
}

/// The run of that seed, from a new renderer of that layout: in every second run, of layout 0 in one
/// of four, with a table of its own.
pub fn run(seed: u64, layout: u32, reached: &mut Reached) {
    let mut run = Run::new(seed, layout, reached);
    let to_the_end = run.inputs.chance(16);
    let calls = CALLS[usize::from(run.inputs.chance(32))];
    run.reached.one(What::Run);
    for k in 0..calls {
        let Some(step) = run.next_step() else {
            break;
        };
        let name = &format!("call {k}, stride {}", run.host.stride);
        run.call(step, name);
        if k == 3 && to_the_end {
            let room = run.inputs.below(2_000);
            run.host.move_on(&mut run.model, room);
        }
        assert!(ranges::hold(&run.host.state), "{name}: the ranges");
        let differs = run.model.difference(&run.host.state);
        assert_eq!(differs, None, "{name}: the renderer in the block");
    }
}

fn any_stride(inputs: &mut Generator) -> usize {
    64 * (1 + inputs.below(24)) as usize
}

impl<'a> Run<'a> {
    fn new(seed: u64, layout: u32, reached: &'a mut Reached) -> Self {
        let mut inputs = Generator::new(seed ^ 0x7777_0000);
        let mut stride = any_stride(&mut inputs);
        let calls = seed.wrapping_add(1_000_000);
        let source = match inputs.below(8) {
            0 => {
                stride = streams::STRIDE;
                reached.one(What::Stream);
                Source::Read(streams::steps(&streams::damaged(calls)).0.into_iter())
            }
            k => {
                let samples = stride as u64;
                let calls = match k {
                    1 => Calls::lifting(calls, samples),
                    2 => Calls::lifting(calls, samples).with_holds(),
                    3 | 4 => Calls::holding(calls, samples),
                    _ => Calls::for_entries(calls, samples),
                };
                let calls = calls.with_making(layout);
                Source::Drawn(if seed.is_multiple_of(3) {
                    calls.with_far()
                } else {
                    calls
                })
            }
        };
        let mut setup = Setup::built_in(layout);
        if inputs.chance(if layout == 0 { 4 } else { 2 }) {
            setup.table = tables::accepted(&mut inputs);
        }
        Run {
            inputs,
            source,
            host: Host::in_hall(stride, &setup),
            model: Model::in_hall(&setup),
            last: None,
            stride,
            reached,
        }
    }

    fn next_step(&mut self) -> Option<Step> {
        match &mut self.source {
            Source::Drawn(calls) => Some(calls.next_step()),
            Source::Read(steps) => steps.next(),
        }
    }

    /// Lends another output, one time in two of another stride. Frames mostly fit it.
    fn lend(&mut self) {
        let inputs = &mut self.inputs;
        let more = inputs.pick(&[0, 1, 37, 4 * 64, 48 * 64]);
        if let Source::Drawn(calls) = &mut self.source {
            if inputs.chance(2) {
                self.host.stride = any_stride(inputs);
            }
            if !inputs.chance(8) {
                calls.set_most_samples(self.host.stride as u64);
            }
        }
        self.host.out = vec![0x5a; 48 * self.host.stride + more];
    }

    fn call(&mut self, mut step: Step, name: &str) {
        if let Step::Push(call) = &mut step {
            self.before_a_push(call, name);
        }
        if self.inputs.chance(16) {
            self.on_a_damaged_block(&step, name);
        }
        let outcome = self.host.step(&mut self.model, &step, name);
        self.count(&outcome);
        if let Outcome::New(setup) = &outcome {
            self.made(&step, setup);
        }
        match (&step, &outcome) {
            (Step::Push(call), Outcome::Ready(..)) => self.pushed(call),
            (Step::Flush, Outcome::Ready(..)) => {
                let gain = self.model.state().limiter_gain;
                self.reached.one(What::Flush);
                self.reached.add(What::Limited, (gain < 1.0).into());
                let again = self.host.step(&mut self.model, &step, name);
                assert_eq!(again, Outcome::Nothing, "{name}: a second flush");
                self.count(&again);
            }
            (_, Outcome::New(_)) => self.last = None,
            _ => (),
        }
    }

    fn made(&mut self, step: &Step, setup: &Setup) {
        if *step != Step::Reset {
            self.reached.one(What::Make(setup.layout));
        }
        if let Step::MakeWith(..) = step {
            self.reached.kinds(&setup.table, What::MakeWith);
        }
    }

    fn before_a_push(&mut self, call: &mut Call, name: &str) {
        if self.inputs.chance(20) {
            damage::stretch(&mut self.inputs, call, self.host.stride);
            self.reached.one(What::Stretched);
        }
        if self.inputs.chance(40) {
            let times = damage::wrongly_lent(&mut self.host, &mut self.inputs, call, name);
            self.reached.add(What::WronglyLent, times);
            self.reached.add(What::Call, times);
            self.reached.add(What::Refusal(1), times);
        }
        if self.inputs.chance(4) {
            self.lend();
        }
    }

    /// The step on a damaged copy of the block: refusal 1 where it is out of range, else what the
    /// model has of that block.
    fn on_a_damaged_block(&mut self, step: &Step, name: &str) {
        let mut case = Case {
            state: self.host.state.clone(),
            out: self.host.out.clone(),
            stride: self.host.stride as u32,
            step: step.clone(),
        };
        damage::block(&mut self.inputs, &mut case.state);
        let outcome = case.check(&case.called(), &format!("{name}, a damaged block"));
        self.count(&outcome);
        seen::nan_gain(self.reached, &case.state, &outcome);
        self.reached.one(if ranges::hold(&case.state) {
            What::BlockInside
        } else {
            What::BlockOutside
        });
    }

    /// After an accepted push.
    fn pushed(&mut self, call: &Call) {
        let Judged { before, frame } = self.model.take_judged().unwrap();
        if let Some(&update) = frame.applied().last() {
            self.last = Some(update.clone());
        }
        let push = Push {
            before: &before.metadata,
            after: &self.model.state(),
            frame: &frame,
            last: self.last.as_ref(),
        };
        push.count(self.reached);
        let (host, reached) = (&self.host, &mut self.reached);
        reached.add(What::Lifted, self.model.lifted().into());
        reached.add(What::Sent, self.model.sent().into());
        reached.add(What::Held, self.model.held().into());
        let Effects {
            stopped,
            goes_on,
            jumps,
        } = self.model.effects();
        reached.add(What::Stopped, stopped);
        reached.add(What::GoesOn, goes_on);
        reached.add(What::Jumps, jumps);
        reached.add(What::Unchanged, self.model.beside_the_rust().into());
        reached.add(What::Read, self.model.was_read().into());
        reached.add(What::Waiting, (!self.model.waits().is_empty()).into());
        let fallen = &frame.updates[..self.model.fallen()];
        reached.add(What::Fallen, fallen.len() as u64);
        let at = |at: usize| {
            fallen
                .iter()
                .filter(|u| usize::from(u.offset) == at)
                .count() as u64
        };
        reached.add(What::FallenFirst, at(0));
        reached.add(What::FallenLast, at(frame.samples - 1));
        let most = self.model.waits().len() == waits::MOST;
        reached.add(What::MostWaiting, most.into());
        let Setup { layout, table } = self.model.setup();
        reached.one(What::Layout(*layout));
        reached.kinds(table, What::Table);
        reached.add(What::LongList, (call.meta.len() > LONG).into());
        reached.add(What::LongOutput, (host.out.len() > 48 * host.stride).into());
        reached.one(What::Stride(host.stride as u32));
        reached.add(What::OtherStride, (self.stride != host.stride).into());
        self.stride = host.stride;
    }

    fn count(&mut self, outcome: &Outcome) {
        self.reached.one(What::Call);
        match outcome {
            Outcome::Refused([number, ..]) => self.reached.one(What::Refusal(*number)),
            Outcome::Ready(..) => seen::samples(self.reached, outcome),
            Outcome::Nothing => self.reached.one(What::Nothing),
            Outcome::New(_) => self.reached.one(What::Fresh),
            Outcome::Marked(None) => self.reached.one(What::Known),
            Outcome::Marked(Some((_, true))) => self.reached.one(What::Hold),
            Outcome::Marked(Some((_, false))) => self.reached.one(What::Release),
        }
    }
}
