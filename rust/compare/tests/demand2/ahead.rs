// SPDX-License-Identifier: Apache-2.0
//! Updates that lie far ahead (document 02, R-12) at the entries: the Rust is given each in the frame
//! where it falls, those that waited before that frame's own.

use compare::calls::{Call, Calls, Step};
use compare::host::Host;
use compare::model::{Judged, Model, Outcome, waits};
use compare::setup::Setup;
use compare::{Generator, all_same, ranges, seeds, tables};
use oracle::frame::Frame;
use oracle::{Pushed, amended};

const RUNS: u64 = 10_000;
const CALLS: usize = 24;
const STRIDE: usize = 256;

/// What the runs come to.
#[derive(Debug, Default)]
struct Tally {
    /// Runs in which a waiting update falls, and of these those that give other samples than without
    /// those that wait.
    runs: u64,
    unlike: u64,
    /// Accepted pushes that leave updates waiting, eight, at one position; updates that fell, at offset 0,
    /// at the last sample, in a frame with updates of its own at their offset.
    waiting: u64,
    eight: u64,
    equal: u64,
    fallen: u64,
    at_0: u64,
    at_the_last: u64,
    before_own: u64,
    /// Accepted pushes in which some fall and others stay, and those in which the first update falls.
    some_stay: u64,
    first: u64,
    /// Refused by 25; by 10 and by 12 with updates that would wait; by 11, 13 or 14 where some would fall,
    /// and then accepted.
    too_many: u64,
    only_waits: u64,
    no_samples: u64,
    kept: u64,
    /// Accepted pushes in which some fall: behind a lifted channel, with a held object, beside the
    /// unchanged Rust, in other halls; new renderers of blocks in which some wait.
    lifted: u64,
    held: u64,
    beside: u64,
    others: u64,
    renewed: u64,
}

struct Run {
    calls: Calls,
    host: Host,
    model: Model,
    /// The same pushes without those that waited, while it takes them.
    without: Option<amended::Oracle>,
    fallen: bool,
    unlike: bool,
    /// The last push was refused though updates were to fall in it.
    turned_away: bool,
}

impl Run {
    fn new(seed: u64) -> Self {
        let (calls, samples) = (seed + 7_000_000, STRIDE as u64);
        let layout = (seed / 4 % 4) as u32;
        let calls = match seed % 4 {
            0 => Calls::lifting(calls, samples),
            1 => Calls::holding(calls, samples),
            2 => Calls::for_entries(calls, samples),
            _ => Calls::new(calls, samples),
        };
        let mut setup = Setup::built_in(layout);
        if seed / 16 % 4 == 3 {
            setup.table = tables::accepted(&mut Generator::new(seed));
        }
        Run {
            calls: calls.with_making(layout).with_far(),
            host: Host::in_hall(STRIDE, &setup),
            model: Model::in_hall(&setup),
            without: Some(amended::Oracle::in_hall(&setup.hall())),
            fallen: false,
            unlike: false,
            turned_away: false,
        }
    }

    fn push(&mut self, call: &Call, name: &str, tally: &mut Tally) {
        let before = self.model.waits().to_vec();
        let outcome = self.host.push(&mut self.model, call, name);
        let judged = self.model.take_judged();
        match (&outcome, judged) {
            (Outcome::Ready(found, _), Some(Judged { before, frame })) => {
                self.pushed(&frame, &found.concat());
                self.count(&frame, before.metadata.initialized, tally);
                self.turned_away = false;
            }
            (Outcome::Refused([number, ..]), judged) => {
                let waits = self.model.waits();
                assert!(
                    waits.len() == before.len(),
                    "{name}: a refused frame adds none"
                );
                let far = |record: &&[u8; 40]| record[0] == 9;
                let far = call.meta.as_chunks::<40>().0.iter().filter(far).count() as u64;
                tally.too_many += u64::from(*number == 25);
                tally.only_waits += u64::from(*number == 10 && far > 0);
                tally.no_samples += u64::from(*number == 12 && far > 0);
                let start = judged.map(|judged| judged.before.stream_sample_offset as u64);
                let end = start.unwrap_or(0) + u64::from(call.samples);
                self.turned_away |= [11, 13, 14].contains(number)
                    && start.is_some()
                    && waits.iter().any(|w| w.position < end);
            }
            _ => panic!("{name}: {outcome:?}"),
        }
    }

    fn pushed(&mut self, frame: &Frame, found: &[f32]) {
        let Some(mut without) = self.without.take() else {
            return;
        };
        without.store_debug_rows(frame.samples / 64 + 1);
        let own = Frame {
            updates: frame.updates[self.model.fallen()..].to_vec(),
            ..frame.clone()
        };
        let same = matches!(without.push(&own), Pushed::Ready(a) if all_same(&a.concat(), found));
        self.unlike |= !same;
        self.without = same.then_some(without);
    }

    /// An accepted push.
    fn count(&mut self, frame: &Frame, begun: bool, tally: &mut Tally) {
        let (model, waits) = (&self.model, self.model.waits());
        let add = |count: &mut u64, holds: bool| *count += u64::from(holds);
        let (fallen, own) = frame.updates.split_at(model.fallen());
        let mut positions: Vec<u64> = waits.iter().map(|w| w.position).collect();
        positions.sort();
        add(&mut tally.waiting, !waits.is_empty());
        add(&mut tally.eight, waits.len() == waits::MOST);
        add(&mut tally.equal, positions.windows(2).any(|w| w[0] == w[1]));
        if fallen.is_empty() {
            return;
        }
        self.fallen = true;
        let at = |offset: usize| {
            fallen
                .iter()
                .filter(move |u| usize::from(u.offset) == offset)
        };
        tally.fallen += fallen.len() as u64;
        tally.at_0 += at(0).count() as u64;
        tally.at_the_last += at(frame.samples - 1).count() as u64;
        let beside_own = |offset: u16| own.iter().any(|u| u.offset == offset);
        add(
            &mut tally.before_own,
            fallen.iter().any(|u| beside_own(u.offset)),
        );
        add(&mut tally.some_stay, !waits.is_empty());
        add(&mut tally.first, !begun);
        add(&mut tally.kept, self.turned_away);
        add(&mut tally.lifted, model.lifted());
        let after = model.state().metadata;
        add(
            &mut tally.held,
            after.dynamic_sources.iter().any(|s| s.held),
        );
        add(&mut tally.beside, model.beside_the_rust());
        add(&mut tally.others, !model.setup().is_the_rusts());
    }

    fn call(&mut self, name: &str, tally: &mut Tally) {
        let step = self.calls.next_step();
        match &step {
            Step::Push(call) => self.push(call, name, tally),
            Step::Flush => {
                self.host.step(&mut self.model, &step, name);
                if let Some(without) = &mut self.without {
                    without.flush();
                }
            }
            Step::Hold(object) | Step::Release(object) => {
                let outcome = self.host.step(&mut self.model, &step, name);
                let holds = matches!(step, Step::Hold(_));
                let count = |o: &amended::Oracle| o.state().metadata.dynamic_sources.len();
                let object = *object as usize;
                if let (Outcome::Marked(_), Some(without)) = (outcome, &mut self.without)
                    && object < count(without)
                {
                    without.want(object, holds);
                }
            }
            _ => {
                let waits = !self.model.waits().is_empty();
                let outcome = self.host.step(&mut self.model, &step, name);
                if let Outcome::New(setup) = outcome {
                    tally.renewed += u64::from(waits);
                    assert!(self.model.waits().is_empty(), "{name}");
                    self.without = Some(amended::Oracle::in_hall(&setup.hall()));
                    self.turned_away = false;
                }
            }
        }
        assert!(ranges::hold(&self.host.state), "{name}");
        let differs = self.model.difference(&self.host.state);
        assert_eq!(differs, None, "{name}");
    }
}

/// Answers, samples, the output, the renderer in the block and what waits in it, at each call.
#[test]
#[cfg_attr(no_sources, ignore = "Rust sources not at hand")]
fn updates_wait_and_fall() {
    let mut tally = Tally::default();
    for seed in seeds!(0..RUNS) {
        let mut run = Run::new(seed);
        if seed % 16 == 5 {
            run.host.move_on(&mut run.model, 3_000);
        }
        for k in 0..CALLS {
            run.call(&format!("call {k}"), &mut tally);
        }
        tally.runs += u64::from(run.fallen);
        tally.unlike += u64::from(run.fallen && run.unlike);
    }
    println!("{tally:?}");
    if seeds::all() {
        let Tally { runs, unlike, .. } = tally;
        assert!(runs >= 5_000 && unlike >= 2_000, "{tally:?}");
        let pushes = [tally.waiting, tally.fallen, tally.at_0, tally.some_stay];
        assert!(pushes.iter().all(|&n| n >= 5_000), "{tally:?}");
        let kinds = [tally.equal, tally.before_own, tally.too_many];
        let kept = [tally.kept, tally.only_waits, tally.no_samples];
        let beside = [tally.lifted, tally.beside, tally.others, tally.renewed];
        let all = kinds.iter().chain(&kept).chain(&beside);
        assert!(all.min().unwrap() >= &800, "{tally:?}");
        let few = [tally.eight, tally.at_the_last, tally.first, tally.held];
        assert!(few.iter().all(|&n| n >= 150), "{tally:?}");
    }
}
