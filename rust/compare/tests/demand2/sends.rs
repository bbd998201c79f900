//! Sends to the bass feed (document 02, R-3) at the entries: they are held against the Rust with
//! R-3's rule, and where no object was sent since the last reset against the unchanged one too.

use compare::calls::{Call, Calls, Step, bed_frame};
use compare::entry;
use compare::host::Host;
use compare::model::{Judged, Model, Outcome, lifts};
use compare::probe::lowpass;
use compare::{all_same, floats, loudest_frame, ranges, seeds, set};
use oracle::frame::{Frame, Object, Update};
use oracle::state::{Metadata, Source};
use oracle::{Oracle, Pushed};

const RUNS: u64 = 14_000;
const CALLS: usize = 16;
const STRIDE: usize = 256;
/// The bass feed.
const BASS: usize = 3;

/// What the runs come to.
#[derive(Debug, Default)]
struct Tally {
    /// Runs that send an object, and those of them in which the unchanged Rust answers otherwise.
    runs: u64,
    unlike: u64,
    /// Accepted pushes from there to the next reset, and such resets.
    sent: u64,
    resets: u64,
    /// Accepted pushes held against the unchanged Rust though a record of them has a send.
    alike: u64,
    /// Accepted pushes that set a send back to zero, and those that start objects again that had one.
    ended: u64,
    again: u64,
    /// Accepted pushes that leave an object of send 1, of -0.0, of one next to nothing.
    one: u64,
    minus_0: u64,
    tiny: u64,
    /// Sends in applied records of beds, and in updates that are dropped.
    beds: u64,
    dropped: u64,
    /// Accepted pushes with a sent object of size above 0, and with one that a channel was lifted to.
    sized: u64,
    lifted: u64,
}

struct Run {
    calls: Calls,
    host: Host,
    model: Model,
    /// The unchanged Rust, while it answers as the entries do.
    rust: Option<Oracle>,
    sent: bool,
    unlike: bool,
}

/// The objects' sends in these records.
fn sends<'a>(objects: impl Iterator<Item = &'a Vec<Object>>) -> u64 {
    objects
        .flatten()
        .filter(|object| object.send != 0.0)
        .count() as u64
}

fn records(update: &Update) -> impl Iterator<Item = &Vec<Object>> {
    update.elements.iter().flat_map(|element| &element.objects)
}

impl Run {
    fn new(seed: u64) -> Self {
        let (calls, samples) = (seed + 3_000_000, STRIDE as u64);
        let calls = match seed % 4 {
            0 => Calls::lifting(calls, samples).with_sends(true),
            1 => Calls::for_entries(calls, samples).with_sends(true),
            _ => Calls::sending(calls, samples),
        };
        Run {
            calls,
            host: Host::new(STRIDE),
            model: Model::new(),
            rust: Some(Oracle::new()),
            sent: false,
            unlike: false,
        }
    }

    fn push(&mut self, call: &Call, name: &str, tally: &mut Tally) {
        let outcome = self.host.push(&mut self.model, call, name);
        let Some(Judged { before, frame }) = self.model.take_judged() else {
            return;
        };
        if let Some(mut rust) = self.rust.take() {
            rust.store_debug_rows(frame.samples / 64 + 1);
            let same = match (rust.push(&frame), &outcome) {
                (Pushed::Ready(a), Outcome::Ready(b, _)) => all_same(&a.concat(), &b.concat()),
                (Pushed::Refused(refusal), Outcome::Refused([number, ..])) => {
                    u32::from(refusal.number) == *number
                }
                // Refused for another reason: no trace.
                (Pushed::Panicked, Outcome::Refused(_)) => {
                    lifts(&before.metadata, &frame.applied())
                }
                _ => false,
            };
            self.rust = same.then_some(rust);
            self.unlike |= !same && !self.model.lifted();
        }
        if matches!(outcome, Outcome::Ready(..)) {
            self.count(&before.metadata, &frame, tally);
        }
    }

    /// An accepted push.
    fn count(&mut self, before: &Metadata, frame: &Frame, tally: &mut Tally) {
        let after = self.model.state().metadata;
        let add = |count: &mut u64, holds: bool| *count += u64::from(holds);
        let [old, new] = [before, &after].map(|metadata| &metadata.dynamic_sources);
        let any = |holds: fn(&Source) -> bool| new.iter().any(holds);
        let applied = frame.applied();
        let dropped = frame.updates.iter().filter(|u| !applied.contains(u));
        let beds = applied.iter().flat_map(|update| {
            let beds = usize::from(update.bed_or_isf_objects.min(update.objects));
            let elements = update.elements.iter();
            elements.flat_map(move |element| &element.objects[..beds])
        });
        tally.beds += sends(beds);
        tally.dropped += sends(dropped.flat_map(records));
        let sent = self.model.sent();
        self.sent |= sent;
        add(&mut tally.sent, sent);
        let records = sends(applied.iter().flat_map(|update| records(update)));
        add(
            &mut tally.alike,
            records > 0 && !sent && !self.model.lifted(),
        );
        let ends = |(old, new): (&Source, &Source)| old.send != 0.0 && new.send == 0.0;
        let alike = old.len() == new.len();
        add(&mut tally.ended, alike && old.iter().zip(new).any(ends));
        let had = old.iter().any(|source| source.send != 0.0);
        add(&mut tally.again, !alike && had);
        add(&mut tally.one, any(|s| s.send == 1.0));
        add(&mut tally.minus_0, any(|s| s.send.to_bits() == 1 << 31));
        add(&mut tally.tiny, any(|s| s.send > 0.0 && s.send < 1e-19));
        add(
            &mut tally.sized,
            any(|s| s.gain * s.send > 0.0 && s.size > 0.0),
        );
        add(&mut tally.lifted, sent && self.model.lifted());
    }

    fn call(&mut self, name: &str, tally: &mut Tally) {
        match self.calls.next_step() {
            Step::Push(call) => self.push(&call, name, tally),
            Step::Flush => {
                self.host.step(&mut self.model, &Step::Flush, name);
                self.rust.as_mut().map(Oracle::flush);
            }
            Step::Reset => {
                tally.resets += u64::from(self.model.sent());
                self.host.step(&mut self.model, &Step::Reset, name);
                self.rust = Some(Oracle::new());
            }
            step => panic!("none is drawn: {step:?}"),
        }
        let model = &self.model;
        assert!(
            self.rust.is_some() || model.lifted() || model.sent(),
            "{name}"
        );
        assert!(ranges::hold(&self.host.state), "{name}");
        let differs = model.difference(&self.host.state);
        assert_eq!(differs, None, "{name}");
    }
}

/// Answers, samples, the output and the renderer in the block, at each call.
#[test]
#[cfg_attr(no_sources, ignore = "Rust sources not at hand")]
fn objects_are_sent_to_the_bass_feed() {
    let mut tally = Tally::default();
    for seed in seeds!(0..RUNS) {
        let mut run = Run::new(seed);
        for k in 0..CALLS {
            run.call(&format!("call {k}"), &mut tally);
        }
        tally.runs += u64::from(run.sent);
        tally.unlike += u64::from(run.unlike);
    }
    println!("{tally:?}");
    if seeds::all() {
        let Tally { runs, unlike, .. } = tally;
        assert!(runs >= 10_000 && unlike >= 5_000, "{tally:?}");
        let pushes = [tally.sent, tally.alike, tally.sized, tally.beds];
        assert!(pushes.iter().all(|&n| n >= 5_000), "{tally:?}");
        let kinds = [tally.resets, tally.ended, tally.again, tally.one];
        let others = [tally.minus_0, tally.tiny, tally.dropped, tally.lifted];
        assert!(kinds.iter().chain(&others).all(|&n| n >= 300), "{tally:?}");
    }
}

/// So many samples, a half each, of one object with this send and gain, in the middle of the room.
fn of_one(samples: usize, send: f32, gain: f32, size: f32) -> Call {
    let object = Object {
        position_valid: true,
        position: Some([0.5; 3]),
        gain: Some(gain),
        size: Some(size),
        send,
        ..Object::default()
    };
    let update = Update {
        objects: 1,
        elements: vec![set(vec![object])],
        ..Update::default()
    };
    Call::from(&Frame {
        rate: 48_000,
        samples,
        beds: Vec::new(),
        objects: 1,
        pcm: vec![0.5; samples],
        updates: vec![update],
    })
}

/// What the bass feed gives of the calls.
fn heard(calls: &[Call]) -> Vec<f32> {
    let mut host = Host::new(64);
    let mut bass = Vec::new();
    for call in calls {
        let answer = entry::push(&mut host.state, call, &mut host.out, 64);
        assert_eq!((answer.kind, answer.ready), (0, 64));
        bass.extend(floats(&host.out[4 * 64 * BASS..][..4 * 64]));
    }
    bass
}

/// What the library's own low-pass makes of these samples: what is fed is tested here, not the filter.
fn filtered(mut fed: Vec<f32>) -> Vec<f32> {
    lowpass::process_in_place(&mut lowpass::new(48_000), &mut fed);
    fed
}

/// "Each object then adds sample × (gain × send) to channel 3 before the filter", whatever its size;
/// "a block that is applied sets it", also to zero and also where it says nothing else.
#[test]
fn one_object() {
    for (send, gain, size) in [(1.0, 1.0, 0.0), (0.3, 0.7, 1.0), (1e-3, 2.0, 0.5)] {
        let sent = vec![0.5 * (gain * send); 64];
        let found = heard(&[of_one(64, send, gain, size)]);
        assert_eq!(found, filtered(sent), "{send} {gain} {size}");
    }
    for (send, gain) in [(0.0, 1.0), (-0.0, 1.0), (1.0, 0.0)] {
        assert_eq!(heard(&[of_one(64, send, gain, 1.0)]), [0.0; 64]);
    }
    let (sent, kept) = (of_one(64, 1.0, 0.5, 0.0), sound(64));
    let mut silent = of_one(64, 0.0, 0.0, 0.0);
    // The same record with no gain, position or size in it.
    silent.meta[240 - 40..].fill(0);
    silent.meta[200] = 4;
    silent.meta[232..236].copy_from_slice(&1f32.to_le_bytes());
    let fed = [[0.25; 64], [0.25; 64], [0.0; 64]].concat();
    assert_eq!(heard(&[sent, kept, silent]), filtered(fed));
}

/// The object's samples with no metadata.
fn sound(samples: usize) -> Call {
    Call {
        meta: Vec::new(),
        ..of_one(samples, 0.0, 0.0, 0.0)
    }
}

/// "a send outside its range, NaN included, is refusal 6": of an object, of a bed, of an update that
/// is dropped. -0.0 and 1 pass.
#[test]
fn ends_of_the_range() {
    let object = of_one(64, 0.0, 1.0, 0.0);
    let mut dropped = object.clone();
    dropped.meta[2] = 64;
    let mut bed = bed_frame(64);
    bed.meta[7] = 1;
    bed.meta.extend_from_slice(&object.meta[40..]);
    let inside = [0.0, -0.0, 1e-45, 0.5, 1.0];
    let outside = [
        1f32.next_up(),
        -1e-45,
        -1.0,
        f32::INFINITY,
        -f32::INFINITY,
        f32::NAN,
        -f32::NAN,
    ];
    for call in [object, dropped, bed] {
        let answered = |send: f32| {
            let mut call = call.clone();
            let end = call.meta.len();
            call.meta[end - 4..].copy_from_slice(&send.to_le_bytes());
            let mut host = Host::new(64);
            let state = host.state.clone();
            let answer = entry::push(&mut host.state, &call, &mut host.out, 64);
            assert!(answer.kind == 0 || host.state == state, "{send}");
            (answer.kind, answer.number)
        };
        for send in inside {
            assert_eq!(answered(send), (0, 0), "{send}");
        }
        for send in outside {
            assert_eq!(answered(send), (1, 6), "{send}");
        }
    }
}

/// "the range of -1 to 1 covers the new path"
#[test]
fn the_loudest_stays_in_range() {
    for rate in [8_000, 48_000, 192_000] {
        let mut most = 0f32;
        for half in [1, 2, 5, 33, 200, 800, 1_536] {
            let up = |i: usize| (i / half).is_multiple_of(2);
            let swing = (0..1_536).map(|i| if up(i) { 16.0 } else { -16.0 });
            let frame = loudest_frame(rate, &swing.collect::<Vec<_>>());
            let mut host = Host::new(1_536);
            let mut model = (!cfg!(no_sources)).then(Model::new);
            for k in 0..4 {
                let call = Call::from(&frame);
                match &mut model {
                    Some(model) => {
                        let outcome = host.push(model, &call, &format!("call {k}"));
                        assert!(matches!(outcome, Outcome::Ready(..)), "{outcome:?}");
                    }
                    None => {
                        let answer = entry::push(&mut host.state, &call, &mut host.out, 1_536);
                        assert_eq!(answer.kind, 0);
                    }
                }
                let found = floats(&host.out);
                assert!(
                    found.iter().all(|x| (-1.0..=1.0).contains(x)),
                    "{rate} {half}"
                );
                let bass = found[1_536 * BASS..][..1_536].iter();
                most = bass.fold(most, |most, x| most.max(x.abs()));
            }
        }
        assert!(most > 0.5, "the bass feed is heard: {most}");
    }
}
