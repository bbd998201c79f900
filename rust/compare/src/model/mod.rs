//! What documents 01 and 02 have a call answer: refusals 1 to 8, 15 to 18 and 24, read here apart from
//! the Rattle code, and the oracle for everything else: the amended Rust. In layout 0 with the built-in
//! table the unchanged one must agree with it but from a lifted bed channel, an object that is
//! sent to the bass feed, or a hold to the next reset; in other halls, and from
//! a hold on, what it mixes must be what `halls` and `holds` read.

pub mod find;
mod halls;
pub mod holds;
mod judged;
mod met;
mod meters;
pub mod pcm24;
pub mod planes;
mod sends;
pub mod waits;

use crate::calls::{Call, Step};
use crate::entry::Answer;
use crate::setup::Setup;
use crate::{all_same, block, same};
use oracle::frame::Frame;
use oracle::state::State;
use oracle::{Hall, Oracle, Pushed, amended};

pub use holds::Effects;
pub use judged::{judged, rightly_lent};
pub use met::{Met, lifts, met};
pub use meters::{Limited, Meters};
pub use sends::with_sends;
pub use waits::Waiting;

#[derive(Clone, Debug, PartialEq)]
pub enum Outcome {
    /// The ready samples of the twelve channels, none of those that the layout lacks, and what the
    /// limiter met.
    Ready(Vec<Vec<f32>>, Meters),
    /// The number and the two counts.
    Refused([u32; 3]),
    Nothing,
    /// A new renderer, by making or reset, in that hall.
    New(Setup),
    /// A hold or a release; the object and what is wanted of it where it was not known.
    Marked(Option<(usize, bool)>),
}

impl Outcome {
    /// What the entries answer.
    pub fn answer(&self) -> Answer {
        let (kind, [number, first, second]) = match self {
            Outcome::Ready(..) => (0, [0; 3]),
            Outcome::Refused(refusal) => (1, *refusal),
            Outcome::Nothing => (2, [0; 3]),
            Outcome::New(_) | Outcome::Marked(_) => (3, [0; 3]),
        };
        let (ready, meters) = match self {
            Outcome::Ready(channels, meters) => (channels[0].len(), *meters),
            _ => (0, Meters::NONE),
        };
        Answer {
            kind,
            number,
            first,
            second,
            ready,
            peak: meters.peak,
            gain: meters.gain,
        }
    }
}

/// The stream's last sample.
pub const STREAM_END: u64 = 1 << 40;

pub struct Model {
    setup: Setup,
    hall: Hall,
    /// The Rust with the rules of document 02.
    amended: amended::Oracle,
    /// In the one hall that it has the unchanged Rust, which must agree, up to a lifted channel, a
    /// send or a hold.
    rust: Option<Oracle>,
    lifted: bool,
    sent: bool,
    held: bool,
    /// The updates that wait, at the stream's own positions.
    waits: Vec<Waiting>,
    /// How many fell in the last accepted push.
    fallen: usize,
    /// Samples of the stream before the oracle's first.
    pub before: u64,
    /// The last push that 1 to 8 let pass.
    judged: Option<Judged>,
    /// It was accepted, and what it mixed was held against the reading of hall and holds.
    read: bool,
    /// What holds did in it, as it was read.
    effects: Effects,
}

/// A push that 1 to 8 let pass.
pub struct Judged {
    /// The renderer before it.
    pub before: State,
    /// With the updates that are due in it, those that waited first.
    pub frame: Frame,
}

impl Model {
    /// A new renderer of layout 0.
    #[expect(clippy::new_without_default)]
    pub fn new() -> Self {
        Model::in_layout(0)
    }

    /// A new renderer of that layout.
    pub fn in_layout(layout: u32) -> Self {
        Model::in_hall(&Setup::built_in(layout))
    }

    /// A new renderer in that hall.
    pub fn in_hall(setup: &Setup) -> Self {
        let hall = setup.hall();
        Model {
            amended: amended::Oracle::in_hall(&hall),
            rust: setup.is_the_rusts().then(Oracle::new),
            setup: *setup,
            hall,
            lifted: false,
            sent: false,
            held: false,
            waits: Vec::new(),
            fallen: 0,
            before: 0,
            judged: None,
            read: false,
            effects: Effects::default(),
        }
    }

    /// What a block in range holds.
    pub fn of_block(bytes: &[u8]) -> Self {
        let (setup, state) = (Setup::of_block(bytes), block::state(bytes));
        let model = Model::in_hall(&setup);
        let (sent, held) = (sends::sounds(&state.metadata), holds::any(&state.metadata));
        let alike = setup.is_the_rusts() && !sent && !held;
        Model {
            amended: amended::Oracle::in_hall_and_state(&model.hall, &state),
            rust: alike.then(|| Oracle::in_state(&state)),
            sent,
            held,
            waits: waits::read(bytes, state.stream_sample_offset as u64).unwrap(),
            ..model
        }
    }

    /// The layout's code.
    pub fn layout(&self) -> u32 {
        self.setup.layout
    }

    pub fn setup(&self) -> &Setup {
        &self.setup
    }

    /// The unchanged Rust is beside it.
    pub fn beside_the_rust(&self) -> bool {
        self.rust.is_some()
    }

    /// What the last push mixed was held against the reading of its hall and of holds.
    pub fn was_read(&self) -> bool {
        self.read
    }

    /// The part of a block that is another renderer's.
    pub fn difference(&self, bytes: &[u8]) -> Option<&'static str> {
        let waits = waits::stand_in(&self.waits, bytes);
        let front = block::difference(bytes, &self.setup, &self.moved_state());
        front.or((!waits).then_some("updates that wait"))
    }

    /// The unchanged Rust's while it is there, with the sends, which it has not.
    pub fn state(&self) -> State {
        let amended = self.amended.state();
        let Some(rust) = &self.rust else {
            return amended;
        };
        let state = rust.state();
        State {
            metadata: with_sends(state.metadata, &amended.metadata),
            ..state
        }
    }

    /// The same with the samples before the oracle's first counted in its positions.
    pub fn moved_state(&self) -> State {
        let mut state = self.state();
        let before = self.before as i64;
        state.stream_sample_offset += before;
        state.metadata_timeslot_stream_sample += before;
        state.metadata.payload_stream_sample += before;
        state
    }

    /// The updates that wait.
    pub fn waits(&self) -> &[Waiting] {
        &self.waits
    }

    /// How many fell in the last accepted push.
    pub fn fallen(&self) -> usize {
        self.fallen
    }

    /// So many samples come before the oracle's first.
    pub fn move_on(&mut self, by: u64) {
        self.before += by;
        self.waits.iter_mut().for_each(|w| w.position += by);
    }

    /// A channel was lifted since the last reset.
    pub fn lifted(&self) -> bool {
        self.lifted
    }

    /// An object was sent to the bass feed since the last reset.
    pub fn sent(&self) -> bool {
        self.sent
    }

    pub fn hall(&self) -> &Hall {
        &self.hall
    }

    /// An object was held, or was to be, since the last reset.
    pub fn held(&self) -> bool {
        self.held
    }

    /// What holds did in the last push, as it was read.
    pub fn effects(&self) -> Effects {
        self.effects
    }

    /// The last push, where 1 to 8 let it pass.
    pub fn take_judged(&mut self) -> Option<Judged> {
        self.judged.take()
    }

    pub fn push(&mut self, call: &Call, stride: usize) -> Outcome {
        (self.judged, self.read) = (None, false);
        self.effects = Effects::default();
        self.fallen = 0;
        let before = self.state();
        match judged(&before, self.before, &self.waits, call, stride) {
            Ok((frame, fallen, next)) => {
                let outcome = self.render(&before, &frame);
                if let Outcome::Ready(..) = outcome {
                    (self.fallen, self.waits) = (fallen, next);
                }
                self.judged = Some(Judged { before, frame });
                outcome
            }
            Err(number) => Outcome::Refused([number, 0, 0]),
        }
    }

    /// What a frame that 1 to 8 let pass comes to. A refused one lifts and sends nothing.
    fn render(&mut self, state: &State, frame: &Frame) -> Outcome {
        // "leading silence leaves fewer debug rows than ready blocks; there the rules above alone hold"
        let rows = frame.samples / 64 + 1;
        let lifts = lifts(&state.metadata, &frame.applied());
        let before = self.amended.state();
        self.amended.store_debug_rows(rows);
        match self.amended.push(frame) {
            Pushed::Ready(ready) => {
                let renderer = amended::Oracle::in_hall_and_state(&self.hall, &before);
                let (mixed, slots) = renderer.mixed(frame);
                self.read = self.must_be_read() && self.reads(&before, frame, &mixed);
                self.lifted |= lifts;
                self.sent |= sends::any(&slots);
                if self.lifted || self.sent || self.held {
                    self.rust = None;
                }
                self.agrees(frame, &Pushed::Ready(ready.clone()));
                self.metered(state, frame.rate, mixed, ready)
            }
            Pushed::Refused(refusal) => {
                if !lifts {
                    self.agrees(frame, &Pushed::Refused(refusal));
                }
                let [first, second] = refusal.counts;
                Outcome::Refused([refusal.number.into(), first as u32, second as u32])
            }
            Pushed::Panicked => panic!("the oracle panicked at {frame:?}"),
        }
    }

    fn must_be_read(&self) -> bool {
        self.held || !self.setup.is_the_rusts()
    }

    /// What was mixed is what is read in the hall, where it can be read, and the objects are left
    /// where they are read to be.
    fn reads(&mut self, before: &State, frame: &Frame, mixed: &[Vec<f32>]) -> bool {
        let Some(read) = halls::mixed(&self.hall, before, frame) else {
            return false;
        };
        self.effects = read.effects;
        let after = self.amended.state().metadata;
        assert!(holds::same_sources(&read.metadata, &after), "{frame:?}");
        for (channel, (mixed, read)) in mixed.iter().zip(&read.channels).enumerate() {
            assert!(all_same(mixed, read), "{:?}, channel {channel}", self.setup);
        }
        true
    }

    /// The unchanged Rust, where it is there, has the frame come to the same.
    fn agrees(&mut self, frame: &Frame, pushed: &Pushed) {
        let Some(rust) = &mut self.rust else {
            return;
        };
        rust.store_debug_rows(frame.samples / 64 + 1);
        let found = rust.push(frame);
        let same = match (&found, pushed) {
            (Pushed::Ready(a), Pushed::Ready(b)) => all_same(&a.concat(), &b.concat()),
            _ => found == *pushed,
        };
        assert!(same, "the unchanged Rust differs at {frame:?}");
    }

    /// What a call at that stride comes to.
    pub fn step(&mut self, step: &Step, stride: usize) -> Outcome {
        match step {
            Step::Push(call) => self.push(call, stride),
            Step::Flush => self.flush(),
            Step::Reset => self.reset(),
            Step::Make(_) | Step::MakeWith(..) => self.make(step),
            Step::Hold(object) => self.mark(*object, true),
            Step::Release(object) => self.mark(*object, false),
        }
    }

    pub fn flush(&mut self) -> Outcome {
        let state = self.state();
        let flushed = self.amended.flush();
        if let Some(rust) = &mut self.rust {
            let (a, b) = (rust.flush(), flushed.clone());
            let same = all_same(
                &a.unwrap_or_default().concat(),
                &b.unwrap_or_default().concat(),
            );
            assert!(same, "the unchanged Rust differs at a flush");
        }
        let Some(ready) = flushed else {
            return Outcome::Nothing;
        };
        let none = vec![Vec::new(); ready.len()];
        self.metered(&state, state.sample_rate.unwrap(), none, ready)
    }

    /// What the oracle gave, with what its limiter met: behind the samples that waited in `state`
    /// stand the call's own. The reading must make the oracle's samples and gain of them.
    fn metered(
        &self,
        state: &State,
        rate: u32,
        own: Vec<Vec<f32>>,
        ready: Vec<Vec<f32>>,
    ) -> Outcome {
        let pairs = state.limiter_pending.iter().zip(&own).zip(&ready);
        let given = pairs.map(|((pending, own), ready)| {
            let met = [&pending[..], own].concat();
            met[..ready.len()].to_vec()
        });
        let limited = Limited::of(given.collect(), state.limiter_gain, rate);
        let samples = limited.channels.iter().zip(&ready);
        assert!(samples.into_iter().all(|(a, b)| all_same(a, b)));
        assert!(same(limited.next, self.state().limiter_gain));
        Outcome::Ready(ready, limited.meters)
    }

    /// Layout and table stay.
    pub fn reset(&mut self) -> Outcome {
        self.amended.reset();
        assert_eq!(self.amended.hall(), self.hall);
        if let Some(rust) = &mut self.rust {
            rust.reset();
        } else if self.setup.is_the_rusts() {
            self.rust = Some(Oracle::new());
        }
        (self.lifted, self.sent, self.held) = (false, false, false);
        self.waits.clear();
        self.before = 0;
        Outcome::New(self.setup)
    }

    /// Document 02's R-11: 24, else a mark. "From a hold to the next reset these rules take the Rust's
    /// place."
    pub fn mark(&mut self, object: u32, wanted: bool) -> Outcome {
        let metadata = self.amended.state().metadata;
        let Some(source) = holds::object(&metadata, object) else {
            return Outcome::Refused([24, 0, 0]);
        };
        self.held |= wanted;
        if self.held {
            self.rust = None;
        }
        let object = object as usize;
        self.amended.want(object, wanted);
        Outcome::Marked((source.wanted != wanted).then_some((object, wanted)))
    }

    /// Document 02's: 15 to 18, else a new renderer.
    pub fn make(&mut self, step: &Step) -> Outcome {
        let number = step.made();
        if number != 0 {
            return Outcome::Refused([number, 0, 0]);
        }
        // A making call's hall is its own.
        let setup = step.setup(&[]);
        *self = Model::in_hall(&setup);
        Outcome::New(setup)
    }
}
