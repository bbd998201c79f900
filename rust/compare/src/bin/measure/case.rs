//! What is timed: a stream of pushes that are alike.

use compare::Generator;
use compare::calls::Call;
use oracle::Input;
use oracle::frame::{Block, Element, Frame, Object, Update};

/// Samples between two updates of objects that move: 24 slots.
pub const PERIOD: usize = 1_536;
/// Timed frames that differ, at most: all where a push has 64 samples or more.
const FRAMES: usize = 48;
const BEDS: [u8; 10] = [0, 1, 2, 3, 4, 5, 9, 10, 11, 12];

#[derive(Clone, Copy, PartialEq)]
pub enum Updates {
    /// None after the first push.
    Still,
    /// One every 1,536 samples, with three ramps of 512; slots and limiter blocks are in step.
    Moving,
    /// The same, so many samples out of step: each limiter block cuts a slot in two.
    Askew(usize),
    /// One at offset 0 of each push.
    Each { elements: usize, blocks: usize },
}

#[derive(Clone, Copy, PartialEq)]
pub struct Case {
    /// Samples of a push.
    pub samples: usize,
    pub objects: usize,
    pub beds: usize,
    pub updates: Updates,
    /// 4 MB of other data are gone through before each push.
    pub cold: bool,
    /// Of every object, to the bass feed.
    pub send: f32,
}

/// The same frames as each side takes them.
pub struct Inputs {
    pub frames: Vec<Frame>,
    pub calls: Vec<Call>,
    pub rust: Vec<Input>,
    /// Which of them is pushed when.
    pub order: Vec<usize>,
}

impl Inputs {
    pub fn new(frames: Vec<Frame>, order: Vec<usize>) -> Self {
        Inputs {
            order,
            calls: frames.iter().map(Call::from).collect(),
            rust: frames.iter().map(Input::new).collect(),
            frames,
        }
    }
}

impl Case {
    /// Timed pushes of a run.
    pub fn pushes(&self) -> usize {
        let alike = self.cold || matches!(self.updates, Updates::Each { .. });
        match (alike, self.samples) {
            (true, samples) => (2 * PERIOD / samples).min(16),
            (_, 1) => PERIOD / 4,
            (_, samples) => 2 * PERIOD / samples,
        }
    }

    /// The timed pushes, and before them one that starts the stream. A few frames come round again
    /// where pushes are many, so that the inputs stay in the second-level cache.
    pub fn inputs(&self) -> Inputs {
        let mut inputs = Generator::new(9);
        let lead = match self.updates {
            Updates::Askew(by) => 128 + by,
            _ => 128,
        };
        let mut frames = vec![self.frame(&mut inputs, lead, Some(0))];
        for k in 0..self.pushes().min(FRAMES) {
            let from = k * self.samples;
            let offset = match self.updates {
                Updates::Still => None,
                Updates::Moving | Updates::Askew(_) => Some(from.next_multiple_of(PERIOD) - from),
                Updates::Each { .. } => Some(0),
            };
            let offset = offset.filter(|&offset| offset < self.samples);
            frames.push(self.frame(&mut inputs, self.samples, offset));
        }
        // The first two have what starts the stream and what moves.
        let again = |k: usize| if k < 2 { k } else { 2 + (k - 2) % (FRAMES - 1) };
        Inputs::new(frames, (0..=self.pushes()).map(again).collect())
    }

    fn frame(&self, inputs: &mut Generator, samples: usize, offset: Option<usize>) -> Frame {
        let length = (self.beds + self.objects) * samples;
        Frame {
            rate: 48_000,
            samples,
            beds: BEDS[..self.beds].to_vec(),
            objects: self.objects,
            pcm: (0..length).map(|_| inputs.between(-0.05, 0.05)).collect(),
            updates: offset
                .map(|at| self.update(inputs, at))
                .into_iter()
                .collect(),
        }
    }

    fn update(&self, inputs: &mut Generator, offset: usize) -> Update {
        let (elements, blocks, span) = match self.updates {
            Updates::Still => (1, 1, 0),
            Updates::Moving | Updates::Askew(_) => (1, 3, 512),
            Updates::Each { elements, blocks } => (elements, blocks, self.samples / blocks),
        };
        Update {
            offset: offset as u16,
            ..self.update_of(inputs, &vec![blocks; elements], span)
        }
    }

    /// At offset 0, with elements of so many blocks, each of which has a ramp to the next, so many
    /// samples on.
    pub fn update_of(&self, inputs: &mut Generator, elements: &[usize], span: usize) -> Update {
        let objects = self.beds + self.objects;
        let mut object = |o: usize| Object {
            position_valid: o >= self.beds,
            gain: Some(0.7),
            position: (o >= self.beds).then(|| std::array::from_fn(|_| inputs.between(0.0, 1.0))),
            size: Some(0.0),
            send: self.send,
            ..Object::default()
        };
        let mut element = |&blocks: &usize| Element {
            blocks: (0..blocks)
                .map(|b| Block {
                    offset: (span * b) as i64,
                    ramp: span as i64,
                })
                .collect(),
            objects: (0..objects)
                .map(|o| (0..blocks).map(|_| object(o)).collect())
                .collect(),
        };
        Update {
            offset: 0,
            objects: objects as u8,
            bed_or_isf_objects: self.beds as u8,
            beds: BEDS[..self.beds].to_vec(),
            elements: elements.iter().map(&mut element).collect(),
        }
    }
}
