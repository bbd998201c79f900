//! A host: the memory that the calls of a run are lent, and what must stand in it after each call.

use crate::block::AREA;
use crate::calls::{Call, Step};
use crate::entry::{self, Answer, BLOCK, same_answer};
use crate::model::{Model, Outcome, STREAM_END, waits};
use crate::setup::Setup;
use crate::{Frames, Generator, block, same, tables};

/// What making with the built-in table makes of any block.
pub fn fresh(layout: u32) -> Vec<u8> {
    let mut state = vec![0xa5; BLOCK];
    let answer = entry::make(&mut state, layout);
    let made = Outcome::New(Setup::built_in(layout)).answer();
    assert!(same_answer(answer, made), "{answer:?}");
    state
}

/// A block after some calls, of one layout after the other, one in two with a table of its own.
pub fn used_block(seed: u64) -> Vec<u8> {
    let mut setup = Setup::built_in(seed as u32 % 4);
    if seed / 4 % 2 == 1 {
        setup.table = tables::accepted(&mut Generator::new(seed));
    }
    let mut host = Host::in_hall(256, &setup);
    let mut frames = Frames::new(seed, 256);
    for _ in 0..6 {
        let call = Call::from(&frames.next_frame());
        entry::push(&mut host.state, &call, &mut host.out, 256);
    }
    host.state
}

/// `found` is `before` with the ready samples written into it; all NaNs are equal.
pub fn only_ready_is_written(
    found: &[u8],
    before: &[u8],
    outcome: &Outcome,
    stride: usize,
) -> bool {
    let mut expected = before.to_vec();
    if let Outcome::Ready(channels, _) = outcome {
        for (c, channel) in channels.iter().enumerate() {
            for (i, &x) in channel.iter().enumerate() {
                let at = 4 * (c * stride + i);
                let word: [u8; 4] = found[at..at + 4].try_into().unwrap();
                let written = if same(f32::from_le_bytes(word), x) {
                    word
                } else {
                    x.to_le_bytes()
                };
                expected[at..at + 4].copy_from_slice(&written);
            }
        }
    }
    found == expected
}

/// One run's memory.
pub struct Host {
    pub state: Vec<u8>,
    pub out: Vec<u8>,
    pub stride: usize,
}

impl Host {
    /// A new renderer of layout 0.
    pub fn new(stride: usize) -> Self {
        Host::in_layout(stride, 0)
    }

    /// A new renderer of that layout.
    pub fn in_layout(stride: usize, layout: u32) -> Self {
        Host::in_hall(stride, &Setup::built_in(layout))
    }

    /// A new renderer in that hall.
    pub fn in_hall(stride: usize, setup: &Setup) -> Self {
        Host {
            state: setup.fresh(),
            out: vec![0x5a; 48 * stride],
            stride,
        }
    }

    /// A call that must come out so.
    pub fn calls(
        &mut self,
        outcome: &Outcome,
        call: impl FnOnce(&mut [u8], &mut [u8], u32) -> Answer,
        name: &str,
    ) {
        let (state, out) = (self.state.clone(), self.out.clone());
        let answer = call(&mut self.state, &mut self.out, self.stride as u32);
        let expected = outcome.answer();
        assert!(
            same_answer(answer, expected),
            "{name}: {answer:?}, not {expected:?}"
        );
        assert!(
            only_ready_is_written(&self.out, &out, outcome, self.stride),
            "{name}: {answer:?}: the output"
        );
        match outcome {
            Outcome::Refused(_) | Outcome::Nothing | Outcome::Marked(None) => {
                assert!(self.state == state, "{name}: {answer:?}: the block");
            }
            Outcome::Marked(Some((object, wanted))) => {
                let marked = block::marked(&state, *object, *wanted);
                assert!(block::same_words(&self.state, &marked), "{name}: the mark");
            }
            Outcome::Ready(..) | Outcome::New(_) => (),
        }
    }

    /// A call that must come out as the model has it.
    pub fn step(&mut self, model: &mut Model, step: &Step, name: &str) -> Outcome {
        let outcome = model.step(step, self.stride);
        self.calls(&outcome, |s, o, n| step.call(s, o, n), name);
        if let Outcome::New(setup) = &outcome {
            assert!(self.state == setup.fresh(), "{name}");
        }
        outcome
    }

    pub fn push(&mut self, model: &mut Model, call: &Call, name: &str) -> Outcome {
        let outcome = model.push(call, self.stride);
        self.calls(&outcome, |s, o, n| entry::push(s, call, o, n), name);
        outcome
    }

    /// Moves a renderer to so many samples before the stream's end.
    pub fn move_on(&mut self, model: &mut Model, room: u64) {
        let position = model.state().stream_sample_offset as u64;
        model.move_on(STREAM_END - room - position);
        // Position, slot start, payload position, and those of the updates that wait.
        let waits = (0..model.waits().len()).map(|k| AREA + waits::POSITIONS + 8 * k);
        for at in [8, 16, 72].into_iter().chain(waits) {
            let number: &mut [u8; 8] = (&mut self.state[at..at + 8]).try_into().unwrap();
            *number = (u64::from_le_bytes(*number) + model.before).to_le_bytes();
        }
    }
}
