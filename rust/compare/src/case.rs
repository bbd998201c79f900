// SPDX-License-Identifier: Apache-2.0
//! One call with all its arguments, whatever they are, and what must come of it.

use crate::calls::Step;
use crate::entry::{Answer, BLOCK, same_answer};
use crate::host::only_ready_is_written;
use crate::model::{Model, Outcome, holds, judged, rightly_lent, waits};
use crate::setup::Setup;
use crate::{block, ranges};

/// All arguments of one call.
pub struct Case {
    pub state: Vec<u8>,
    pub out: Vec<u8>,
    pub stride: u32,
    pub step: Step,
}

/// What the host sees after it.
pub struct Seen {
    pub answer: Answer,
    pub state: Vec<u8>,
    pub out: Vec<u8>,
}

impl Case {
    /// The call, made.
    pub fn called(&self) -> Seen {
        let (mut state, mut out) = (self.state.clone(), self.out.clone());
        let answer = self.step.call(&mut state, &mut out, self.stride);
        Seen { answer, state, out }
    }

    /// The refusal among 1 to 8 but 7, 15 to 18, 24 and 25, by a reading that needs no Rust; else 0.
    pub fn early(&self) -> u32 {
        let lent = || rightly_lent(&self.state, self.out.len(), self.stride);
        match &self.step {
            _ if self.state.len() != BLOCK => 1,
            step @ (Step::Make(_) | Step::MakeWith(..)) => step.made(),
            Step::Reset => u32::from(!Setup::of_block(&self.state).holds()),
            Step::Hold(_) | Step::Release(_) if !ranges::hold(&self.state) => 1,
            Step::Hold(object) | Step::Release(object) => {
                let metadata = block::state(&self.state).metadata;
                match holds::object(&metadata, *object) {
                    Some(_) => 0,
                    None => 24,
                }
            }
            _ if !lent() => 1,
            Step::Flush => 0,
            Step::Push(call) => {
                let state = block::state(&self.state);
                let waits = waits::read(&self.state, state.stream_sample_offset as u64).unwrap();
                let judged = judged(&state, 0, &waits, call, self.stride as usize);
                judged.err().unwrap_or(0)
            }
        }
    }

    /// What the documents and the Rust have it come to, with the renderer that it leaves.
    fn expected(&self) -> (Outcome, Option<Model>) {
        match (self.early(), &self.step) {
            (0, step @ (Step::Reset | Step::Make(_) | Step::MakeWith(..))) => {
                (Outcome::New(step.setup(&self.state)), None)
            }
            (0, step) => {
                let mut model = Model::of_block(&self.state);
                (model.step(step, self.stride as usize), Some(model))
            }
            (number, _) => (Outcome::Refused([number, 0, 0]), None),
        }
    }

    /// The same, as it must be in what was seen: the answer with its counts, the output, and the
    /// renderer in the block.
    pub fn check(&self, seen: &Seen, name: &str) -> Outcome {
        let (outcome, model) = self.expected();
        let (found, expected) = (seen.answer, outcome.answer());
        assert!(
            same_answer(found, expected),
            "{name}: {found:?}, not {expected:?}"
        );
        let stride = self.stride as usize;
        let written = only_ready_is_written(&seen.out, &self.out, &outcome, stride);
        assert!(written, "{name}: {outcome:?}: the output");
        match &outcome {
            Outcome::Ready(..) => assert!(ranges::hold(&seen.state), "{name}: the ranges"),
            Outcome::New(setup) => {
                assert!(seen.state == setup.fresh(), "{name}: a new renderer");
            }
            Outcome::Marked(Some((object, wanted))) => {
                let marked = block::marked(&self.state, *object, *wanted);
                assert!(block::same_words(&seen.state, &marked), "{name}: a mark");
                assert!(ranges::hold(&seen.state), "{name}: the ranges");
            }
            _ => assert!(seen.state == self.state, "{name}: {outcome:?}: the block"),
        }
        let differs = model.and_then(|model| model.difference(&seen.state));
        assert_eq!(differs, None, "{name}: the renderer in the block");
        outcome
    }
}
