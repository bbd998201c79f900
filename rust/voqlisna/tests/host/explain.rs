// SPDX-License-Identifier: Apache-2.0
//! Any arguments straight into the entry: what `Arguments::explain` names behind a refusal by 1, 2,
//! 5, 6 or 8 is the reason, since mending it, and nothing else, takes that reason away.

use crate::draw::{Draw, Scene, damage};
use crate::raw;
use voqlisna::*;

const CASES: u64 = 6_000;

/// The arguments of a push, with their memory.
struct Call {
    state: Vec<u8>,
    out: Vec<u8>,
    pcm: Vec<u8>,
    metadata: Vec<u8>,
    codes: Vec<u8>,
    samples: u32,
    objects: u32,
    stride: u32,
}

impl Call {
    /// A good one.
    fn draw(draw: &mut Draw) -> Self {
        let (scene, stride) = (Scene::draw(draw), draw.pick(&[64, 128, 1536]));
        let owned = scene.frame(draw, stride.min(100));
        Self {
            state: raw::fresh(Layout::Hall714),
            out: vec![0; 48 * stride],
            pcm: owned.frame().pcm().as_bytes().to_vec(),
            metadata: owned.metadata,
            codes: owned.beds.iter().map(|bed| bed.code()).collect(),
            samples: stride.min(100) as u32,
            objects: scene.objects as u32,
            stride: stride as u32,
        }
    }

    /// Makes one argument wrong.
    fn spoil(&mut self, draw: &mut Draw) {
        match draw.below(13) {
            0 => self.stride = draw.pick(&[0, 1, 100, 1600, u32::MAX]),
            1 => self.out.truncate(draw.below(48 * 64)),
            2 => self.state.truncate(draw.below(sys::STATE_SIZE)),
            3 => self.state.push(0),
            4 if self.state.len() > sys::WAITS_AT => {
                self.state[draw.pick(&[4, 64, sys::WAITS_AT])] = 64;
            }
            5 => self.samples = draw.pick(&[0, 101, 1537, u32::MAX]),
            6 => self.codes = vec![2; draw.pick(&[19, 40, 300])],
            7 => self.objects = draw.pick(&[17, 1000, u32::MAX]),
            8 => self.codes.push(18 + draw.below(238) as u8),
            9 => self.pcm.truncate(draw.below(self.pcm.len() + 1)),
            10 => (self.codes.clear(), self.pcm.clear(), self.objects = 0).2,
            11 if self.pcm.len() >= 4 => {
                let at = draw.below(self.pcm.len() / 4) * 4;
                let value = draw.pick(&[16.1, -17.0, f32::NAN]);
                self.pcm[at..at + 4].copy_from_slice(&value.to_le_bytes());
            }
            _ => damage(draw, &mut self.metadata),
        }
    }

    fn arguments(&self) -> Arguments<'_> {
        Arguments {
            state_length: self.state.len(),
            out_length: self.out.len(),
            pcm: &self.pcm,
            metadata: &self.metadata,
            codes: &self.codes,
            samples: self.samples,
            objects: self.objects,
            stride: self.stride,
        }
    }

    /// The refusal and its cause, if there is one.
    fn push(&mut self) -> Option<(Refusal, Option<Cause>)> {
        let (mut state, mut out) = (self.state.clone(), self.out.clone());
        let answer = raw::push_any(&mut state, &self.arguments(), 48_000, &mut out);
        let refusal = Refusal::from_answer(answer)?;
        assert!(
            state == self.state && out == self.out,
            "a refused call changes nothing"
        );
        Some((refusal, self.arguments().explain(refusal)))
    }

    /// Mends the argument that is named; a record by leaving out all metadata.
    fn mend(&mut self, cause: Cause) {
        match cause {
            Cause::Argument(Argument::Stride(_)) => self.stride = 1536,
            Cause::Argument(Argument::Output { needed, .. }) => self.out.resize(needed, 0),
            Cause::Argument(Argument::StateLength { .. } | Argument::StateField) => {
                self.state = raw::fresh(Layout::Hall714)
            }
            Cause::Argument(Argument::Samples { most, .. }) => self.samples = most,
            Cause::Argument(Argument::Beds(_)) => self.codes.truncate(18),
            Cause::Argument(Argument::Objects(_)) => self.objects = 16,
            Cause::Argument(Argument::Code { index, .. }) => self.codes[index] = 17,
            Cause::Argument(Argument::Pcm { needed, .. }) => self.pcm.resize(needed, 0),
            Cause::Argument(Argument::NoChannel) => self.samples = 0,
            Cause::Record(_) => self.metadata.clear(),
            Cause::Sample {
                channel, sample, ..
            } => {
                let at = 4 * (channel * self.samples as usize + sample);
                self.pcm[at..at + 4].fill(0);
            }
            other => panic!("{other:?}"),
        }
    }
}

#[test]
fn what_is_named_is_the_reason() {
    let (mut named, mut causes) = ([0; 16], std::collections::HashSet::new());
    for case in 0..CASES {
        let mut draw = Draw::new(4, case);
        let mut call = Call::draw(&mut draw);
        for _ in 0..1 + draw.below(2) {
            call.spoil(&mut draw);
        }
        let mut last = None;
        while let Some((refusal, cause)) = call.push() {
            let number = refusal.number() as usize;
            assert_eq!(
                cause.is_some(),
                matches!(number, 1 | 2 | 5 | 6 | 8),
                "case {case}: {refusal}"
            );
            let Some(cause) = cause else { break };
            assert!(
                last != Some(cause) && !cause.to_string().is_empty(),
                "case {case}: {cause} again"
            );
            if let Cause::Argument(argument) = cause {
                causes.insert(std::mem::discriminant(&argument));
            }
            named[number] += 1;
            last = Some(cause);
            call.mend(cause);
        }
    }
    println!("named by refusal {named:?}");
    assert!(
        [1, 2, 5, 6, 8].iter().all(|number| named[*number] > 50),
        "{named:?}"
    );
    assert_eq!(causes.len(), 10, "every Argument");
}
