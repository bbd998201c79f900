// SPDX-License-Identifier: Apache-2.0
//! Random runs once through the crate and once through the entries: the same answers, blocks and
//! samples.

use crate::draw::{Draw, Owned, Scene, damage};
use crate::raw;
use voqlisna::sys::Answer;
use voqlisna::*;

const RUNS: u64 = 1_500;
const CALLS: usize = 12;

struct Pair {
    renderer: Renderer,
    out: Vec<f32>,
    block: Vec<u8>,
    raw: Vec<u8>,
    stride: Stride,
}

/// As the entry would say it.
fn told(result: Result<&Rendered<'_>, &Refusal>) -> Answer {
    let (kind, number, (first, second)) = match result {
        Ok(_) => (0, 0, (0, 0)),
        Err(refusal) => (1, refusal.number(), refusal.counts()),
    };
    Answer {
        kind,
        number,
        first,
        second,
        ready: result.map_or(0, Rendered::ready),
        peak: result.map_or(0.0, Rendered::peak),
        gain: result.map_or(1.0, Rendered::gain),
    }
}

impl Pair {
    fn new(layout: Layout, table: &HallTable, stride: Stride) -> Self {
        let places = 12 * stride.samples();
        Self {
            renderer: Renderer::with_table(layout, table).unwrap(),
            out: vec![3.5; places],
            block: raw::fresh_with(layout, table),
            raw: 3.5f32.to_le_bytes().repeat(places),
            stride,
        }
    }

    fn push(&mut self, frame: &Frame<'_>) -> Answer {
        let mut out = Output::over(&mut self.out[..], self.stride).unwrap();
        let rendered = self.renderer.push(frame, &mut out);
        let safe = told(rendered.as_ref());
        rendered.iter().for_each(reads_all_alike);
        let entry = raw::push(
            &mut self.block,
            frame,
            &mut self.raw,
            self.stride.samples() as u32,
        );
        assert_eq!(safe, entry);
        entry
    }

    fn flush(&mut self) -> Answer {
        let mut out = Output::over(&mut self.out[..], self.stride).unwrap();
        let rendered = self.renderer.flush(&mut out);
        rendered.iter().for_each(reads_all_alike);
        let entry = raw::flush(&mut self.block, &mut self.raw, self.stride.samples() as u32);
        let nothing = Answer {
            kind: 2,
            ..raw::DONE
        };
        let safe = rendered.map_or(nothing, |rendered| told(Ok(&rendered)));
        assert_eq!(safe, entry);
        entry
    }

    fn reset(&mut self) -> Answer {
        self.renderer.reset();
        let entry = raw::reset(&mut self.block);
        assert_eq!(entry, raw::DONE);
        entry
    }

    /// Holds or releases an object.
    fn mark(&mut self, object: u32, held: bool) -> Answer {
        let renderer = &mut self.renderer;
        let (safe, entry) = match held {
            true => (renderer.hold(object), raw::hold(&mut self.block, object)),
            false => (
                renderer.release(object),
                raw::release(&mut self.block, object),
            ),
        };
        assert_eq!(safe.err(), Refusal::from_answer(entry));
        let kept = Answer {
            kind: entry.kind,
            number: entry.number,
            ..raw::DONE
        };
        assert_eq!((entry, [1, 3].contains(&entry.kind)), (kept, true));
        assert!(safe.is_err() || self.renderer.is_held(object) == held);
        entry
    }

    /// What the layout lacks is as it was.
    fn same(&self) -> bool {
        let layout = self.renderer.layout();
        let rows = self.out.chunks(self.stride.samples()).zip(Speaker::ALL);
        let kept = |(row, speaker): (&[f32], Speaker)| {
            layout.has(speaker) || row.iter().all(|x| *x == 3.5)
        };
        let words = self
            .raw
            .chunks_exact(4)
            .map(|b| u32::from_le_bytes(b.try_into().unwrap()));
        let same = self.out.iter().map(|x| x.to_bits()).eq(words);
        self.renderer.block() == self.block && same && rows.into_iter().all(kept)
    }
}

/// The ways to read an answer tell the same samples, of the channels of the layout.
fn reads_all_alike(rendered: &Rendered<'_>) {
    let (ready, speakers) = (rendered.ready(), rendered.layout().speakers());
    let width = speakers.len();
    let mut interleaved = vec![9.0; width * ready + 1];
    assert_eq!(
        rendered.interleave_into(&mut interleaved),
        Ok(width * ready)
    );
    assert_eq!(interleaved.pop(), Some(9.0));
    let mut packed = vec![9.0; 12 * ready + 1];
    assert_eq!(rendered.pack_into(&mut packed), Ok(12 * ready));
    assert_eq!(packed.pop(), Some(9.0));
    assert!(
        rendered
            .channels()
            .map(|(speaker, _)| speaker)
            .eq(speakers.iter().copied())
    );
    for (k, (speaker, channel)) in rendered.channels().enumerate() {
        assert_eq!(channel.len(), ready);
        assert!(std::ptr::eq(channel, rendered.channel(speaker)));
        let bits = |x: &f32| x.to_bits();
        let column = interleaved.iter().skip(k).step_by(width);
        assert!(column.map(bits).eq(channel.iter().map(bits)), "{speaker}");
        let row = packed[speaker.channel() * ready..][..ready].iter();
        assert!(row.map(bits).eq(channel.iter().map(bits)), "{speaker}");
    }
    let lacks = |speaker: &Speaker| !rendered.layout().has(*speaker);
    for speaker in Speaker::ALL.into_iter().filter(lacks) {
        assert!(rendered.channel(speaker).is_empty());
        let row = &packed[speaker.channel() * ready..][..ready];
        assert!(row.iter().all(|x| x.to_bits() == 0), "{speaker}");
    }
}

/// A frame of the scene, at times with a fault.
fn drawn(draw: &mut Draw, scene: &Scene, stride: Stride) -> Owned {
    let samples = draw.below(stride.samples() + 1);
    let mut owned = scene.frame(draw, samples);
    match draw.below(12) {
        0 => damage(draw, &mut owned.metadata),
        1 if !owned.pcm.is_empty() => {
            let place = draw.below(owned.pcm.len());
            owned.pcm[place] = draw.pick(&[f32::NAN, f32::NEG_INFINITY, 16.1]);
        }
        2 => owned = Scene::draw(draw).frame(draw, stride.samples()),
        3 => owned = scene.frame(draw, (stride.samples() + 1).min(1536)),
        4 => {
            owned = Scene {
                beds: vec![Bed::RearCenter],
                ..*scene
            }
            .frame(draw, samples)
        }
        _ => {}
    }
    owned
}

#[test]
fn the_crate_answers_as_the_entries_do() {
    let (mut met, mut ready, mut limited, mut marked) = ([0; 26], 0, 0, 0);
    for case in 0..RUNS {
        let mut draw = Draw::new(1, case);
        let (scene, stride) = (
            Scene::draw(&mut draw),
            Stride::new(draw.pick(&[64, 256, 512, 1536])).unwrap(),
        );
        let layout = draw.pick(&Layout::ALL);
        let mut pair = Pair::new(layout, &draw.table(), stride);
        for call in 0..CALLS {
            let answer = match draw.below(16) {
                0 => pair.reset(),
                1 => pair.flush(),
                2..=5 => {
                    let object = match draw.below(8) {
                        0 => draw.word() as u32,
                        _ => draw.below(scene.objects + 1) as u32,
                    };
                    let answer = pair.mark(object, draw.once_in(2));
                    marked += u32::from(answer.kind == 3);
                    answer
                }
                _ => pair.push(&drawn(&mut draw, &scene, stride).frame()),
            };
            assert!(pair.same(), "run {case}, call {call}, {layout}: {answer:?}");
            met[answer.number as usize] += 1;
            ready += answer.ready;
            limited += u32::from(answer.peak > 1.0 && answer.gain < 1.0);
        }
    }
    println!(
        "answers by refusal {met:?}, {ready} samples ready, {limited} calls limited, {marked} holds and releases"
    );
    assert!(ready > 1_000_000 && limited > 100 && marked > 1_000);
    for number in [0, 2, 5, 6, 8, 9, 10, 11, 12, 13, 14, 24] {
        assert!(met[number] > 0, "{number} was not met: {met:?}");
    }
    assert_eq!((met[1], met[3]), (0, 0), "what this crate cannot cause");
}
