// SPDX-License-Identifier: Apache-2.0
//! As many samples out as in, in their order, after the delay that is told.

use crate::draw::Draw;
use voqlisna::*;

/// A renderer whose center channel has the numbers of its samples, counted from 1, over 2^20.
struct Counting {
    renderer: Renderer,
    out: Output,
    count: u32,
    update: Vec<u8>,
}

fn numbered(count: u32) -> f32 {
    count as f32 / (1 << 20) as f32
}

impl Counting {
    fn new() -> Self {
        let mut memory = [0; MetadataWriter::bytes_for(1, &[1])];
        let mut writer = MetadataWriter::new(&mut memory);
        let update = Update {
            at: 0,
            objects: 1,
            fixed: 1,
            beds: &[Bed::Center],
        };
        writer
            .update(update)
            .unwrap()
            .element(&[Block::default()], |_, _| Object::KEEP.gain(1.0))
            .unwrap();
        let update = writer.finish().as_bytes().to_vec();
        let (renderer, out) = (
            Renderer::new(Layout::Hall714).unwrap(),
            Output::new(Stride::MAX),
        );
        let mut new = Self {
            renderer,
            out,
            count: 0,
            update,
        };
        // The gain of 1 holds from the second slot on.
        new.push(&[0.0; 64]);
        new.push(&[0.0; 64]);
        new
    }

    fn push(&mut self, pcm: &[f32]) -> Rendered<'_> {
        let metadata = std::mem::take(&mut self.update);
        let pcm = Pcm::packed(pcm, 1).unwrap();
        let frame = Frame::new(
            Rate::HZ_48000,
            &[Bed::Center],
            pcm,
            Metadata::from_records(&metadata),
        )
        .unwrap();
        self.renderer.push(&frame, &mut self.out).unwrap()
    }

    fn next(&mut self, samples: usize) -> Rendered<'_> {
        let pcm: Vec<f32> = (1..=samples as u32)
            .map(|k| numbered(self.count + k))
            .collect();
        self.count += samples as u32;
        self.push(&pcm)
    }
}

/// Callbacks of these lengths through `steady`: never dry, and the numbers in their order behind
/// the delay.
fn runs<M: Floats>(mut steady: Steady<M>, lengths: impl Iterator<Item = usize>, name: &str) {
    let (mut source, mut heard, mut to) = (Counting::new(), 0, vec![0.0; 2 * 2000]);
    for samples in lengths {
        steady.put(&source.next(samples)).unwrap();
        let taken = steady.take_interleaved(&[Speaker::Bass, Speaker::Center], samples, &mut to);
        assert_eq!(taken, samples, "{name} ran dry after {heard}");
        for pair in to[..2 * samples].chunks_exact(2) {
            let expected = numbered((heard + 1u32).saturating_sub(steady.latency() as u32));
            assert_eq!(pair, [0.0, expected], "{name}: sample {heard}");
            heard += 1;
        }
    }
}

#[test]
fn a_fixed_callback_never_runs_dry() {
    for (samples, latency) in [
        (480, 32),
        (512, 0),
        (64, 0),
        (441, 63),
        (1, 63),
        (96, 32),
        (1470, 62),
        (1536, 0),
    ] {
        let steady = Steady::fixed(samples).unwrap();
        assert_eq!(steady.latency(), latency, "{samples}");
        runs(
            steady,
            std::iter::repeat_n(samples, 300),
            &format!("{samples}"),
        );
    }
}

#[test]
fn a_fixed_delay_is_the_least() {
    for samples in [480, 441, 96] {
        let (mut source, mut ready) = (Counting::new(), 0);
        let lacking = (1..=64).map(|k| {
            ready += source.next(samples).ready();
            k * samples - ready
        });
        assert_eq!(
            lacking.max(),
            Some(Steady::fixed(samples).unwrap().latency()),
            "{samples}"
        );
    }
}

#[test]
fn a_changing_callback_never_runs_dry() {
    let mut draw = Draw::new(7, 0);
    let lengths: Vec<usize> = (0..2000).map(|_| 1 + draw.below(700)).collect();
    runs(
        Steady::up_to(700).unwrap(),
        lengths.into_iter(),
        "up to 700",
    );
    let mut memory = vec![f32::NAN; Steady::<&mut [f32]>::places_for(300).unwrap()];
    runs(
        Steady::up_to_over(&mut memory[..], 300).unwrap(),
        (0..500).map(|k| 1 + k % 300),
        "lent",
    );
}

/// What a 7.1.4 renderer has left in the ring is not heard when a smaller one goes on.
#[test]
fn a_channel_that_the_layout_lacks_is_silent() {
    let mut memory = [0; MetadataWriter::bytes_for(1, &[1])];
    let mut writer = MetadataWriter::new(&mut memory);
    let update = Update {
        at: 0,
        objects: 1,
        fixed: 0,
        beds: &[],
    };
    let wide = Object::at(Room::CENTER).gain(1.0).size(1.0);
    let written = writer.update(update).unwrap();
    written.element(&[Block::default()], |_, _| wide).unwrap();
    let update = writer.finish();
    let (mut steady, mut out) = (Steady::fixed(128).unwrap(), Output::new(Stride::MAX));
    let mut to = [0.0; 12 * 128];
    for layout in Layout::ALL.into_iter().cycle().take(12) {
        let mut renderer = Renderer::new(layout).unwrap();
        let pcm = Pcm::packed(&[1.0; 128], 1).unwrap();
        let frame = Frame::new(Rate::HZ_48000, &[], pcm, update).unwrap();
        steady
            .put(&renderer.push(&frame, &mut out).unwrap())
            .unwrap();
        assert_eq!(steady.take_interleaved(&Speaker::ALL, 128, &mut to), 128);
        for (speaker, x) in Speaker::ALL.into_iter().zip(&to[12 * 127..]) {
            let heard = layout.has(speaker) && speaker != Speaker::Bass;
            assert_eq!(heard, *x != 0.0, "{layout}: {speaker} {x}");
        }
    }
}

#[test]
fn what_does_not_fit_is_told() {
    assert_eq!(
        Steady::fixed(65_537).err(),
        Some(ShapeError::Samples {
            got: 65_537,
            most: 65_536
        })
    );
    assert_eq!(
        Steady::fixed_over(&mut [0.0; 9][..], 64).err(),
        Some(ShapeError::Memory { needed: 12 * 192 })
    );
    let (mut source, mut steady) = (Counting::new(), Steady::fixed(64).unwrap());
    for held in [64, 128, 192] {
        steady.put(&source.next(64)).unwrap();
        assert_eq!(steady.held(), held);
    }
    assert_eq!(
        steady.put(&source.next(64)),
        Err(ShapeError::Memory { needed: 256 })
    );
    let mut to = [0.0; 500];
    assert_eq!(
        steady.take_interleaved(&[Speaker::Center], 500, &mut to),
        192
    );
    assert_eq!(steady.take_interleaved(&[Speaker::Center], 500, &mut to), 0);
}
