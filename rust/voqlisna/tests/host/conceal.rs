// SPDX-License-Identifier: Apache-2.0
//! Each way of going on is taken after the refusals that it is for, and moves the clock by the
//! frame's samples; where none is, nothing changes.

use crate::draw::{Draw, Scene};
use voqlisna::*;

const SAMPLES: usize = 256;

struct Stream {
    renderer: Renderer,
    out: Output,
    concealer: Concealer,
    update: Vec<u8>,
    /// Peak and gain of the last frame.
    meters: Option<(f32, f32)>,
}

fn meters(rendered: &Rendered<'_>) -> Option<(f32, f32)> {
    Some((rendered.peak(), rendered.gain()))
}

/// Two channels, a bed and an object, at rest.
const BEDS: [Bed; 1] = [Bed::Center];

fn update(objects: u8, beds: &[Bed]) -> Vec<u8> {
    let mut memory = [0; MetadataWriter::bytes_for(8, &[1])];
    let mut writer = MetadataWriter::new(&mut memory);
    let head = Update {
        at: 0,
        objects,
        fixed: beds.len() as u8,
        beds,
    };
    let place = Object::at(Room {
        x: 0.0,
        y: 1.0,
        z: 0.0,
    })
    .gain(1.0);
    writer
        .update(head)
        .unwrap()
        .element(&[Block::default()], |_, _| place)
        .unwrap();
    writer.finish().as_bytes().to_vec()
}

impl Stream {
    fn new() -> Self {
        let concealer = Concealer::new(Stride::MAX);
        let (renderer, out) = (
            Renderer::new(Layout::Hall714).unwrap(),
            Output::new(Stride::MAX),
        );
        Self {
            renderer,
            out,
            concealer,
            update: update(2, &BEDS),
            meters: None,
        }
    }

    fn started() -> Self {
        let mut stream = Self::new();
        let metadata = stream.update.clone();
        assert_eq!(
            stream.push(&[0.5; 2 * SAMPLES], 2, &metadata),
            Ok((Way::Whole, None))
        );
        stream
    }

    fn position(&self) -> u64 {
        u64::from_le_bytes(self.renderer.block()[8..16].try_into().unwrap())
    }

    /// The way and the refusal, or the refusal for good. The clock must have moved or stood.
    fn push(
        &mut self,
        pcm: &[f32],
        channels: usize,
        metadata: &[u8],
    ) -> Result<(Way, Option<u32>), u32> {
        let pcm = Pcm::packed(pcm, channels).unwrap();
        let frame =
            Frame::new(Rate::HZ_48000, &BEDS, pcm, Metadata::from_records(metadata)).unwrap();
        let (before, block) = (self.position(), self.renderer.block().to_vec());
        let outcome = self
            .renderer
            .push_or_conceal(&frame, &mut self.out, &mut self.concealer);
        self.meters = outcome.as_ref().ok().and_then(|o| meters(&o.rendered));
        let said = outcome
            .map(|o| (o.way, o.refusal.map(Refusal::number)))
            .map_err(Refusal::number);
        match said {
            Ok(_) => assert_eq!(self.position(), before + pcm.samples() as u64),
            Err(_) => assert!(self.renderer.block() == block),
        }
        said
    }
}

#[test]
fn each_refusal_has_its_way() {
    let mut s = Stream::started();
    let (good, update_of_two) = ([0.25; 2 * SAMPLES], s.update.clone());
    let mut nan = good;
    nan[300] = f32::NAN;
    let mut loud = update_of_two.clone();
    loud[160 + 4..160 + 8].copy_from_slice(&9f32.to_le_bytes());
    assert_eq!(s.push(&good, 2, &[7; 40]), Ok((Way::SoundOnly, Some(5))));
    assert_eq!(s.push(&good, 2, &loud), Ok((Way::SoundOnly, Some(6))));
    assert_eq!(
        s.push(&nan, 2, &update_of_two),
        Ok((Way::MetadataOnly, Some(8)))
    );
    assert_eq!(s.push(&nan, 2, &[]), Ok((Way::MetadataOnly, Some(8))));
    assert_eq!(
        s.push(&good, 2, &update(4, &BEDS)),
        Ok((Way::SoundOnly, Some(11)))
    );
    assert_eq!(
        s.push(&good, 2, &update(2, &[Bed::SurroundLeft])),
        Ok((Way::SoundOnly, Some(13)))
    );
    // Another number of objects than the state's: no metadata to leave out, so silence on the
    // channels of before, as often as such a frame comes.
    for _ in 0..2 {
        let silence = Ok((Way::Silence, Some(11)));
        assert_eq!(s.push(&[0.25; 3 * SAMPLES], 3, &[]), silence);
    }
    assert_eq!(s.push(&good, 2, &[]), Ok((Way::Whole, None)));
    // A NaN and metadata that does not fit: the silenced frame is refused too.
    assert_eq!(
        s.push(&nan, 2, &update(4, &BEDS)),
        Ok((Way::Silence, Some(8)))
    );
}

#[test]
fn an_unsupported_bed_is_heard_without_its_update() {
    let mut s = Stream::new();
    let (beds, pcm) = ([Bed::Center, Bed::RearCenter], [0.25; 3 * SAMPLES]);
    let named = [update(2, &BEDS), update(3, &beds)];
    let ways = [
        (Way::Whole, None),
        (Way::SoundOnly, Some(Refusal::BedUnsupported { code: 6 })),
    ];
    for (metadata, (way, refusal)) in named.iter().zip(ways) {
        let pcm = Pcm::packed(&pcm, 3).unwrap();
        let metadata = Metadata::from_records(metadata);
        let frame = Frame::new(Rate::HZ_48000, &beds, pcm, metadata).unwrap();
        let outcome = s
            .renderer
            .push_or_conceal(&frame, &mut s.out, &mut s.concealer)
            .unwrap();
        assert_eq!((outcome.way, outcome.refusal), (way, refusal));
    }
}

#[test]
fn some_are_refused_for_good() {
    let mut s = Stream::new();
    let good = [0.25; 2 * SAMPLES];
    assert_eq!(s.push(&good, 2, &[]), Err(10));
    assert_eq!(
        s.push(&good, 2, &[7; 40]),
        Err(5),
        "no frame was taken before"
    );
    let mut s = Stream::started();
    assert_eq!(s.push(&[], 2, &[]), Err(12));
    let pcm = Pcm::packed(&good, 2).unwrap();
    let other = Frame::new(Rate::new(44_100).unwrap(), &BEDS, pcm, Metadata::NONE).unwrap();
    let refusal = s
        .renderer
        .push_or_conceal(&other, &mut s.out, &mut s.concealer)
        .unwrap_err();
    assert_eq!(
        refusal,
        Refusal::RateChanged {
            expected: 48_000,
            provided: 44_100
        }
    );
    s.out = Output::new(Stride::for_frames_of(64).unwrap());
    assert_eq!(s.push(&good, 2, &[]), Err(2));
    s.concealer.reset();
    s.out = Output::new(Stride::MAX);
    assert_eq!(
        s.push(&[0.25; 3 * SAMPLES], 3, &[]),
        Err(11),
        "nothing is remembered"
    );
}

#[test]
fn concealed_sound_is_what_the_way_says() {
    let mut s = Stream::started();
    let good = [2.0; 2 * SAMPLES];
    let (mut twin, mut out) = (
        Renderer::restore(s.renderer.save(&mut vec![0; Snapshot::size()]).unwrap()).unwrap(),
        Output::new(Stride::MAX),
    );
    s.push(&good, 2, &[7; 40]).unwrap();
    let plain = Frame::new(
        Rate::HZ_48000,
        &BEDS,
        Pcm::packed(&good, 2).unwrap(),
        Metadata::NONE,
    )
    .unwrap();
    let heard = meters(&twin.push(&plain, &mut out).unwrap());
    assert!(
        twin.block() == s.renderer.block() && heard == s.meters,
        "the sound without metadata"
    );
    assert!(heard.is_some_and(|(peak, gain)| peak >= 2.0 && gain == 0.9 / peak));
    let mut nan = good;
    nan[0] = f32::NAN;
    let update = s.update.clone();
    s.push(&nan, 2, &update).unwrap();
    let pcm = Pcm::packed(&[0.0; 2 * SAMPLES], 2).unwrap();
    let moved = Frame::new(Rate::HZ_48000, &BEDS, pcm, Metadata::from_records(&update)).unwrap();
    let heard = meters(&twin.push(&moved, &mut out).unwrap());
    assert!(
        twin.block() == s.renderer.block() && heard == s.meters,
        "silence with its metadata"
    );
    assert!(heard.is_some_and(|(peak, gain)| peak == 0.0 && gain < 1.0));
}

#[test]
fn lent_memory_is_enough() {
    let mut memory = vec![f32::NAN; 34 * 64];
    let stride = Stride::new(64).unwrap();
    assert_eq!(
        Concealer::over(&mut memory[1..], stride).err(),
        Some(ShapeError::Memory { needed: 2176 })
    );
    let mut concealer = Concealer::over(&mut memory, stride).unwrap();
    let (mut renderer, mut out) = (Renderer::new(Layout::Hall714).unwrap(), Output::new(stride));
    let mut draw = Draw::new(5, 0);
    let scene = Scene {
        rate: Rate::HZ_48000,
        beds: Bed::ALL.into_iter().filter(|b| b.code() != 6).collect(),
        objects: 14,
    };
    let mut owned = scene.frame(&mut draw, 64);
    while owned.metadata.is_empty() {
        owned = scene.frame(&mut draw, 64);
    }
    owned.metadata[2..4].fill(0);
    for way in [Way::Whole, Way::MetadataOnly] {
        let outcome = renderer
            .push_or_conceal(&owned.frame(), &mut out, &mut concealer)
            .unwrap();
        assert_eq!(outcome.way, way);
        owned.pcm[0] = f32::NAN;
    }
}
