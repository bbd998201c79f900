// SPDX-License-Identifier: Apache-2.0
//! Document 02, R-12: an update that lies ahead is heard as the same update in the frame where its
//! sample falls.

use crate::draw::{Draw, Owned, Scene};
use voqlisna::records::{Record, read};
use voqlisna::*;

const RUNS: u64 = 200;
const FRAMES: usize = 24;
const MOST_WAITING: usize = 8;
const MOST_RECORDS: usize = 1_200;

/// An update's records, and where it falls.
#[derive(Clone)]
struct Sent {
    /// In the frame that brings it, or in the stream.
    at: u64,
    ahead: bool,
    records: Vec<u8>,
}

/// The updates of metadata that is laid out.
fn sent(metadata: &[u8]) -> Vec<Sent> {
    let mut all: Vec<Sent> = Vec::new();
    for (placed, bytes) in read(metadata).zip(metadata.chunks_exact(40)) {
        if let Record::Update { at, ahead, .. } = placed.unwrap().record {
            all.push(Sent {
                at: at.into(),
                ahead,
                records: Vec::new(),
            });
        }
        all.last_mut().unwrap().records.extend_from_slice(bytes);
    }
    all
}

/// The same of kind 1, at a sample of the frame.
fn plain(sent: &Sent, at: u64) -> Vec<u8> {
    let mut records = sent.records.clone();
    records[0] = 1;
    records[28..32].fill(0);
    records[2..4].copy_from_slice(&u16::try_from(at).unwrap().to_le_bytes());
    records
}

/// What waits, by the document's words, at the stream's samples.
#[derive(Clone, Default)]
struct Waiting(Vec<Sent>);

impl Waiting {
    /// The metadata that the frame stands for, and what waits after it; none where too many would.
    fn frame(&self, metadata: &[u8], start: u64, samples: u64) -> Option<(Vec<u8>, Self)> {
        let (mut list, mut after) = (Vec::new(), Vec::new());
        for wait in &self.0 {
            match wait.at < start + samples {
                true => list.extend(plain(wait, wait.at - start)),
                false => after.push(wait.clone()),
            }
        }
        for own in sent(metadata) {
            match own.ahead && own.at >= samples {
                true => after.push(Sent {
                    at: start + own.at,
                    ..own
                }),
                false => list.extend(plain(&own, own.at)),
            }
        }
        let records: usize = after.iter().map(|w| w.records.len() / 40).sum();
        let fits = after.len() <= MOST_WAITING && records <= MOST_RECORDS;
        fits.then_some((list, Self(after)))
    }
}

/// The renderer, and one that is given each update in its frame.
struct Pair {
    ahead: Renderer,
    given: Renderer,
    waiting: Waiting,
    start: u64,
    out: [Output; 2],
}

impl Pair {
    fn new(layout: Layout) -> Self {
        Self {
            ahead: Renderer::new(layout).unwrap(),
            given: Renderer::new(layout).unwrap(),
            waiting: Waiting::default(),
            start: 0,
            out: [Output::new(Stride::MAX), Output::new(Stride::MAX)],
        }
    }

    /// Pushes a frame; its refusal, the same for both.
    fn push(&mut self, owned: &Owned) -> Option<Refusal> {
        let samples = (owned.pcm.len() / owned.channels) as u64;
        let before = self.ahead.block().to_vec();
        let after = self.waiting.frame(&owned.metadata, self.start, samples);
        let [mine, other] = &mut self.out;
        let pushed = self.ahead.push(&owned.frame(), mine);
        let Some((metadata, after)) = after else {
            // 1 to 8 come before 25.
            assert_eq!(pushed.err(), Some(Refusal::TooManyAhead));
            assert!(self.ahead.block() == before);
            return Some(Refusal::TooManyAhead);
        };
        let translated = Owned {
            metadata,
            ..owned.clone()
        };
        let wanted = self.given.push(&translated.frame(), other);
        let refusal = match (pushed, wanted) {
            (Ok(mine), Ok(other)) => {
                assert_eq!(mine.ready(), other.ready());
                for ((_, a), (_, b)) in mine.channels().zip(other.channels()) {
                    assert!(
                        a.iter()
                            .map(|x| x.to_bits())
                            .eq(b.iter().map(|x| x.to_bits()))
                    );
                }
                (self.waiting, self.start) = (after, self.start + samples);
                None
            }
            (Err(mine), Err(other)) => {
                assert_eq!(mine, other);
                assert!(self.ahead.block() == before);
                Some(mine)
            }
            (mine, other) => panic!("{:?} and {:?}", mine.err(), other.err()),
        };
        self.same();
        refusal
    }

    fn same(&self) {
        let front = |renderer: &Renderer| renderer.block()[..sys::WAITS_AT].to_vec();
        assert!(front(&self.ahead) == front(&self.given));
        assert_eq!(self.ahead.waiting() as usize, self.waiting.0.len());
        assert_eq!(self.given.waiting(), 0);
    }

    fn reset(&mut self) {
        self.ahead.reset();
        self.given.reset();
        (self.waiting, self.start) = (Waiting::default(), 0);
        self.same();
    }
}

/// At times with another number of objects, so that 11 is met at any sample.
fn frame(draw: &mut Draw, scene: &Scene) -> Owned {
    let samples = draw.pick(&[1, 64, 100, 480]);
    let mut owned = scene.frame(draw, samples);
    if draw.once_in(12) {
        let others = Scene {
            objects: scene.objects + 1,
            beds: scene.beds.clone(),
            ..*scene
        };
        owned.metadata = others.frame(draw, samples).metadata;
    }
    if draw.once_in(3) {
        let more = if draw.once_in(8) {
            9
        } else {
            1 + draw.below(3)
        };
        (0..more).for_each(|_| owned.metadata.extend(near(draw, scene, samples)));
    }
    owned
}

/// An update around the frame's end or in one of the next, without elements or with one.
fn near(draw: &mut Draw, scene: &Scene, samples: usize) -> Vec<u8> {
    let objects = scene.beds.len() + scene.objects;
    let blocks = draw.pick(&[&[][..], &[1], &[2]]);
    let mut memory = vec![0; MetadataWriter::bytes_for(objects, blocks)];
    let mut writer = MetadataWriter::new(&mut memory);
    let steps = [
        0,
        samples - 1,
        samples,
        samples + 1,
        samples + 64,
        3 * samples,
    ];
    let head = Ahead {
        at: draw.pick(&steps) as u32,
        objects: objects as u8,
        fixed: scene.beds.len() as u8,
        beds: &scene.beds,
    };
    let mut writing = writer.update_ahead(head).unwrap();
    for count in blocks {
        let place = Room {
            x: draw.share(),
            y: draw.share(),
            z: draw.share(),
        };
        let all = vec![Block::default(); *count];
        let object = Object::at(place).gain(draw.share());
        writing = writing.element(&all, |_, _| object).unwrap();
    }
    memory
}

#[test]
fn an_update_ahead_is_heard_where_its_sample_falls() {
    let (mut fell, mut waited, mut refused) = (0, 0, [0; 26]);
    for case in 0..RUNS {
        let mut draw = Draw::new(31, case);
        let scene = Scene::draw(&mut draw);
        let mut pair = Pair::new(draw.pick(&Layout::ALL));
        for _ in 0..FRAMES {
            let before = pair.waiting.0.len();
            match pair.push(&frame(&mut draw, &scene)) {
                Some(refusal) => refused[refusal.number() as usize] += 1,
                None => fell += before.saturating_sub(pair.waiting.0.len()),
            }
            waited += pair.waiting.0.len();
            if draw.once_in(20) {
                pair.reset();
            }
        }
    }
    println!("{waited} updates waited in frames, {fell} left; refused {refused:?}");
    assert!(fell > 500 && waited > 2_000 && refused[11] > 20 && refused[25] > 20);
}

const ONE: [Bed; 0] = [];

/// One object at a place, or records without an element.
fn update(at: Option<u32>, x: f32) -> Vec<u8> {
    let mut memory = vec![0; MetadataWriter::bytes_for(1, &[1])];
    let mut writer = MetadataWriter::new(&mut memory);
    let writing = match at {
        Some(at) => writer.update_ahead(Ahead {
            at,
            objects: 1,
            fixed: 0,
            beds: &ONE,
        }),
        None => writer.update(Update {
            at: 0,
            objects: 1,
            fixed: 0,
            beds: &ONE,
        }),
    };
    let object = Object::at(Room { x, y: 0.0, z: 0.0 }).gain(1.0);
    writing
        .unwrap()
        .element(&[Block::default()], |_, _| object)
        .unwrap();
    memory
}

/// A frame of one object.
fn push(renderer: &mut Renderer, metadata: &[u8], samples: usize) -> Result<usize, Refusal> {
    let pcm = vec![0.5; samples];
    let pcm = Pcm::packed(&pcm, 1).unwrap();
    let metadata = Metadata::from_records(metadata);
    let frame = Frame::new(Rate::HZ_48000, &[], pcm, metadata).unwrap();
    let mut out = Output::new(Stride::MAX);
    renderer.push(&frame, &mut out).map(|sound| sound.ready())
}

/// "For 10, an update that only waits doesn't count; one that falls in the frame does"
#[test]
fn one_that_only_waits_begins_nothing() {
    let mut renderer = Renderer::new(Layout::Hall714).unwrap();
    let fresh = renderer.block().to_vec();
    assert_eq!(
        push(&mut renderer, &update(Some(64), 0.0), 64),
        Err(Refusal::NoUpdate)
    );
    assert!(renderer.block() == fresh);
    assert_eq!(push(&mut renderer, &update(Some(63), 0.0), 64), Ok(64));
    assert_eq!(renderer.waiting(), 0);
}

/// "Up to eight, of at most 1,200 records in all, may wait after those due in the frame have left"
#[test]
fn a_ninth_is_25_until_one_has_left() {
    let mut renderer = Renderer::new(Layout::Hall510).unwrap();
    push(&mut renderer, &update(None, 0.0), 64).unwrap();
    for k in 0..8 {
        push(&mut renderer, &update(Some(640), 0.5), 64).unwrap();
        assert_eq!(renderer.waiting(), k + 1);
    }
    let full = renderer.block().to_vec();
    let ninth = update(Some(64), 0.5);
    assert_eq!(push(&mut renderer, &ninth, 64), Err(Refusal::TooManyAhead));
    assert!(renderer.block() == full);
    // A flush changes no update; the first falls in the third frame from here.
    assert!(renderer.flush(&mut Output::new(Stride::MIN)).is_none());
    push(&mut renderer, &[], 64).unwrap();
    push(&mut renderer, &[], 64).unwrap();
    assert_eq!(renderer.waiting(), 8);
    push(&mut renderer, &ninth, 64).unwrap();
    assert_eq!(renderer.waiting(), 8);
    renderer.reset();
    assert_eq!(renderer.waiting(), 0);
}

/// 531 records is the longest update: two may wait, three are 25.
#[test]
fn more_than_1200_records_are_25() {
    let mut memory = vec![0; MetadataWriter::bytes_for(32, &[8, 8])];
    let mut writer = MetadataWriter::new(&mut memory);
    let head = Ahead {
        at: 1 << 20,
        objects: 32,
        fixed: 31,
        beds: &[],
    };
    let mut writing = writer.update_ahead(head).unwrap();
    for _ in 0..2 {
        writing = writing
            .element(&[Block::default(); 8], |_, _| Object::KEEP)
            .unwrap();
    }
    let mut renderer = Renderer::new(Layout::Hall714).unwrap();
    push(&mut renderer, &update(None, 0.0), 64).unwrap();
    push(&mut renderer, &memory, 64).unwrap();
    push(&mut renderer, &memory, 64).unwrap();
    assert_eq!(push(&mut renderer, &memory, 64), Err(Refusal::TooManyAhead));
    assert_eq!(renderer.waiting(), 2);
    // 1,062 records and six times four.
    let small = update(Some(1 << 19), 0.5);
    assert_eq!(small.len(), 4 * 40);
    for k in 0..6 {
        push(&mut renderer, &small, 64).unwrap();
        assert_eq!(renderer.waiting(), k + 3);
    }
}

/// A saved renderer has them.
#[test]
fn what_waits_is_saved() {
    let mut renderer = Renderer::new(Layout::Hall714).unwrap();
    push(&mut renderer, &update(None, 0.0), 64).unwrap();
    push(&mut renderer, &update(Some(200), 1.0), 64).unwrap();
    let mut file = vec![0; Snapshot::size()];
    renderer.save(&mut file).unwrap();
    let mut again = Renderer::restore(Snapshot::read(&file).unwrap()).unwrap();
    for _ in 0..4 {
        assert_eq!(again.waiting(), renderer.waiting());
        push(&mut renderer, &[], 64).unwrap();
        push(&mut again, &[], 64).unwrap();
        assert!(again.block() == renderer.block());
    }
    assert_eq!(again.waiting(), 0);
}

/// A waiting update that asks for another number of objects and falls on a frame's first sample: that
/// frame is concealed by silence on so many, and the stream goes on.
#[test]
fn a_frame_that_does_not_fit_it_is_concealed() {
    let (mut renderer, mut out) = (
        Renderer::new(Layout::Hall714).unwrap(),
        Output::new(Stride::MAX),
    );
    let mut concealer = Concealer::new(Stride::MAX);
    let mut memory = [0; MetadataWriter::bytes_for(2, &[])];
    let mut writer = MetadataWriter::new(&mut memory);
    let two = Ahead {
        at: 64,
        objects: 2,
        fixed: 0,
        beds: &[],
    };
    writer.update_ahead(two).unwrap();
    let two = writer.finish().as_bytes().to_vec();
    let mut ways = Vec::new();
    let fitting = update(None, 0.5);
    for (metadata, objects) in [
        (&fitting, 1),
        (&two, 1),
        (&Vec::new(), 1),
        (&Vec::new(), 1),
        (&Vec::new(), 2),
    ] {
        let pcm = vec![0.5; 64 * objects];
        let pcm = Pcm::packed(&pcm, objects).unwrap();
        let metadata = Metadata::from_records(metadata);
        let frame = Frame::new(Rate::HZ_48000, &[], pcm, metadata).unwrap();
        let outcome = renderer
            .push_or_conceal(&frame, &mut out, &mut concealer)
            .unwrap();
        ways.push((outcome.way, outcome.refusal.map(Refusal::number)));
    }
    let (whole, silence) = ((Way::Whole, None), (Way::Silence, Some(11)));
    assert_eq!(ways, [whole, whole, silence, silence, whole]);
    // A ninth that would wait is left out, and its frame's sound is heard.
    let near = update(Some(5_000), 0.5);
    for k in 0..9 {
        let pcm = Pcm::packed(&[0.5; 128], 2).unwrap();
        let frame = Frame::new(Rate::HZ_48000, &[], pcm, Metadata::from_records(&near)).unwrap();
        let outcome = renderer
            .push_or_conceal(&frame, &mut out, &mut concealer)
            .unwrap();
        let wanted = if k < 8 {
            whole
        } else {
            (Way::SoundOnly, Some(25))
        };
        assert_eq!((outcome.way, outcome.refusal.map(Refusal::number)), wanted);
    }
}
