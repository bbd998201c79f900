// SPDX-License-Identifier: Apache-2.0
//! Numbers, blame and sentences of refusals, and names, bits and built-in places of speakers.

use crate::raw;
use voqlisna::sys::Answer;
use voqlisna::*;

fn refusal(number: u32) -> Refusal {
    Refusal::from_answer(Answer {
        kind: 1,
        number,
        first: 7,
        second: 8,
        ..raw::DONE
    })
    .unwrap()
}

#[test]
fn a_refusal_keeps_its_number_and_counts() {
    for number in 0..30 {
        let refusal = refusal(number);
        assert_eq!(refusal.number(), number);
        let expected = match number {
            9 | 11 => (7, 8),
            13 | 14 => (7, 0),
            1..=6 | 8 | 10 | 12 | 15..=25 => (0, 0),
            _ => (7, 8),
        };
        assert_eq!(refusal.counts(), expected, "{number}");
        assert_eq!(
            matches!(refusal, Refusal::Other { .. }),
            !matches!(number, 1..=6 | 8..=25),
            "{number}"
        );
    }
    for kind in [0, 2, 3] {
        assert_eq!(
            Refusal::from_answer(Answer {
                kind,
                ready: 5,
                ..raw::DONE
            }),
            None
        );
    }
}

#[test]
fn blame_is_as_the_interface_has_it() {
    for (numbers, blame) in [
        (1..=4, Blame::Host),
        (5..=6, Blame::Programme),
        (25..=25, Blame::Programme),
        (8..=8, Blame::Decoder),
        (9..=14, Blame::Stream),
        (15..=24, Blame::Host),
    ] {
        assert!(
            numbers
                .clone()
                .all(|number| refusal(number).blame() == blame),
            "{blame}"
        );
    }
}

/// A sentence, not the name of a variant.
fn is_a_sentence(error: &dyn std::error::Error) {
    let said = error.to_string();
    assert!(said.contains(' ') && !said.contains(['{', '"']), "{said}");
    assert_ne!(said, format!("{error:?}"));
}

#[test]
fn every_refusal_and_shape_error_is_a_sentence() {
    (0..30).for_each(|number| is_a_sentence(&refusal(number)));
    let shape = [
        ShapeError::Length { got: 3, of: 2 },
        ShapeError::Uneven {
            channel: 1,
            got: 3,
            expected: 2,
        },
        ShapeError::Samples { got: 3, most: 2 },
        ShapeError::Channels(0),
        ShapeError::Channels(99),
        ShapeError::Beds {
            got: 3,
            channels: 2,
        },
        ShapeError::Objects(17),
        ShapeError::Memory { needed: 5 },
    ];
    shape.iter().for_each(|error| is_a_sentence(error));
}

#[test]
fn every_other_error_is_a_sentence() {
    is_a_sentence(&MakeError::Version {
        expected: 1,
        found: 2,
    });
    is_a_sentence(&MakeError::Length { needed: 5 });
    use BuildError::*;
    let (limits, full) = (
        [Updates, Objects, Dynamic, Beds, Elements, Blocks],
        Full { needed: 1 },
    );
    limits.iter().for_each(|error| is_a_sentence(error));
    [full, Offset, Gain, Size, Send]
        .iter()
        .for_each(|error| is_a_sentence(error));
    use SnapshotError::*;
    let snapshot = [NotOne, Version(3), Damaged, Range, Memory { needed: 5 }];
    snapshot.iter().for_each(|error| is_a_sentence(error));
    is_a_sentence(&UnknownLayout);
    is_a_sentence(&TableError::Length(143));
    is_a_sentence(&TableError::Coordinate {
        speaker: Speaker::Bass,
        axis: Axis::Y,
        value: f32::NAN,
    });
    is_a_sentence(&TableError::SamePlace {
        first: Speaker::RearLeft,
        second: Speaker::TopRearLeft,
    });
    is_a_sentence(&records::first_fault(&[1; 40], 5).unwrap());
}

#[test]
fn speakers_are_in_the_order_of_wave_files() {
    let bits: Vec<u32> = Speaker::ALL
        .iter()
        .map(|speaker| speaker.wave_bit())
        .collect();
    assert!(bits.is_sorted() && bits.iter().all(|bit| bit.count_ones() == 1));
    assert_eq!(bits.iter().sum::<u32>(), WAVE_MASK);
    for (channel, speaker) in Speaker::ALL.into_iter().enumerate() {
        assert_eq!(speaker.channel(), channel);
        assert_eq!(
            Speaker::from_short_name(speaker.short_name()),
            Some(speaker)
        );
    }
    assert_eq!(format!("{:>4}", Speaker::Bass), " LFE");
}

/// Document 02: "5.1.4 lacks channels 4 and 5, 7.1.0 lacks the four top channels, 5.1.0 lacks both
/// groups .. layout code 0 for 7.1.4, then 1, 2, 3 in the order above".
#[test]
fn layouts_have_the_channels_of_the_document() {
    let (rear, top) = ([4, 5], [8, 9, 10, 11]);
    for (code, name, without) in [
        (0, "7.1.4", vec![]),
        (1, "5.1.4", rear.to_vec()),
        (2, "7.1.0", top.to_vec()),
        (3, "5.1.0", [&rear[..], &top].concat()),
    ] {
        let layout = Layout::from_code(code).unwrap();
        assert_eq!((layout.code(), layout.to_string()), (code, name.to_owned()));
        assert_eq!(name.parse(), Ok(layout));
        let all = Speaker::ALL.into_iter();
        let has: Vec<_> = all.filter(|s| !without.contains(&s.channel())).collect();
        assert_eq!(layout.speakers(), has);
        assert!(
            Speaker::ALL
                .iter()
                .all(|s| layout.has(*s) == has.contains(s))
        );
        let bits = has.iter().map(|speaker| speaker.wave_bit());
        assert_eq!(bits.sum::<u32>(), layout.wave_mask());
    }
    assert!((4..200).all(|code| Layout::from_code(code).is_none()));
    for name in ["", "7.1", "7.1.4 ", "714", "5.1.2"] {
        assert_eq!(name.parse::<Layout>(), Err(UnknownLayout));
    }
}

/// To within the rounding of `Panned::room`, in each layout.
#[test]
fn an_object_at_a_speakers_place_sounds_from_it_alone() {
    Layout::ALL.into_iter().for_each(sounds_alone);
}

fn sounds_alone(layout: Layout) {
    let mut out = Output::new(Stride::for_frames_of(256).unwrap());
    for speaker in layout.speakers().iter().copied() {
        let Some(place) = speaker.place() else {
            assert_eq!(speaker, Speaker::Bass);
            continue;
        };
        let Panned { x, y, z } = place.room().panned();
        let off = (x - place.x).abs() + (y - place.y).abs() + (z - place.z).abs();
        assert!(off < 1e-6, "{speaker}");
        let mut memory = [0; MetadataWriter::bytes_for(1, &[1])];
        let mut writer = MetadataWriter::new(&mut memory);
        let object = Object::at(place.room()).gain(1.0);
        let update = Update {
            at: 0,
            objects: 1,
            fixed: 0,
            beds: &[],
        };
        writer
            .update(update)
            .unwrap()
            .element(&[Block::default()], |_, _| object)
            .unwrap();
        let pcm = Pcm::packed(&[0.5; 256], 1).unwrap();
        let frame = Frame::new(Rate::HZ_48000, &[], pcm, writer.finish()).unwrap();
        let mut renderer = Renderer::new(layout).unwrap();
        let rendered = renderer.push(&frame, &mut out).unwrap();
        for (other, samples) in rendered.channels() {
            let expected = if other == speaker { 0.5 } else { 0.0 };
            assert!(
                (samples[200] - expected).abs() < 1e-3,
                "{speaker}: {other} has {}",
                samples[200]
            );
        }
    }
}
