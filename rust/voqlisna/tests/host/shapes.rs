// SPDX-License-Identifier: Apache-2.0
//! Frames: samples from wherever they lie become the same PCM, and what does not fit is told.

use crate::draw::Draw;
use voqlisna::*;

#[test]
fn apart_interleaved_and_packed_are_one_pcm() {
    let mut stage = Stage::new(Stride::MAX, 34);
    for case in 0..300 {
        let mut draw = Draw::new(9, case);
        let (channels, samples) = (1 + draw.below(34), draw.below(200));
        let packed: Vec<f32> = (0..channels * samples).map(|_| draw.share()).collect();
        let rows: Vec<&[f32]> = (0..channels)
            .map(|k| &packed[k * samples..(k + 1) * samples])
            .collect();
        let each = (0..samples).flat_map(|i| rows.iter().map(move |row| row[i]));
        let interleaved: Vec<f32> = each.collect();
        let expected = Pcm::packed(&packed, channels).unwrap().as_bytes();
        assert_eq!(expected.len(), 4 * packed.len());
        let apart = stage.planes(&rows).unwrap();
        assert_eq!((apart.channels(), apart.samples()), (channels, samples));
        assert!(apart.as_bytes() == expected, "case {case}");
        let woven = stage.interleaved(&interleaved, channels).unwrap();
        assert_eq!((woven.channels(), woven.samples()), (channels, samples));
        assert!(woven.as_bytes() == expected, "case {case}");
    }
}

#[test]
fn pcm_that_does_not_fit_is_told() {
    let (zeros, most) = (vec![0.0; 35 * 1537], 1536);
    let packed = |length, channels| Pcm::packed(&zeros[..length], channels).err();
    assert_eq!(packed(34 * 1536, 34), None);
    assert_eq!(packed(35, 35), Some(ShapeError::Channels(35)));
    assert_eq!(packed(1, 0), Some(ShapeError::Channels(0)));
    assert_eq!(packed(0, 0), None);
    assert_eq!(
        packed(2 * 1537, 2),
        Some(ShapeError::Samples { got: 1537, most })
    );
    assert_eq!(packed(5, 2), Some(ShapeError::Length { got: 5, of: 2 }));
    assert_eq!(
        Pcm::bytes(&[0; 7], 1).err(),
        Some(ShapeError::Length { got: 7, of: 4 })
    );
}

#[test]
fn a_stage_that_is_too_small_is_told() {
    let (zeros, most, mut memory) = (vec![0.0; 35 * 1537], 1536, [0.0; 10]);
    let mut stage = Stage::over(&mut memory[..]);
    let mut interleaved = |length, channels| stage.interleaved(&zeros[..length], channels).err();
    assert_eq!(interleaved(10, 2), None);
    assert_eq!(interleaved(12, 2), Some(ShapeError::Memory { needed: 12 }));
    assert_eq!(
        interleaved(9, 2),
        Some(ShapeError::Length { got: 9, of: 2 })
    );
    assert_eq!(interleaved(9, 0), Some(ShapeError::Channels(0)));
    assert_eq!(interleaved(35, 35), Some(ShapeError::Channels(35)));
    assert_eq!(
        interleaved(1537, 1),
        Some(ShapeError::Samples { got: 1537, most })
    );
    let mut planes = |rows: &[&[f32]]| stage.planes(rows).err();
    let uneven = ShapeError::Uneven {
        channel: 1,
        got: 4,
        expected: 5,
    };
    assert_eq!(planes(&[&zeros[..5], &zeros[..5]]), None);
    assert_eq!(planes(&[&zeros[..5], &zeros[..4]]), Some(uneven));
    assert_eq!(
        planes(&[&zeros[..11]]),
        Some(ShapeError::Memory { needed: 11 })
    );
    assert_eq!(planes(&[&zeros[..0]; 35]), Some(ShapeError::Channels(35)));
    assert_eq!(
        planes(&[&zeros[..1537]]),
        Some(ShapeError::Samples { got: 1537, most })
    );
    assert_eq!(planes(&[]), None);
}

#[test]
fn a_frame_has_a_channel_for_each_bed_and_at_most_16_objects() {
    let (zeros, beds) = ([0.0; 40], [Bed::Center; 19]);
    let frame = |got: usize, channels| {
        let pcm = Pcm::packed(&zeros[..channels], channels).unwrap();
        let frame = Frame::new(Rate::HZ_48000, &beds[..got], pcm, Metadata::NONE);
        frame.map(|frame| frame.objects())
    };
    assert_eq!(frame(18, 34), Ok(16));
    assert_eq!(frame(17, 34), Err(ShapeError::Objects(17)));
    assert_eq!(
        frame(19, 34),
        Err(ShapeError::Beds {
            got: 19,
            channels: 34
        })
    );
    assert_eq!(
        frame(3, 2),
        Err(ShapeError::Beds {
            got: 3,
            channels: 2
        })
    );
}

#[test]
fn an_output_has_twelve_channels_of_the_stride() {
    let mut memory = vec![0.0; 12 * 64];
    assert!(Output::over(&mut memory[..], Stride::MIN).is_ok());
    let short = Output::over(&mut memory[1..], Stride::MIN).err();
    assert_eq!(short, Some(ShapeError::Memory { needed: 768 }));
}

#[test]
fn limits_are_those_of_the_interface() {
    let taken = |numbers: std::ops::Range<u32>, test: fn(u32) -> bool| -> Vec<u32> {
        numbers.filter(|n| test(*n)).collect()
    };
    let rates = taken(0..200_000, |hertz| Rate::new(hertz).is_some());
    assert!(rates.into_iter().eq(8_000..=192_000));
    let strides = taken(0..2_000, |places| Stride::new(places).is_some());
    assert!(strides.into_iter().eq((64..=1536).step_by(64)));
    for samples in 0..2_000 {
        let expected = (64..=1536).step_by(64).find(|places| *places >= samples);
        let stride = Stride::for_frames_of(samples as u32).map(Stride::samples);
        assert_eq!(stride, expected, "{samples}");
    }
    for code in 0..=255 {
        assert_eq!(
            Bed::from_code(code).map(Bed::code),
            (code < 18).then_some(code)
        );
        assert_eq!(
            Anchor::from_code(code).map(Anchor::code),
            (code < 3).then_some(code)
        );
    }
}
