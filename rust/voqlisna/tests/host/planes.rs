// SPDX-License-Identifier: Apache-2.0
//! Planes over slices of floats and of bytes.

use crate::draw::{Draw, Scene};
use voqlisna::*;

const CHANNELS: usize = 12;

/// Byte by byte, in the order that the planes have.
fn read(sound: &[f32]) -> Vec<u8> {
    let shifts = [0, 8, 16, 24];
    let bytes = |shift: u32| sound.iter().map(move |x| (x.to_bits() >> shift) as u8);
    shifts.into_iter().flat_map(bytes).collect()
}

fn bits(sound: &[f32]) -> Vec<u32> {
    sound.iter().map(|x| x.to_bits()).collect()
}

/// Any bits, quiet and signalling NaNs among them.
fn drawn(draw: &mut Draw, samples: usize) -> Vec<f32> {
    let nan = |draw: &mut Draw| 0x7f80_0001 | draw.word() as u32;
    (0..CHANNELS * samples)
        .map(|_| match draw.below(3) {
            0 => f32::from_bits(nan(draw)),
            _ => f32::from_bits(draw.word() as u32),
        })
        .collect()
}

#[test]
fn sound_becomes_planes_and_comes_back_bit_for_bit() {
    for samples in [0, 1, 2, 31, 448, 1_536] {
        let mut draw = Draw::new(11, samples as u64);
        let sound = drawn(&mut draw, samples);
        let bytes: Vec<u8> = sound.iter().flat_map(|x| x.to_le_bytes()).collect();
        let mut planes = vec![0x5a; 48 * samples + 7];
        assert_eq!(to_planes(&sound, samples, &mut planes), Ok(samples));
        assert!(planes == [read(&sound), vec![0x5a; 7]].concat());
        let mut others = vec![0x5a; 48 * samples + 7];
        assert_eq!(bytes_to_planes(&bytes, samples, &mut others), Ok(samples));
        assert!(others == planes);

        planes.truncate(48 * samples);
        let mut back = vec![0.25; CHANNELS * samples + 3];
        assert_eq!(from_planes(&planes, samples, &mut back), Ok(samples));
        assert!(bits(&back) == bits(&[sound, vec![0.25; 3]].concat()));
        let mut others = vec![0; 48 * samples];
        assert_eq!(
            bytes_from_planes(&planes, samples, &mut others),
            Ok(samples)
        );
        assert!(others == bytes);
    }
}

/// Both ways: lengths beside the right one, counts above 1,536, and a count whose last 32 bits are
/// zero.
#[test]
fn what_does_not_fit_is_refused_and_nothing_is_written() {
    use Refusal::{ConvertedLength as LENGTH, ConvertedSamples as SAMPLES};
    for (places, samples, room, refusal) in [
        (23, 2, 96, LENGTH),
        (25, 2, 96, LENGTH),
        (24, 2, 95, LENGTH),
        (24, 3, 96, LENGTH),
        (24, 0, 96, LENGTH),
        (0, 1, 48, LENGTH),
        (12 * 1_537, 1_537, 48 * 1_537, SAMPLES),
        (24, 1_537, 95, SAMPLES),
        (0, 1 << 32, 0, SAMPLES),
        (0, usize::MAX, 0, SAMPLES),
    ] {
        let (sound, mut dest) = (vec![1.0; places], vec![0x5a; room]);
        assert_eq!(to_planes(&sound, samples, &mut dest), Err(refusal));
        assert!(dest.iter().all(|byte| *byte == 0x5a));
        let planes = vec![1; 4 * places];
        assert_eq!(bytes_from_planes(&planes, samples, &mut dest), Err(refusal));
        assert!(dest.iter().all(|byte| *byte == 0x5a));
        assert_eq!(from_planes(&planes, samples, &mut []), Err(refusal));
    }
}

#[test]
fn what_was_rendered_is_packed_channel_after_channel() {
    let (mut out, mut packed) = (Output::new(Stride::MAX), vec![0.25; CHANNELS * 1_536]);
    let mut taken = 0;
    for case in 0..100 {
        let mut draw = Draw::new(12, case);
        let samples = draw.pick(&[1, 64, 500, 1_536]);
        let owned = Scene::draw(&mut draw).frame(&mut draw, samples);
        let mut renderer = Renderer::new(Layout::Hall714).unwrap();
        let Ok(rendered) = renderer.push(&owned.frame(), &mut out) else {
            continue; // by 10, where no update was drawn
        };
        let channels = rendered.channels().map(|(_, samples)| samples);
        let wanted: Vec<f32> = channels.flatten().copied().collect();
        let needed = wanted.len();
        assert_eq!(rendered.pack_into(&mut packed), Ok(needed));
        assert!(bits(&packed[..needed]) == bits(&wanted));
        if let Some(less) = needed.checked_sub(1) {
            let short = rendered.pack_into(&mut packed[..less]);
            assert_eq!(short, Err(ShapeError::Memory { needed }));
            taken += 1;
        }
    }
    assert!(taken > 25, "{taken}");
}
