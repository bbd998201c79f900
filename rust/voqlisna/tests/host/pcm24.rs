// SPDX-License-Identifier: Apache-2.0
//! 24-bit samples over slices of floats, and of what was rendered.

use crate::draw::{Draw, Scene};
use voqlisna::*;

const CHANNELS: usize = 12;

/// In f64, which has every product and every half exactly.
fn code(x: f32) -> i32 {
    let scaled = f64::from(x) * 8_388_608.0;
    scaled.round_ties_even().min(8_388_607.0) as i32
}

/// From -1 to 1, many near an end or a tie.
fn drawn(draw: &mut Draw) -> f32 {
    let whole = draw.below(1 << 24) as f32 / 8_388_608.0 - 1.0;
    match draw.below(4) {
        0 => draw.pick(&[
            -1.0,
            1.0,
            0.0,
            -0.0,
            f32::MIN_POSITIVE,
            0.99999994,
            -0.99999994,
        ]),
        1 => whole.clamp(-0.25, 0.25) + 0.5 / 8_388_608.0,
        _ => whole,
    }
}

fn bits(sound: &[f32]) -> Vec<u32> {
    sound.iter().map(|x| x.to_bits()).collect()
}

#[test]
fn samples_become_bytes_and_these_samples() {
    for (count, stride) in [
        (0, 64),
        (1, 64),
        (2, 128),
        (63, 64),
        (448, 512),
        (1_536, 1_536),
    ] {
        let mut draw = Draw::new(21, count as u64);
        let out: Vec<f32> = (0..CHANNELS * stride + 5)
            .map(|_| drawn(&mut draw))
            .collect();
        let mut pcm = vec![0x5a; 36 * count + 7];
        assert_eq!(write_24(&out, stride, count, &mut pcm), Ok(count));
        let mut sound = vec![0.25; CHANNELS * count + 3];
        assert_eq!(read_24(&pcm[..36 * count], &mut sound), Ok(count));
        for (i, row) in pcm[..36 * count].chunks(36).enumerate() {
            for (c, bytes) in row.chunks(3).enumerate() {
                let code = code(out[c * stride + i]);
                assert_eq!(bytes, &code.to_le_bytes()[..3], "{count}: {c}, {i}");
                let read = (f64::from(code) / 8_388_608.0) as f32;
                assert_eq!(sound[c * count + i].to_bits(), read.to_bits());
            }
        }
        assert_eq!(pcm[36 * count..], [0x5a; 7]);
        assert_eq!(sound[CHANNELS * count..], [0.25; 3]);
    }
}

/// Lengths and counts beside the right ones, and a stride and a count whose last 32 bits fit.
#[test]
fn what_does_not_fit_is_refused_and_nothing_is_written() {
    use Refusal::{Frame, Memory, Pcm24Destination as ROOM, Pcm24Sample as SAMPLE};
    let big = 1 << 32;
    for (places, stride, count, room, refusal) in [
        (768, 0, 0, 72, Memory),
        (768, 63, 2, 72, Memory),
        (767, 64, 2, 72, Memory),
        (768, big + 64, 2, 72, Memory),
        (768, 64, 65, 9_999, Frame),
        (768, 64, big, 72, Frame),
        (768, 64, 2, 71, ROOM),
        (768, 64, 3, 107, ROOM),
        (768, 64, 4, 144, SAMPLE),
    ] {
        let mut out = vec![0.5; places];
        out[64 + 3] = f32::NAN;
        let mut dest = vec![0x5a; room];
        assert_eq!(write_24(&out, stride, count, &mut dest), Err(refusal));
        assert!(dest.iter().all(|byte| *byte == 0x5a));
    }
    for (bytes, room, refusal) in [
        (35, 12, Refusal::Pcm24Length),
        (37, 0, Refusal::Pcm24Length),
        (72, 23, ROOM),
    ] {
        let mut dest = vec![0.25; room];
        assert_eq!(read_24(&vec![1; bytes], &mut dest), Err(refusal));
        assert!(dest.iter().all(|x| *x == 0.25));
    }
}

/// Whatever the layout, twelve channels, and zeros for those that it lacks.
#[test]
fn what_was_rendered_is_written_as_24_bits() {
    let mut taken = 0;
    for case in 0..100 {
        let mut draw = Draw::new(22, case);
        let samples = draw.pick(&[1, 64, 500, 1_536]);
        let owned = Scene::draw(&mut draw).frame(&mut draw, samples);
        let layout = draw.pick(&Layout::ALL);
        let mut memory = vec![f32::NAN; CHANNELS * 1_536];
        let mut out = Output::over(&mut memory[..], Stride::MAX).unwrap();
        let mut renderer = Renderer::new(layout).unwrap();
        let Ok(rendered) = renderer.push(&owned.frame(), &mut out) else {
            continue; // by 10, where no update was drawn
        };
        let ready = rendered.ready();
        let mut pcm = vec![0x5a; 36 * ready + 7];
        assert_eq!(rendered.pcm_24_into(&mut pcm), Ok(ready));
        let mut packed = vec![0.0; CHANNELS * ready];
        rendered.pack_into(&mut packed).unwrap();
        for (k, x) in packed.iter().enumerate() {
            let (c, i) = (k / ready, k % ready);
            let at = 36 * i + 3 * c;
            assert_eq!(pcm[at..at + 3], code(*x).to_le_bytes()[..3], "{c}, {i}");
        }
        assert_eq!(pcm[36 * ready..], [0x5a; 7]);
        if let Some(less) = (36 * ready).checked_sub(1) {
            let short = rendered.pcm_24_into(&mut pcm[..less]);
            assert_eq!(short, Err(Refusal::Pcm24Destination));
            taken += 1;
        }
    }
    assert!(taken > 25, "{taken}");
}

/// A thread that rounds up and flushes subnormals hears the same.
#[test]
fn any_float_mode_will_do() {
    let mut draw = Draw::new(23, 0);
    let out: Vec<f32> = (0..CHANNELS * 64).map(|_| drawn(&mut draw)).collect();
    let run = || {
        let (mut pcm, mut sound) = (vec![0; 36 * 64], vec![0.0; CHANNELS * 64]);
        write_24(&out, 64, 64, &mut pcm).unwrap();
        read_24(&pcm, &mut sound).unwrap();
        (pcm, bits(&sound))
    };
    let usual = run();
    for control in [0xdf80, 0xff80, 0xbf80] {
        assert!(crate::floats::under(control, run).0 == usual);
    }
}
