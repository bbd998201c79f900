// SPDX-License-Identifier: Apache-2.0
//! The float mode: the caller's is kept, and does not reach the samples, which it would without the
//! guard.

use crate::raw;
use std::arch::asm;
use voqlisna::*;

/// MXCSR without its flags.
const CONTROL: u32 = 0xffc0;
const DEFAULT: u32 = 0x1f80;
const FRAMES: usize = 562;
const SAMPLES: usize = 256;

fn mode() -> u32 {
    let mut mode = 0;
    // SAFETY: writes the four bytes of `mode`.
    unsafe { asm!("stmxcsr [{}]", in(reg) &mut mode) };
    mode
}

fn set(mode: u32) {
    // SAFETY: reads four bytes. The mode stays changed behind the block, which Rust does not allow
    // a program; what is under test is a thread in which a foreign library has done so, and no
    // float is computed until it is set back.
    unsafe { asm!("ldmxcsr [{}]", in(reg) &mode) };
}

/// Runs `f` with the mode set, and answers also the mode behind it.
pub fn under<R>(control: u32, f: impl FnOnce() -> R) -> (R, u32) {
    let before = mode();
    set(control);
    let result = f();
    let after = mode();
    set(before);
    (result, after)
}

/// A bass bed that stays and an object with a place.
fn places(memory: &mut [u8]) -> Metadata<'_> {
    let mut writer = MetadataWriter::new(memory);
    let update = Update {
        at: 0,
        objects: 2,
        fixed: 1,
        beds: &[Bed::Bass],
    };
    let objects = [
        Object::KEEP,
        Object::at(Room {
            x: 0.3,
            y: 0.4,
            z: 0.5,
        })
        .gain(0.7),
    ];
    let update = writer.update(update).unwrap();
    update
        .element(&[Block::default()], |object, _| objects[object])
        .unwrap();
    writer.finish()
}

/// Three seconds in which both fade out; each frame goes to `push`.
fn fade(mut push: impl FnMut(&Frame<'_>)) {
    let mut memory = [0; MetadataWriter::bytes_for(2, &[1])];
    let mut metadata = places(&mut memory);
    for k in 0..FRAMES {
        let mut pcm = [0.0; 2 * SAMPLES];
        for i in 0..SAMPLES {
            let t = (k * SAMPLES + i) as f64;
            let level = (-t / 1_500.0).exp();
            pcm[i] = (level * (t * 0.01).sin()) as f32;
            pcm[SAMPLES + i] = (level * (t * 0.05).sin()) as f32;
        }
        let pcm = Pcm::packed(&pcm, 2).unwrap();
        push(&Frame::new(Rate::HZ_48000, &[Bed::Bass], pcm, metadata).unwrap());
        metadata = Metadata::NONE;
    }
}

/// The fade through the crate, every call in this mode.
fn guarded(control: u32) -> Vec<u32> {
    let (mut words, mut renderer) = (Vec::new(), Renderer::new(Layout::Hall714).unwrap());
    let mut out = Output::new(Stride::new(256).unwrap());
    fade(|frame| {
        let (rendered, after) = under(control, || renderer.push(frame, &mut out));
        assert_eq!(after & CONTROL, control, "the caller's mode is kept");
        for (_, channel) in rendered.unwrap().channels() {
            words.extend(channel.iter().map(|x| x.to_bits()));
        }
    });
    words
}

/// The same straight through the entry.
fn unguarded(control: u32) -> Vec<u32> {
    let (mut words, mut block, mut out) =
        (Vec::new(), raw::fresh(Layout::Hall714), vec![0; 48 * 256]);
    fade(|frame| {
        let (answer, _) = under(control, || raw::push(&mut block, frame, &mut out, 256));
        assert_eq!((answer.kind, answer.ready), (0, 256));
        words.extend(
            out.chunks_exact(4)
                .map(|b| u32::from_le_bytes(b.try_into().unwrap())),
        );
    });
    words
}

#[test]
fn the_callers_mode_does_not_reach_the_samples() {
    let right = guarded(DEFAULT);
    assert!(right == unguarded(DEFAULT) && right.len() == 12 * FRAMES * SAMPLES);
    let modes = [
        ("flush to zero", 0x9f80),
        ("denormals are zero", 0x1fc0),
        ("both", 0x9fc0),
        ("round down", 0x3f80),
        ("round up", 0x5f80),
        ("round to zero", 0x7f80),
    ];
    for (name, control) in modes {
        let differ = unguarded(control)
            .iter()
            .zip(&right)
            .filter(|(a, b)| a != b)
            .count();
        println!(
            "{name}: {differ} of {} samples differ without the guard",
            right.len()
        );
        assert!(differ > 0, "{name}: the guard has nothing to do");
        assert!(guarded(control) == right, "{name}");
    }
    // Without the guard the first inexact result would end the process.
    assert!(guarded(0) == right, "exceptions unmasked");
}

#[test]
fn a_call_in_the_default_mode_gives_its_result() {
    for control in [DEFAULT, 0xdf80, 0] {
        let text = String::from("owned, dropped once");
        let ((inside, text), after) =
            under(control, || with_default_floats(move || (mode(), text)));
        assert_eq!((inside & CONTROL, after & CONTROL), (DEFAULT, control));
        assert_eq!(text, "owned, dropped once");
    }
}

#[test]
fn flush_reset_and_restore_are_guarded_too() {
    let (mut renderer, mut out) = (
        Renderer::new(Layout::Hall714).unwrap(),
        Output::new(Stride::MAX),
    );
    let mut memory = vec![0; Snapshot::size()];
    let mut seen = Vec::new();
    for control in [DEFAULT, 0] {
        renderer.reset();
        let mut frames = 0;
        fade(|frame| {
            frames += 1;
            if frames < 3 {
                let part = Pcm::bytes(&frame.pcm().as_bytes()[..2 * 4 * 100], 2).unwrap();
                renderer
                    .push(
                        &Frame::new(frame.rate(), frame.beds(), part, frame.metadata()).unwrap(),
                        &mut out,
                    )
                    .unwrap();
            }
        });
        let saved = renderer.save(&mut memory).unwrap();
        let (restored, _) = under(control, || Renderer::restore(saved));
        let mut restored = restored.unwrap();
        let (flushed, after) = under(control, || restored.flush(&mut out).map(|r| r.ready()));
        assert_eq!((flushed, after & CONTROL), (Some(200 % 64), control));
        seen.push(restored.into_block());
        under(control, || renderer.reset());
        assert!(renderer.block() == raw::fresh(Layout::Hall714));
    }
    assert!(seen[0] == seen[1]);
}
