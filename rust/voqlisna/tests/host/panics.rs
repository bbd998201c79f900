// SPDX-License-Identifier: Apache-2.0
//! No function panics, whatever it is given: a panic here is a failed test.

use crate::draw::{Draw, Scene};
use voqlisna::*;

const CASES: u64 = 4_000;

/// Any number, mostly a small one.
fn count(draw: &mut Draw) -> usize {
    match draw.below(6) {
        0 => draw.word() as usize,
        1 => draw.pick(&[usize::MAX, usize::MAX / 4 + 1, 1 << 62, isize::MAX as usize]),
        2 => draw.below(2_000),
        _ => draw.below(40),
    }
}

fn floats(draw: &mut Draw) -> Vec<f32> {
    let most = draw.pick(&[1, 40, 4_000]);
    (0..draw.below(most)).map(|_| draw.float()).collect()
}

fn stride(draw: &mut Draw) -> Stride {
    let (any, near) = (draw.word() as u32, draw.below(1_700) as u32);
    Stride::new(any)
        .or(Stride::for_frames_of(any))
        .or(Stride::for_frames_of(near))
        .unwrap_or(Stride::MAX)
}

/// Counts and slices of any length into everything that makes a frame.
fn shapes(draw: &mut Draw) {
    let (samples, channels, stride) = (floats(draw), count(draw), stride(draw));
    let _ = (
        Rate::new(draw.word() as u32),
        Bed::from_code(draw.word() as u8),
        Layout::from_code(draw.word() as u32),
    );
    let _ = Pcm::bytes(&draw.bytes(samples.len()), channels);
    let mut stage = Stage::new(stride, count(draw));
    let _ = stage
        .interleaved(&samples, channels)
        .map(|pcm| pcm.samples());
    let cut = &samples[..draw.below(samples.len() + 1)];
    let planes: Vec<&[f32]> = (0..draw.below(40))
        .map(|_| if draw.once_in(9) { cut } else { &samples })
        .collect();
    let _ = stage.planes(&planes).map(|pcm| pcm.channels());
    let (beds, length) = (vec![Bed::Center; draw.below(40)], draw.below(200));
    let metadata = draw.bytes(length);
    if let Ok(pcm) = Pcm::packed(&samples, channels) {
        if let Ok(frame) = Frame::new(
            Rate::HZ_48000,
            &beds,
            pcm,
            Metadata::from_records(&metadata),
        ) {
            calls(draw, &frame, stride);
        }
    }
}

/// Every call with a frame, and every way to read what it gave.
fn calls(draw: &mut Draw, frame: &Frame<'_>, stride: Stride) {
    let (layout, table) = (draw.pick(&Layout::ALL), draw.table());
    let mut renderer = Renderer::with_table(layout, &table).unwrap();
    let mut out = Output::new(stride);
    let mut concealer = Concealer::new(Stride::new(64 * (1 + draw.below(24) as u32)).unwrap());
    let mut steady = Steady::up_to(draw.below(2_000)).unwrap();
    for _ in 0..3 {
        let _ = renderer
            .push(frame, &mut out)
            .map(|rendered| reads(draw, &rendered, &mut steady));
        let _ = renderer
            .push_or_conceal(frame, &mut out, &mut concealer)
            .map(|o| reads(draw, &o.rendered, &mut steady));
        let _ = renderer
            .flush(&mut out)
            .map(|rendered| reads(draw, &rendered, &mut steady));
        marks(draw, &mut renderer);
    }
    for _ in 0..16 {
        let cause = explain(frame, stride, draw.refusal());
        let _ = cause.map(|cause| cause.to_string());
    }
}

/// Objects of any number.
fn marks(draw: &mut Draw, renderer: &mut Renderer) {
    for _ in 0..3 {
        let object = count(draw) as u32;
        let _ = match draw.once_in(2) {
            true => renderer.hold(object),
            false => renderer.release(object),
        };
        let _ = renderer.is_held(count(draw) as u32);
    }
}

/// Any speakers, at times named twice; once in a while, since a search may take long.
fn finds(draw: &mut Draw) {
    let renderer = Renderer::with_table(draw.pick(&Layout::ALL), &draw.table()).unwrap();
    let speakers: Vec<Speaker> = (0..draw.below(5))
        .map(|_| draw.pick(&Speaker::ALL))
        .collect();
    let _ = renderer.find(&speakers).map(|place| place.room().panned());
}

fn reads(draw: &mut Draw, rendered: &Rendered<'_>, steady: &mut Steady) {
    let mut to = floats(draw);
    let _ = rendered.interleave_into(&mut to);
    let _ = rendered.pack_into(&mut to);
    let _ = steady.put(rendered);
    let speakers: Vec<Speaker> = (0..draw.below(14))
        .map(|_| draw.pick(&Speaker::ALL))
        .collect();
    steady.take_interleaved(&speakers, count(draw), &mut to);
}

/// Memory of any length.
fn lent(draw: &mut Draw) {
    let mut memory = floats(draw);
    let (stride, samples) = (stride(draw), count(draw));
    let _ = Output::over(&mut memory[..], stride).map(|out| out.stride());
    let _ = Concealer::over(&mut memory, stride).map(|mut concealer| concealer.reset());
    let _ = Steady::fixed_over(&mut memory[..], samples).map(|steady| steady.latency());
    let _ = Steady::up_to_over(&mut memory[..], samples).map(|steady| steady.held());
    let _ = MetadataWriter::bytes_for(samples, &[count(draw), count(draw)]);
    let length = count(draw).min(500);
    let mut bytes = draw.bytes(length);
    let (layout, table) = (draw.pick(&Layout::ALL), draw.table());
    let _ = Renderer::over(&mut bytes, layout).map(|renderer| renderer.block().len());
    let lent = Renderer::over_with_table(&mut bytes, layout, &table);
    let _ = lent.map(|renderer| renderer.table());
    let _ = HallTable::from_bytes(&bytes).map_err(|error| error.to_string());
    let _ = HallTable::new(draw.places()).map_err(|error| error.to_string());
    let _ = Snapshot::read(&bytes).map(|snapshot| Renderer::restore(snapshot).is_ok());
}

/// Planes of any lengths and counts; half of the lengths fit.
fn planes(draw: &mut Draw) {
    let samples = count(draw);
    let fitting = if draw.once_in(2) {
        samples.min(50)
    } else {
        draw.below(50)
    };
    let (mut sound, mut bytes) = (vec![draw.float(); 12 * fitting], draw.bytes(48 * fitting));
    let _ = to_planes(&sound, samples, &mut bytes);
    let _ = from_planes(&bytes, samples, &mut sound);
    let length = draw.below(2_000);
    let mut others = draw.bytes(length);
    let _ = bytes_to_planes(&bytes, samples, &mut others);
    let _ = bytes_from_planes(&others, samples, &mut bytes);
}

/// 24-bit samples of any lengths and counts; half of the lengths fit.
fn pcm_24(draw: &mut Draw) {
    let (stride, samples) = (64 * draw.below(4), draw.below(100));
    let fitting = if draw.once_in(2) {
        samples
    } else {
        draw.below(100)
    };
    let mut out = vec![draw.float(); 12 * draw.below(200)];
    let mut bytes = draw.bytes(36 * fitting);
    let _ = write_24(&out, stride, samples, &mut bytes);
    let _ = write_24(&out, count(draw), count(draw), &mut bytes);
    let _ = read_24(&bytes, &mut out);
    let length = draw.below(2_000);
    let _ = read_24(&draw.bytes(length), &mut out);
}

/// Any bytes as records.
fn any_records(draw: &mut Draw) {
    let length = draw.below(400);
    let mut bytes = draw.bytes(length);
    for record in bytes.chunks_mut(40) {
        record[0] = draw.pick(&[1, 2, 3, 4]);
        record.iter_mut().skip(1).for_each(|byte| {
            *byte = if draw.once_in(8) {
                draw.below(9) as u8
            } else {
                0
            }
        });
    }
    let _ = records::read(&bytes)
        .map(|record| format!("{record:?}"))
        .count();
    for number in [5, 6, draw.word() as u8] {
        let _ = records::first_fault(&bytes, number).map(|fault| fault.to_string());
    }
}

#[test]
fn nothing_panics() {
    for case in 0..CASES {
        let mut draw = Draw::new(8, case);
        shapes(&mut draw);
        lent(&mut draw);
        any_records(&mut draw);
        planes(&mut draw);
        pcm_24(&mut draw);
        if draw.once_in(40) {
            finds(&mut draw);
        }
        let samples = draw.below(200);
        let owned = Scene::draw(&mut draw).frame(&mut draw, samples);
        calls(&mut draw, &owned.frame(), Stride::MAX);
    }
}
