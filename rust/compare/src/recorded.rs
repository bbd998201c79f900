//! The recorded list of the gate: calls that `hallrender` reads, and what the oracle has it print.

use crate::calls::{Call, Calls, Step};
use crate::{Generator, streams};
use oracle::frame::{ANCHORS, Anchor, Block, DEPTHS, Element, Frame, Object, Update};
use std::collections::BTreeMap;
use std::path::PathBuf;

/// crates/hallrender, where the list stands as `stdin` and `stdout`.
pub fn folder() -> PathBuf {
    PathBuf::from(env!("CARGO_MANIFEST_DIR")).join("../../crates/hallrender")
}

/// The list as it grows.
struct List {
    inputs: Generator,
    stream: Vec<u8>,
}

impl List {
    fn step(&mut self, step: &Step) {
        streams::append(&mut self.stream, step);
    }

    fn flush(&mut self) {
        self.step(&Step::Flush);
    }

    fn reset(&mut self) {
        self.step(&Step::Reset);
    }

    /// A frame at 48,000 with samples up to `loudest`.
    fn frame(&mut self, samples: usize, beds: &[u8], objects: usize, loudest: f32) -> Frame {
        let length = (beds.len() + objects) * samples;
        Frame {
            rate: 48_000,
            samples,
            beds: beds.to_vec(),
            objects,
            pcm: (0..length)
                .map(|_| self.inputs.between(-loudest, loudest))
                .collect(),
            updates: Vec::new(),
        }
    }

    fn push(&mut self, frame: &Frame, updates: Vec<Update>) {
        let frame = Frame {
            updates,
            ..frame.clone()
        };
        self.step(&Step::Push(Call::from(&frame)));
    }

    /// A frame with something wrong in its bytes.
    fn spoilt(&mut self, frame: &Frame, updates: Vec<Update>, spoil: impl FnOnce(&mut Call)) {
        let frame = Frame {
            updates,
            ..frame.clone()
        };
        let mut call = Call::from(&frame);
        spoil(&mut call);
        self.step(&Step::Push(call));
    }
}

/// An update of beds and `dynamic` objects, one entry a block and object from `object`.
fn update(
    offset: u16,
    beds: &[u8],
    dynamic: u8,
    elements: &[&[(i64, i64)]],
    object: impl Fn(usize, usize) -> Object,
) -> Update {
    let objects = beds.len() as u8 + dynamic;
    let element = |blocks: &&[(i64, i64)]| Element {
        blocks: blocks
            .iter()
            .map(|&(offset, ramp)| Block { offset, ramp })
            .collect(),
        objects: (0..usize::from(objects))
            .map(|o| (0..blocks.len()).map(|b| object(o, b)).collect())
            .collect(),
    };
    Update {
        offset,
        objects,
        bed_or_isf_objects: beds.len() as u8,
        beds: beds.to_vec(),
        elements: elements.iter().map(element).collect(),
    }
}

fn placed(anchor: Anchor, position: [f32; 3], gain: f32, size: f32) -> Object {
    Object {
        anchor,
        position_valid: true,
        gain: Some(gain),
        position: Some(position),
        size: Some(size),
        ..Object::default()
    }
}

/// No update: 10. Then every bed code but 6, each LFE for the other, 13, 14, gains of beds.
fn beds(list: &mut List) {
    let one = Frame {
        pcm: vec![1.0],
        ..list.frame(1, &[2], 0, 1.0)
    };
    list.push(&one, vec![]);
    list.flush();
    let codes: Vec<u8> = (0..18).filter(|&code| code != 6).collect();
    let frame = list.frame(64, &codes, 0, 0.3);
    list.push(
        &frame,
        vec![update(0, &codes, 0, &[], |_, _| Object::default())],
    );
    list.push(&frame, vec![]);
    for [wanted, provided] in [[3, 17], [17, 3], [6, 6], [6, 2], [9, 2]] {
        let frame = list.frame(32, &[provided], 0, 0.3);
        list.push(
            &frame,
            vec![update(0, &[wanted], 0, &[], |_, _| Object::default())],
        );
    }
    let gain = |o: usize, b: usize| Object {
        gain: Some([0.25, 8.0][(o + b) % 2]),
        ..Object::default()
    };
    let frame = list.frame(80, &[4, 15], 0, 0.3);
    list.push(
        &frame,
        vec![update(0, &[15, 4], 0, &[&[(0, 0), (20, 0)]], gain)],
    );
    list.flush();
    list.flush();
}

/// Anchors, depth factors, positions of any kind, sizes, ramps, kept and new elements.
fn objects(list: &mut List) {
    let moving = |shift: f32| {
        move |o: usize, b: usize| {
            let at = 0.2 * o as f32 + 0.3 * b as f32 + shift;
            let object = placed(
                ANCHORS[o % 3],
                [at % 1.0, 1.0 - at % 1.0, 0.5 * at],
                0.7,
                0.0,
            );
            Object {
                screen: 0.25 * (o % 5) as f32,
                depth: DEPTHS[(o / 3) % 4],
                distance: [None, Some(1.5), Some(f32::INFINITY)][o / 3 % 3],
                ..object
            }
        }
    };
    list.reset();
    let frame = list.frame(128, &[0], 12, 0.3);
    let ramps: &[(i64, i64)] = &[(0, 200), (64, 64)];
    list.push(&frame, vec![update(0, &[0], 12, &[ramps], moving(0.0))]);
    let frame = list.frame(160, &[0], 12, 0.3);
    list.push(&frame, vec![update(32, &[0], 12, &[ramps], moving(0.4))]);
    // Other blocks, so that the elements are new; two of them, the second from 64 on.
    let two: &[&[(i64, i64)]] = &[&[(0, 0)], &[(64, 128)]];
    let frame = list.frame(200, &[0], 12, 0.3);
    list.push(&frame, vec![update(0, &[0], 12, two, moving(0.1))]);
    // Differential, then NaN and infinite positions, sizes.
    let differential = |o: usize, b: usize| Object {
        differential: true,
        position_valid: o != 2,
        ..placed(
            Anchor::Room,
            [0.1, -0.2 * b as f32, 0.3],
            1.0,
            0.25 * o as f32,
        )
    };
    let frame = list.frame(130, &[], 4, 0.3);
    list.push(&frame, vec![update(0, &[], 4, &[ramps], differential)]);
    list.push(&frame, vec![update(0, &[], 4, &[ramps], differential)]);
    let odd = [f32::NAN, f32::INFINITY, -f32::INFINITY, -0.0];
    let strange = |o: usize, _: usize| placed(ANCHORS[o % 3], [odd[o], 0.5, odd[3 - o]], 1.0, 1.0);
    list.push(&frame, vec![update(0, &[], 4, &[&[(0, 0)]], strange)]);
    list.flush();
}

/// Silence up to the first update, one of whose offset is past the end, several in a frame in any
/// order, one at the end.
fn updates(list: &mut List) {
    let at = |offset: u16, x: f32| {
        update(offset, &[1], 1, &[&[(0, 32)]], move |_, _| {
            placed(Anchor::Room, [x, 0.5, 0.0], 0.5, 0.0)
        })
    };
    list.reset();
    let frame = list.frame(70, &[1], 1, 0.5);
    list.push(&frame, vec![at(500, 0.0)]);
    list.push(&frame, vec![at(40, 0.1)]);
    list.push(
        &frame,
        vec![
            at(70, 0.9),
            at(60, 0.2),
            at(3, 0.3),
            at(60, 0.4),
            at(0, 0.5),
        ],
    );
    list.push(&frame, vec![]);
    list.flush();
    // Loud: the limiter.
    let loud = list.frame(256, &[1], 1, 16.0);
    list.push(&loud, vec![]);
    let quiet = list.frame(100, &[1], 1, 0.05);
    list.push(&quiet, vec![]);
    list.flush();
    list.flush();
    // 11 at offset 0, for the present state, later.
    let frame = list.frame(64, &[1], 2, 0.5);
    list.push(&frame, vec![at(0, 0.0)]);
    list.push(&frame, vec![]);
    let frame = list.frame(64, &[1], 1, 0.5);
    let none = update(30, &[1], 0, &[], |_, _| Object::default());
    list.push(&frame, vec![none]);
    list.push(
        &Frame {
            rate: 96_000,
            ..frame.clone()
        },
        vec![],
    );
    let empty = list.frame(0, &[1], 1, 0.5);
    list.push(&empty, vec![]);
}

/// A bed channel that becomes an object, then a bed channel again, then an object: where the object
/// has no position it is heard at the origin, not where its channel was said to be.
fn lifted(list: &mut List) {
    // The second block is due at once.
    let blocks: &[(i64, i64)] = &[(0, 0), (-1, 200)];
    let said = |o: usize, _: usize| placed(Anchor::Room, [0.9, 0.4 * o as f32, 0.8], 0.5, 0.0);
    let absent = |o: usize, b: usize| Object {
        position: None,
        differential: o == 1,
        ..said(o, b)
    };
    list.reset();
    let [bed, object] = [1, 0].map(|beds| list.frame(70, &[1][..beds], 2 - beds, 0.5));
    list.push(&bed, vec![update(0, &[1], 1, &[blocks], said)]);
    list.push(&object, vec![update(0, &[], 2, &[blocks], absent)]);
    list.push(&object, vec![update(0, &[], 2, &[blocks], said)]);
    list.push(&bed, vec![update(0, &[1], 1, &[&[(0, 0), (5, 0)]], absent)]);
    list.push(&object, vec![update(0, &[], 2, &[blocks], absent)]);
    list.flush();
}

/// Frames that 2, 3, 5, 6 and 8 refuse; and gain 8, which none does.
fn checks(list: &mut List) {
    let of_gain = |gain: f32| {
        update(0, &[1], 1, &[&[(0, 32)]], move |_, _| {
            placed(Anchor::Room, [0.5, 0.5, 0.0], gain, 0.5)
        })
    };
    list.reset();
    let frame = list.frame(65, &[1], 1, 0.5);
    list.push(&frame, vec![of_gain(8.0)]);
    list.push(&frame, vec![of_gain(8f32.next_up())]);
    list.spoilt(&frame, vec![], |call| call.codes[0] = 18);
    list.spoilt(&frame, vec![], |call| {
        call.codes.clear();
        call.objects = 0;
        call.pcm.clear();
    });
    for rate in [7_999, 192_001] {
        list.spoilt(&frame, vec![], |call| call.rate = rate);
    }
    list.spoilt(&frame, vec![], |call| call.meta = vec![5; 40]);
    // Record 3 is an object: an anchor, an absent distance, a depth factor, a size; record 2 a block.
    for (at, byte) in [
        (121, 3),
        (140, 1),
        (155, 0),
        (147, 0x7f),
        (98, 16),
        (39, 1),
        (7, 3),
    ] {
        list.spoilt(&frame, vec![of_gain(1.0)], |call| call.meta[at] = byte);
    }
    for loud in [16.0, 16f32.next_up(), f32::NAN, -f32::INFINITY] {
        list.spoilt(&frame, vec![], |call| {
            call.pcm[8..12].copy_from_slice(&loud.to_le_bytes());
        });
    }
    list.flush();
}

/// An object on the bass feed beside a bed: its send stays, goes to 1, to next to nothing, to -0.0;
/// the bed's own does nothing; sends that 6 refuses, of an update that is dropped too.
fn sends(list: &mut List) {
    let sent = |offset: u16, send: f32, bed: f32| {
        update(offset, &[3], 1, &[&[(0, 0), (-1, 0)]], move |o, _| Object {
            send: [bed, send][o],
            ..placed(Anchor::Room, [0.25, 0.5, 0.5], 0.5, 0.25)
        })
    };
    list.reset();
    let frame = list.frame(65, &[3], 1, 0.5);
    for send in [0.5, 1.0, 1e-45, -0.0] {
        list.push(&frame, vec![sent(0, send, 0.25)]);
        list.push(&frame, vec![]);
    }
    for wrong in [1f32.next_up(), -1e-45, f32::NAN, f32::INFINITY] {
        list.push(&frame, vec![sent(0, wrong, 0.0)]);
        list.push(&frame, vec![sent(0, 0.5, wrong)]);
        list.push(&frame, vec![sent(65, wrong, 0.0)]);
    }
    list.flush();
}

/// The bass feed at both ends of the rates, and at one where std's sine is not the nearest f32.
fn rates(list: &mut List) {
    for rate in [8_000, 8_025, 192_000] {
        list.reset();
        let frame = Frame {
            rate,
            ..list.frame(64, &[3], 0, 0.9)
        };
        list.push(
            &frame,
            vec![update(0, &[3], 0, &[], |_, _| Object::default())],
        );
    }
}

/// Short lists from the generator.
fn drawn(list: &mut List) {
    for seed in 0..12 {
        let mut calls = Calls::new(seed, 80);
        list.reset();
        for _ in 0..6 {
            let step = calls.next_step();
            if !matches!(&step, Step::Push(call) if call.meta.len() + call.pcm.len() > 12_000) {
                list.step(&step);
            }
        }
    }
}

/// The calls: the program's standard input.
pub fn stdin() -> Vec<u8> {
    let mut list = List {
        inputs: Generator::new(2_024),
        stream: Vec::new(),
    };
    beds(&mut list);
    objects(&mut list);
    updates(&mut list);
    checks(&mut list);
    rates(&mut list);
    lifted(&mut list);
    sends(&mut list);
    drawn(&mut list);
    // A cut record ends the list.
    list.stream.extend([7; 39]);
    list.stream
}

/// What the oracle has the program print. Every answer that it can give must arise.
pub fn stdout(stdin: &[u8]) -> String {
    let text = streams::played(stdin);
    let mut answers = BTreeMap::new();
    for line in text.lines().filter(|line| line.len() < 90) {
        let answer: Vec<&str> = line.split(' ').take(2).collect();
        let answer = match answer[0] {
            "ready" => "ready".to_string(),
            _ => answer.join(" "),
        };
        *answers.entry(answer).or_insert(0) += 1;
    }
    // ready, none, reset, bad record, and 2 to 14 but 4 and 7
    assert_eq!(answers.len(), 4 + 11, "{answers:?}");
    text
}
