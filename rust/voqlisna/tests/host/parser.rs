// SPDX-License-Identifier: Apache-2.0
//! The parser is a second reading of the layout: it finds a 5 or a 6 exactly where push refuses by
//! it, and mending the byte that `explain` names moves the refusal on.

use crate::draw::{Draw, Scene, damage};
use voqlisna::records::{Fault, Why, first_fault};
use voqlisna::*;

const CASES: u64 = 60_000;

fn refused(renderer: &mut Renderer, out: &mut Output, metadata: &[u8]) -> Refusal {
    let frame = Frame::new(
        Rate::HZ_48000,
        &[],
        Pcm::EMPTY,
        Metadata::from_records(metadata),
    )
    .unwrap();
    renderer.push(&frame, out).unwrap_err()
}

/// A record that is right by itself.
fn record(kind: u8) -> [u8; 40] {
    let mut record = [0; 40];
    record[0] = kind;
    if kind == 4 {
        record[32..36].copy_from_slice(&1f32.to_le_bytes());
    }
    record
}

/// Puts the place right that the fault names.
fn mend(metadata: &mut Vec<u8>, fault: Fault) {
    let at = 40 * fault.index + fault.byte;
    let mut put = |bytes: &[u8]| metadata[at..at + bytes.len()].copy_from_slice(bytes);
    match fault.why {
        Why::Kind { expected, .. } => put(&[expected]),
        Why::NotZero { .. } => put(&[0]),
        Why::OverLimit {
            what: "dynamic objects",
            ..
        } => metadata[at] = metadata[at - 1] - 16,
        Why::OverLimit { most, .. } => put(&[most]),
        Why::Value { most, .. } => put(&most.to_le_bytes()),
        Why::Time { .. } => put(&[0; 8]),
        Why::Depth { .. } => put(&2f32.to_le_bytes()),
        Why::Updates => metadata.truncate(at),
        Why::Missing { expected } => metadata.extend(record(expected)),
        Why::Cut { bytes } => metadata.resize(metadata.len() + 40 - bytes, 0),
        other => panic!("{other:?}"),
    }
}

/// Mends until push refuses by neither; each fault lies behind the one before.
fn mend_all(renderer: &mut Renderer, out: &mut Output, metadata: &mut Vec<u8>) -> usize {
    let (mut mended, mut last) = (0, None);
    loop {
        let refusal = refused(renderer, out, metadata);
        let bytes = metadata.clone();
        let frame = Frame::new(
            Rate::HZ_48000,
            &[],
            Pcm::EMPTY,
            Metadata::from_records(&bytes),
        )
        .unwrap();
        let Some(Cause::Record(fault)) = explain(&frame, Stride::MAX, refusal) else {
            assert!(refusal.number() > 8, "{refusal}");
            return mended;
        };
        // A cut record is judged only when it is whole.
        let byte = if matches!(fault.why, Why::Cut { .. }) {
            0
        } else {
            fault.byte + 1
        };
        let place = Some((fault.number, fault.index, byte));
        assert!(
            u32::from(fault.number) == refusal.number() && place > last,
            "{fault} after {last:?}"
        );
        assert!(!fault.to_string().is_empty());
        last = place;
        mend(metadata, fault);
        mended += 1;
    }
}

#[test]
fn finds_what_push_refuses_and_names_the_byte() {
    let (mut renderer, mut out) = (
        Renderer::new(Layout::Hall714).unwrap(),
        Output::new(Stride::MAX),
    );
    let (mut fives, mut sixes, mut neither, mut mended) = (0, 0, 0, 0);
    for case in 0..CASES {
        let mut draw = Draw::new(3, case);
        let scene = Scene {
            rate: Rate::HZ_48000,
            beds: vec![Bed::Center; draw.below(3)],
            objects: draw.below(3),
        };
        let mut metadata = scene.frame(&mut draw, 64).metadata;
        for _ in 0..draw.below(3) {
            damage(&mut draw, &mut metadata);
        }
        let (five, six) = (first_fault(&metadata, 5), first_fault(&metadata, 6));
        let refusal = refused(&mut renderer, &mut out, &metadata);
        let expected = match (five, six) {
            (Some(_), _) => 5,
            (None, Some(_)) => 6,
            (None, None) => 0,
        };
        assert_eq!(
            if refusal.number() > 8 {
                0
            } else {
                refusal.number()
            },
            expected,
            "case {case}: {metadata:?}"
        );
        match expected {
            5 => fives += 1,
            6 => sixes += 1,
            _ => neither += 1,
        }
        mended += mend_all(&mut renderer, &mut out, &mut metadata);
    }
    println!("{fives} refused by 5, {sixes} by 6, {neither} by neither; {mended} places mended");
    assert!(fives > 1_000 && sixes > 1_000 && neither > 1_000 && mended > fives + sixes);
}

#[test]
fn the_seventeenth_update_is_too_many() {
    let metadata = record(1).repeat(17);
    let fault = first_fault(&metadata, 5).unwrap();
    assert_eq!((fault.index, fault.byte, fault.why), (16, 0, Why::Updates));
    let (mut renderer, mut out) = (
        Renderer::new(Layout::Hall714).unwrap(),
        Output::new(Stride::MAX),
    );
    assert_eq!(
        refused(&mut renderer, &mut out, &metadata),
        Refusal::Records
    );
    assert!(refused(&mut renderer, &mut out, &metadata[40..]).number() > 8);
}
