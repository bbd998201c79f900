// SPDX-License-Identifier: Apache-2.0
//! Saved and brought back in mid-stream: the same samples and blocks. Damaged: turned down.

use crate::draw::{Draw, Scene};
use crate::raw;
use voqlisna::*;

/// A renderer in mid-stream, and the frames that go on.
fn running(case: u64) -> (Renderer, Scene, Draw) {
    let mut draw = Draw::new(6, case);
    let (scene, mut out) = (Scene::draw(&mut draw), Output::new(Stride::MAX));
    let (layout, table) = (draw.pick(&Layout::ALL), draw.table());
    let mut renderer = Renderer::with_table(layout, &table).unwrap();
    while renderer.block() == raw::fresh_with(layout, &table) {
        let _ = renderer.push(&scene.frame(&mut draw, 100).frame(), &mut out);
    }
    (renderer, scene, draw)
}

#[test]
fn goes_on_where_it_was() {
    let (mut out, mut other) = (Output::new(Stride::MAX), Output::new(Stride::MAX));
    let (mut file, mut memory) = (vec![0; Snapshot::size()], vec![0; sys::STATE_SIZE]);
    for case in 0..40 {
        let (mut first, scene, mut draw) = running(case);
        let saved = first.save(&mut file).unwrap();
        assert!(saved.block() == first.block() && saved.as_bytes().len() == Snapshot::size());
        let snapshot = Snapshot::read(saved.as_bytes()).unwrap();
        let mut second = Renderer::restore(snapshot).unwrap();
        let mut third = Renderer::restore_over(snapshot, &mut memory).unwrap();
        for restored in [second.layout(), third.layout()] {
            assert_eq!(restored, first.layout());
        }
        for restored in [second.table(), third.table()] {
            assert_eq!(restored.to_bytes(), first.table().to_bytes());
        }
        for _ in 0..20 {
            let owned = scene.frame(&mut draw, 90);
            let rendered = first.push(&owned.frame(), &mut out).unwrap();
            let again = second.push(&owned.frame(), &mut other).unwrap();
            assert!(
                rendered
                    .channels()
                    .zip(again.channels())
                    .all(|(a, b)| a == b),
                "case {case}"
            );
            third.push(&owned.frame(), &mut other).unwrap();
            assert!(
                first.block() == second.block() && first.block() == third.block(),
                "case {case}"
            );
        }
    }
}

#[test]
fn what_is_not_one_is_turned_down() {
    let (renderer, ..) = running(0);
    let mut file = vec![0; Snapshot::size()];
    let needed = file.len();
    assert_eq!(
        renderer.save(&mut file[1..]).err(),
        Some(SnapshotError::Memory { needed })
    );
    renderer.save(&mut file).unwrap();
    let read = |bytes: &[u8]| Snapshot::read(bytes).err();
    let with = |at: usize, value: u8| {
        let mut bytes = file.clone();
        bytes[at] = value;
        read(&bytes)
    };
    assert_eq!(read(&file), None);
    assert_eq!(read(&[]), Some(SnapshotError::NotOne));
    assert_eq!(read(&file[..needed - 1]), Some(SnapshotError::NotOne));
    assert_eq!(with(0, b'h'), Some(SnapshotError::NotOne));
    assert_eq!(with(4, 9), Some(SnapshotError::Version(9)));
    assert_eq!(with(8, 0), Some(SnapshotError::NotOne));
    assert_eq!(with(needed - 1, 77), Some(SnapshotError::Damaged));
    let mut memory = [0; 9];
    let short = Renderer::restore_over(Snapshot::read(&file).unwrap(), &mut memory);
    assert_eq!(
        short.err(),
        Some(SnapshotError::Memory {
            needed: sys::STATE_SIZE
        })
    );
}

/// CRC-32 by its definition over polynomials: the remainder of the message, its ends inverted.
fn crc32(bytes: &[u8]) -> u32 {
    let mut sum = u32::MAX;
    for bit in bytes
        .iter()
        .flat_map(|byte| (0..8).map(move |k| byte >> k & 1))
    {
        let carry = (sum & 1) as u8 ^ bit;
        sum = sum >> 1 ^ if carry == 1 { 0xedb8_8320 } else { 0 };
    }
    !sum
}

#[test]
fn a_field_out_of_range_is_turned_down_by_the_library() {
    assert_eq!(
        crc32(b"123456789"),
        0xcbf4_3926,
        "the check value of CRC-32"
    );
    let (renderer, ..) = running(1);
    let mut file = vec![0; Snapshot::size()];
    renderer.save(&mut file).unwrap();
    let (layout, table) = (sys::LAYOUT_AT, sys::TABLE_AT);
    for (byte, value) in [
        (4, 64),
        (64, 64),
        (68, 2),
        (80, 33),
        (1424, 64),
        (layout, 4),
        (table + 3, 0x40),
        (table + 36 + 3, 0x7f),
    ] {
        let mut forged = file.clone();
        forged[16 + byte] = value;
        let sum = crc32(&forged[16..]);
        forged[12..16].copy_from_slice(&sum.to_le_bytes());
        let snapshot = Snapshot::read(&forged).unwrap();
        assert_eq!(
            Renderer::restore(snapshot).err(),
            Some(SnapshotError::Range),
            "byte {byte}"
        );
    }
}
