// SPDX-License-Identifier: Apache-2.0
//! What the writer writes is never refused by 5 or 6, whatever it is told, and is read back by the
//! parser; what it turns down leaves the records as they were.

use crate::draw::Draw;
use std::collections::HashMap;
use voqlisna::records::{Record, read};
use voqlisna::*;

const FRAMES: u64 = 20_000;

/// Any object, now and then one that cannot be written.
fn any_object(draw: &mut Draw) -> Object {
    let value = |draw: &mut Draw| {
        if draw.once_in(40) {
            draw.float()
        } else {
            draw.share()
        }
    };
    Object {
        anchor: draw.pick(&Anchor::ALL),
        gain: draw.once_in(2).then(|| value(draw)),
        position: draw.once_in(2).then(|| Room {
            x: draw.float(),
            y: draw.float(),
            z: draw.float(),
        }),
        valid: draw.once_in(2),
        differential: draw.once_in(2),
        distance: draw.once_in(2).then(|| draw.float()),
        size: draw.once_in(2).then(|| value(draw)),
        screen_factor: draw.float(),
        depth: draw.pick(&Depth::ALL),
        send: value(draw),
    }
}

fn any_time(draw: &mut Draw) -> i64 {
    match draw.below(60) {
        0 => draw.word() as i64,
        1 => draw.pick(&[-1_048_576, 1_048_576, 1_048_577, i64::MIN]),
        _ => draw.below(400) as i64 - 100,
    }
}

/// Adds an update with elements; answers why it was turned down.
fn add(draw: &mut Draw, writer: &mut MetadataWriter<'_>) -> Result<(), BuildError> {
    let most = if draw.once_in(8) { 40 } else { 6 };
    let objects = draw.below(most) as u8;
    let beds: Vec<Bed> = (0..draw.below(usize::from(objects.min(20)) + 2))
        .map(|_| draw.pick(&Bed::ALL))
        .collect();
    let fixed = if draw.once_in(8) {
        draw.word() as u8
    } else {
        objects.saturating_sub(draw.below(18) as u8)
    };
    let beds = &beds;
    let mut update = if draw.once_in(3) {
        writer.update_ahead(Ahead {
            at: draw.word() as u32,
            objects,
            fixed,
            beds,
        })?
    } else {
        writer.update(Update {
            at: draw.word() as u16,
            objects,
            fixed,
            beds,
        })?
    };
    for _ in 0..draw.below(4) {
        let count = if draw.once_in(20) {
            draw.below(12)
        } else {
            draw.below(4)
        };
        let blocks: Vec<_> = (0..count)
            .map(|_| Block {
                offset: any_time(draw),
                ramp: any_time(draw),
            })
            .collect();
        update = update.element(&blocks, |_, _| any_object(draw))?;
    }
    Ok(())
}

/// Reads records and writes them again.
fn again(bytes: &[u8]) -> Vec<u8> {
    let all: Vec<_> = read(bytes).map(|placed| placed.unwrap().record).collect();
    let mut memory = vec![0xee; bytes.len()];
    let mut writer = MetadataWriter::new(&mut memory);
    for update in all.chunk_by(|_, next| !matches!(next, Record::Update { .. })) {
        let mut writing = begin(&mut writer, &update[0]);
        for element in update[1..].chunk_by(|_, next| !matches!(next, Record::Element { .. })) {
            let (mut blocks, mut objects) = (Vec::new(), Vec::new());
            for record in &element[1..] {
                match record {
                    Record::Block(block) => blocks.push(*block),
                    Record::Object(object) => objects.push(*object),
                    other => panic!("{other:?}"),
                }
            }
            let count = blocks.len();
            writing = writing
                .element(&blocks, |o, b| objects[o * count + b])
                .unwrap();
        }
    }
    writer.finish().as_bytes().to_vec()
}

fn begin<'w, 'm>(writer: &'w mut MetadataWriter<'m>, record: &Record<'_>) -> UpdateWriter<'w, 'm> {
    let Record::Update {
        at,
        ahead,
        objects,
        fixed,
        codes,
        ..
    } = *record
    else {
        panic!("{record:?}")
    };
    let beds: Vec<_> = codes
        .iter()
        .map(|code| Bed::from_code(*code).unwrap())
        .collect();
    let beds = &beds;
    let writing = if ahead {
        writer.update_ahead(Ahead {
            at,
            objects,
            fixed,
            beds,
        })
    } else {
        writer.update(Update {
            at: at.try_into().unwrap(),
            objects,
            fixed,
            beds,
        })
    };
    writing.unwrap()
}

#[test]
fn is_never_refused_by_5_or_6_and_is_read_back() {
    let (mut renderer, mut out) = (
        Renderer::new(Layout::Hall714).unwrap(),
        Output::new(Stride::MAX),
    );
    let (mut turned_down, mut records, mut memory) = (HashMap::new(), 0, vec![0xa5; 40 * 700]);
    for case in 0..FRAMES {
        let mut draw = Draw::new(2, case);
        let length = if draw.once_in(8) {
            draw.below(memory.len())
        } else {
            memory.len()
        };
        let mut writer = MetadataWriter::new(&mut memory[..length]);
        let updates = if draw.once_in(50) { 40 } else { 4 };
        for _ in 0..draw.below(updates) {
            if let Err(error) = add(&mut draw, &mut writer) {
                *turned_down
                    .entry(std::mem::discriminant(&error))
                    .or_insert(0) += 1;
            }
        }
        let metadata = writer.finish();
        records += metadata.records();
        assert_eq!(
            again(metadata.as_bytes()),
            metadata.as_bytes(),
            "case {case}"
        );
        let frame = Frame::new(Rate::HZ_48000, &[], Pcm::EMPTY, metadata).unwrap();
        let refusal = renderer.push(&frame, &mut out).unwrap_err();
        assert!(refusal.number() > 8, "case {case}: {refusal}");
    }
    println!("{records} records; turned down {:?}", turned_down.values());
    assert_eq!(turned_down.len(), 11, "every BuildError");
}

#[test]
fn what_is_turned_down_leaves_the_records() {
    let mut memory = [0; 40 * 8];
    let mut writer = MetadataWriter::new(&mut memory);
    let head = Update {
        at: 0,
        objects: 1,
        fixed: 0,
        beds: &[],
    };
    let loud = writer
        .update(head)
        .unwrap()
        .element(&[Block::default()], |_, _| Object::KEEP.gain(9.0));
    assert_eq!(loud.err(), Some(BuildError::Gain));
    assert_eq!(writer.metadata().records(), 1);
    for send in [-1e-45, 1.0000001, f32::NAN, f32::INFINITY] {
        let sent = writer
            .update(head)
            .unwrap()
            .element(&[Block::default()], |_, _| Object::KEEP.send(send));
        assert_eq!(sent.err(), Some(BuildError::Send), "{send}");
        writer.clear();
        writer.update(head).unwrap();
    }
    let long = writer
        .update(head)
        .unwrap()
        .element(&[Block::default(); 8], |_, _| Object::KEEP);
    assert_eq!(long.err(), Some(BuildError::Full { needed: 40 * 19 }));
    assert_eq!(
        records::read(writer.metadata().as_bytes())
            .filter(Result::is_ok)
            .count(),
        2
    );
    writer.clear();
    assert!(writer.finish().is_empty());
}

#[test]
fn bytes_for_is_what_an_update_takes() {
    for (objects, blocks) in [(0, vec![]), (1, vec![1]), (5, vec![2, 3]), (32, vec![8, 8])] {
        let mut memory = vec![0; MetadataWriter::bytes_for(objects, &blocks)];
        let needed = memory.len();
        let mut writer = MetadataWriter::new(&mut memory);
        let head = Update {
            at: 0,
            objects: objects as u8,
            fixed: objects as u8,
            beds: &[],
        };
        let mut update = writer.update(head).unwrap();
        for count in blocks {
            update = update
                .element(&vec![Block::default(); count], |_, _| Object::KEEP)
                .unwrap();
        }
        assert_eq!(writer.metadata().as_bytes().len(), needed);
    }
    assert_eq!(
        MetadataWriter::bytes_for(32, &[8, 8]) * 16,
        MetadataWriter::MOST_RECORDS * 40
    );
}
