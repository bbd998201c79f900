// SPDX-License-Identifier: Apache-2.0
//! Updates that lie ahead of their frames: rendered, checked and shown.
mod common;
use common::{feed, frame};
use voqlisna::{Ahead, Block, MetadataWriter, Object, Room, Update};

const SAMPLES: usize = 100;
const FRAMES: usize = 30;
/// In the frame from 2,100 on.
const FALLS: usize = 2_140;

/// One object at a side wall, at a sample of the frame or ahead of it.
fn update(at: usize, ahead: bool, x: f32) -> Vec<u8> {
    let mut memory = vec![0; MetadataWriter::bytes_for(1, &[1])];
    let mut writer = MetadataWriter::new(&mut memory);
    let (objects, fixed, beds) = (1, 0, &[][..]);
    let writing = match ahead {
        true => writer.update_ahead(Ahead {
            at: at as u32,
            objects,
            fixed,
            beds,
        }),
        false => writer.update(Update {
            at: at as u16,
            objects,
            fixed,
            beds,
        }),
    };
    let object = Object::at(Room { x, y: 0.5, z: 0.0 }).gain(1.0);
    let block = [Block {
        offset: 0,
        ramp: 200,
    }];
    writing.unwrap().element(&block, |_, _| object).unwrap();
    memory
}

/// Frames of a constant, with this metadata.
fn programme(metadata: impl Fn(usize) -> Vec<u8>) -> Vec<u8> {
    let frames = (0..FRAMES).map(|k| frame(48_000, &[], 1, &metadata(k), &[0.5; SAMPLES]));
    frames.flatten().collect()
}

fn ahead(from: usize) -> Vec<u8> {
    programme(|k| match k {
        0 => update(0, false, 0.0),
        _ if k == from => update(FALLS - SAMPLES * from, true, 1.0),
        _ => Vec::new(),
    })
}

#[test]
fn it_is_rendered_where_its_sample_falls() {
    let inside = programme(|k| match k {
        0 => update(0, false, 0.0),
        21 => update(40, false, 1.0),
        _ => Vec::new(),
    });
    let render = |bytes: &[u8]| feed(&["render", "-", "-o", "-"], bytes);
    let wanted = render(&inside);
    assert_eq!(wanted.code, 0);
    for from in [1, 7, 20, 21] {
        assert!(render(&ahead(from)) == wanted, "sent in frame {from}");
    }
    let never = programme(|k| match k {
        0 => update(0, false, 0.0),
        _ => Vec::new(),
    });
    let at = 104 + 48 * FALLS;
    let heard = render(&never).out;
    assert!(heard[..at] == wanted.out[..at] && heard[at..] != wanted.out[at..]);
}

#[test]
fn it_is_shown_with_the_sample_where_it_falls() {
    let bytes = ahead(7);
    let said = feed(&["dump", "-"], &bytes);
    let line = "  update ahead at 1440 objects 1 fixed 0 elements 1 # at sample 2140\n";
    assert!(said.text().contains(line), "{}", said.text());
    let back = feed(&["undump", "-", "-o", "-"], &said.out);
    assert!(back.out == bytes);
}

/// Eight may wait.
#[test]
fn a_ninth_is_told() {
    let bytes = programme(|k| match k {
        0 => update(0, false, 0.0),
        1..=9 => update(5_000, true, 1.0),
        _ => Vec::new(),
    });
    let said = feed(&["check", "-"], &bytes);
    let wanted = "frame 10 at 0.019 s: refused 25 (programme): more than 8 updates would wait, or more than 1,200 records of them\n\
        30 frames, 1 refused: 1 programme\n";
    assert_eq!((said.code, said.text()), (1, wanted));
}
