// SPDX-License-Identifier: Apache-2.0
//! Document 02, R-13: the places that are found, beside what an object there is heard from.

use crate::draw::Draw;
use crate::raw;
use voqlisna::*;

/// Places of the grid.
const ACROSS: usize = 65;
const UP: usize = 17;

fn grid(draw: &mut Draw) -> Panned {
    let across = |i: usize| (i as f32 - 32.0) / 32.0;
    Panned {
        x: across(draw.below(ACROSS)),
        y: draw.below(UP) as f32 / 16.0,
        z: across(draw.below(ACROSS)),
    }
}

fn is_of_the_grid(place: Panned) -> bool {
    let whole = |x: f32| x.fract() == 0.0;
    let across = |x: f32| whole(32.0 * x) && (-1.0..=1.0).contains(&x);
    across(place.x) && across(place.z) && whole(16.0 * place.y) && (0.0..=1.0).contains(&place.y)
}

/// "the first by y, then z, then x, each rising"
fn is_before_or_at(a: Panned, b: Panned) -> bool {
    (a.y, a.z, a.x) <= (b.y, b.z, b.x)
}

/// The speakers that sound of an object of gain 1 and size 0 that a record sends to this place.
fn heard(renderer: &mut Renderer, out: &mut Output, place: Panned) -> Vec<Speaker> {
    let mut memory = [0; MetadataWriter::bytes_for(1, &[1])];
    let mut writer = MetadataWriter::new(&mut memory);
    let update = Update {
        at: 0,
        objects: 1,
        fixed: 0,
        beds: &[],
    };
    let object = Object::at(place.room()).gain(1.0);
    let update = writer.update(update).unwrap();
    update.element(&[Block::default()], |_, _| object).unwrap();
    let pcm = Pcm::packed(&[1.0; 128], 1).unwrap();
    let frame = Frame::new(Rate::HZ_48000, &[], pcm, writer.finish()).unwrap();
    renderer.reset();
    let sound = renderer.push(&frame, out).unwrap();
    let sounds = |(_, samples): &(Speaker, &[f32])| samples[64] != 0.0;
    sound.channels().filter(sounds).map(|(s, _)| s).collect()
}

/// A record that is sent to a place of the grid is panned at the place itself, so that places are found
/// again.
#[test]
fn records_have_the_grid_exactly() {
    for case in 0..5_000 {
        let place = grid(&mut Draw::new(21, case));
        let Panned { x, y, z } = place.room().panned();
        let bits = [x, y, z].map(f32::to_bits);
        assert_eq!(bits, [place.x, place.y, place.z].map(f32::to_bits));
    }
}

/// From any place of the grid, in each layout and over drawn tables: what is heard there is found, not
/// behind it, and heard there too.
#[test]
fn what_is_heard_is_found() {
    let mut out = Output::new(Stride::for_frames_of(128).unwrap());
    let (mut sizes, mut earlier) = ([0; 13], 0);
    for case in 0..400 {
        let mut draw = Draw::new(22, case);
        let (layout, table) = (Layout::ALL[case as usize % 4], draw.table());
        let mut renderer = Renderer::with_table(layout, &table).unwrap();
        let place = grid(&mut draw);
        let mut speakers = heard(&mut renderer, &mut out, place);
        let before = renderer.block().to_vec();
        let found = renderer.find(&speakers).unwrap();
        assert!(renderer.block() == before);
        assert!(
            is_of_the_grid(found) && is_before_or_at(found, place),
            "case {case}: {found:?}"
        );
        assert_eq!(
            heard(&mut renderer, &mut out, found),
            speakers,
            "case {case}"
        );
        sizes[speakers.len()] += 1;
        earlier += u32::from(found != place);
        // In another order, and one of them twice.
        speakers.reverse();
        speakers.push(speakers[0]);
        assert_eq!(renderer.find(&speakers), Some(found));
    }
    println!("by the number of speakers: {sizes:?}, {earlier} found elsewhere");
    assert_eq!(sizes[0], 0, "something is heard everywhere");
    assert!(earlier > 200 && sizes.iter().filter(|n| **n > 0).count() > 4);
}

/// Places that are worked out by hand.
#[test]
fn the_first_place_is_answered() {
    let hall = Renderer::new(Layout::Hall714).unwrap();
    let found = |speakers: &[Speaker]| hall.find(speakers).map(|p| [p.x, p.y, p.z]);
    // The rear left corner of the floor is where the order begins, and BL sounds there alone.
    assert_eq!(found(&[Speaker::RearLeft]), Some([-1.0, 0.0, -1.0]));
    // FC alone is at the middle of the screen.
    assert_eq!(found(&[Speaker::Center]), Some([0.0, 0.0, 1.0]));
    // Rear left and right share the rear wall between their places, -0.707 and 0.707.
    let rear = [Speaker::RearLeft, Speaker::RearRight];
    assert_eq!(found(&rear), Some([-0.6875, 0.0, -1.0]));
    // One layer up, the same of the ceiling.
    let top = [Speaker::TopRearLeft, Speaker::TopRearRight];
    assert_eq!(found(&top), Some([-0.6875, 1.0, -1.0]));
    // Between both layers all four of the rear wall.
    let four = [rear, top].concat();
    assert_eq!(found(&four), Some([-0.6875, 0.0625, -1.0]));
}

/// "An empty mask, a mask with bit 3 or an absent speaker gives none; a mask above 4,095 does too."
#[test]
fn there_is_none() {
    for layout in Layout::ALL {
        let renderer = Renderer::new(layout).unwrap();
        assert_eq!(renderer.find(&[]), None);
        assert_eq!(renderer.find(&[Speaker::FrontLeft, Speaker::Bass]), None);
        assert_eq!(
            renderer.find(&[Speaker::FrontLeft, Speaker::SurroundRight]),
            None
        );
        // The side speakers' row lies between two rows of the grid: alone they sound where no other
        // row is behind them.
        let rear = layout.has(Speaker::RearLeft);
        for speaker in Speaker::ALL {
            let alone = renderer.find(&[speaker]);
            let wanted = match speaker {
                Speaker::Bass => false,
                Speaker::SurroundLeft | Speaker::SurroundRight => !rear,
                _ => layout.has(speaker),
            };
            assert_eq!(alone.is_some(), wanted, "{layout}: {speaker}");
        }
    }
    let block = raw::fresh(Layout::Hall714);
    let center = raw::find(&block, 4);
    assert_eq!((center.kind, center.number, center.z), (0, 0, 1.0));
    for mask in [0, 8, 12, 4096, 4100, 1 << 31 | 4, u32::MAX] {
        let none = raw::find(&block, mask);
        assert_eq!((none.kind, none.number), (2, 0), "{mask}");
        assert_eq!([none.x, none.y, none.z].map(f32::to_bits), [0; 3]);
    }
}

#[test]
fn a_block_that_is_not_valid_is_1() {
    let block = raw::fresh(Layout::Hall714);
    let mut damaged = block.clone();
    damaged[sys::LAYOUT_AT] = 4;
    for wrong in [&block[1..], &damaged] {
        for mask in [0, 4, 4100] {
            let answer = raw::find(wrong, mask);
            assert_eq!((answer.kind, answer.number), (1, 1));
            assert_eq!([answer.x, answer.y, answer.z].map(f32::to_bits), [0; 3]);
        }
    }
}
