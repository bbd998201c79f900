// SPDX-License-Identifier: Apache-2.0
//! Hall tables: right exactly where the library takes them, and what is wrong is named.

use crate::draw::Draw;
use crate::raw;
use voqlisna::*;

const CASES: u64 = 20_000;

/// What `hall_make_with_table` answers to those bytes: 0 where it takes them.
fn judged(bytes: &[u8]) -> u32 {
    let mut state = vec![0; sys::STATE_SIZE];
    raw::make_with(&mut state, 0, bytes).number
}

/// What is named is there, and nothing before it.
fn is_named(places: &[Panned; 12], error: TableError) {
    match error {
        TableError::Coordinate {
            speaker,
            axis,
            value,
        } => {
            let at = 3 * speaker.channel() + axis as usize;
            let floats: Vec<f32> = places.iter().flat_map(|p| [p.x, p.y, p.z]).collect();
            assert_eq!(floats[at].to_bits(), value.to_bits());
            let bad = floats.iter().position(|x| x.is_nan() || x.abs() > 1.0);
            assert_eq!(bad, Some(at));
        }
        TableError::SamePlace { first, second } => {
            assert!(first < second && first != Speaker::Bass && second != Speaker::Bass);
            assert_eq!(places[first.channel()], places[second.channel()]);
        }
        _ => panic!("{error}"),
    }
}

#[test]
fn a_table_is_right_where_the_library_takes_it() {
    let mut numbers = [0; 19];
    for case in 0..CASES {
        let mut draw = Draw::new(11, case);
        let places = draw.places();
        let floats = places.iter().flat_map(|p| [p.x, p.y, p.z]);
        let mut bytes: Vec<u8> = floats.flat_map(f32::to_le_bytes).collect();
        if draw.once_in(8) {
            bytes.resize(draw.below(300), 0);
        }
        let table = HallTable::from_bytes(&bytes);
        let number = table.map_or_else(|error| error.refusal().number(), |_| 0);
        assert_eq!(number, judged(&bytes), "case {case}: {table:?}");
        numbers[number as usize] += 1;
        match table {
            Ok(table) => assert!(table.to_bytes()[..] == bytes, "case {case}"),
            Err(TableError::Length(length)) => assert_eq!(length, bytes.len()),
            Err(error) => {
                is_named(&places, error);
                assert_eq!(
                    HallTable::new(places).unwrap_err().to_string(),
                    error.to_string()
                );
            }
        }
    }
    println!("by number: {numbers:?}");
    assert!([0, 16, 17, 18].iter().all(|number| numbers[*number] > 500));
}

/// The lowest number, over the whole table.
#[test]
fn the_first_reason_is_named() {
    let mut places = *HallTable::BUILT_IN.places();
    let said = |places| HallTable::new(places).unwrap_err().to_string();
    places[4] = places[10];
    assert_eq!(said(places), "BL and TBL are at the same place");
    places[1] = places[2];
    assert_eq!(said(places), "FR and FC are at the same place");
    places[11].z = -1.5;
    assert_eq!(said(places), "z of TBR is -1.5, and must be from -1 to 1");
    places[3].y = f32::NAN;
    assert_eq!(said(places), "y of LFE is NaN, and must be from -1 to 1");
    let length = HallTable::from_bytes(&[0; 143]).unwrap_err();
    assert_eq!(
        length.to_string(),
        "a hall table has 144 bytes, and this one 143"
    );
}

/// The bass feed may be where another is; a zero is the other zero.
#[test]
fn of_the_bass_feed_no_place_is_asked() {
    let mut places = *HallTable::BUILT_IN.places();
    assert_eq!(
        places[Speaker::Bass.channel()],
        places[Speaker::Center.channel()]
    );
    places[3] = places[7];
    assert!(HallTable::new(places).is_ok());
    places[0] = Panned {
        x: -0.0,
        ..places[2]
    };
    assert!(matches!(
        HallTable::new(places),
        Err(TableError::SamePlace {
            first: Speaker::FrontLeft,
            second: Speaker::Center
        })
    ));
}

#[test]
fn the_built_in_table_is_the_librarys() {
    for layout in Layout::ALL {
        let (renderer, own) = (
            Renderer::new(layout).unwrap(),
            Renderer::with_table(layout, &HallTable::BUILT_IN).unwrap(),
        );
        assert!(renderer.block() == own.block() && renderer.block() == raw::fresh(layout));
        assert_eq!(renderer.table().to_bytes(), HallTable::BUILT_IN.to_bytes());
    }
    for speaker in Speaker::ALL {
        let place = speaker.place().unwrap_or(HallTable::BUILT_IN.places()[3]);
        assert_eq!(HallTable::BUILT_IN.place(speaker), place);
    }
}

/// Made over the crate and by the entry: one block, which reset keeps the hall of.
#[test]
fn a_renderer_has_its_table() {
    for case in 0..200 {
        let mut draw = Draw::new(12, case);
        let (layout, table) = (draw.pick(&Layout::ALL), draw.table());
        let mut memory = draw.bytes(sys::STATE_SIZE);
        let mut lent = Renderer::over_with_table(&mut memory, layout, &table).unwrap();
        assert!(
            lent.block() == raw::fresh_with(layout, &table),
            "case {case}"
        );
        lent.reset();
        assert!(
            lent.block() == raw::fresh_with(layout, &table),
            "case {case}"
        );
        assert_eq!((lent.layout(), lent.table()), (layout, table));
    }
    let mut short = [0; 9];
    let made = Renderer::over_with_table(&mut short, Layout::Hall714, &HallTable::BUILT_IN);
    let needed = sys::STATE_SIZE;
    assert_eq!(made.err(), Some(MakeError::Length { needed }));
}

/// An object where a speaker hangs sounds from it alone: the heights are the table's own.
#[test]
fn an_object_at_a_speaker_sounds_from_it_alone() {
    let mut places = *HallTable::BUILT_IN.places();
    for (place, height) in places.iter_mut().zip(0..) {
        place.y = height as f32 / 16.0 - 0.25;
    }
    let table = HallTable::new(places).unwrap();
    let mut out = Output::new(Stride::for_frames_of(256).unwrap());
    for speaker in Speaker::ALL.into_iter().filter(|s| *s != Speaker::Bass) {
        let mut memory = [0; MetadataWriter::bytes_for(1, &[1])];
        let mut writer = MetadataWriter::new(&mut memory);
        let update = Update {
            at: 0,
            objects: 1,
            fixed: 0,
            beds: &[],
        };
        let object = Object::at(table.place(speaker).room()).gain(1.0);
        let update = writer.update(update).unwrap();
        update.element(&[Block::default()], |_, _| object).unwrap();
        let pcm = Pcm::packed(&[0.5; 256], 1).unwrap();
        let frame = Frame::new(Rate::HZ_48000, &[], pcm, writer.finish()).unwrap();
        let mut renderer = Renderer::with_table(Layout::Hall714, &table).unwrap();
        let rendered = renderer.push(&frame, &mut out).unwrap();
        for (other, samples) in rendered.channels() {
            let expected = if other == speaker { 0.5 } else { 0.0 };
            assert!((samples[200] - expected).abs() < 1e-3, "{speaker}: {other}");
        }
    }
}
