// SPDX-License-Identifier: Apache-2.0
//! Document 02's R-6: "A second making call takes it in place of the built-in table, and reset keeps
//! it .. a table that breaks these rules is a field outside its range, and reset too refuses it by 1
//! .. Refused: 16 for a length other than 144, 17 for a coordinate, 18 for equal positions, checked in
//! that order after 15."

use crate::making::{any_block, refused};
use compare::calls::{Step, bed_frame};
use compare::entry::{self, BLOCK, same_answer};
use compare::host::{Host, fresh, used_block};
use compare::model::Outcome;
use compare::setup::{BUILT_IN, Setup, Table, built_in, fault, places, table};
use compare::{Generator, block, ranges, seeds, tables};
use oracle::Vector;
use std::collections::BTreeMap;

/// Outside: neighbours of the ends, and what is not finite.
const OUTSIDE: [u32; 12] = [
    0x3f80_0001,
    0xbf80_0001,
    0x4000_0000,
    0xc000_0000,
    0x7f7f_ffff,
    0xff7f_ffff,
    0x7f80_0000,
    0xff80_0000,
    0x7f80_0001,
    0x7fc0_0000,
    0xffc0_0000,
    0xffff_ffff,
];
/// Inside: the ends, the zeros, and what is next to these.
const INSIDE: [u32; 8] = [
    0x3f80_0000,
    0xbf80_0000,
    0x3f7f_ffff,
    0xbf7f_ffff,
    0x0000_0000,
    0x8000_0000,
    0x0000_0001,
    0x8000_0001,
];

fn new(layout: u32, table: Table) -> Outcome {
    Outcome::New(Setup { layout, table })
}

/// The call on any block, and what it must come to: a refusal leaves the block, else it is a new
/// renderer with that table.
fn makes(state: &mut [u8], layout: u32, table: &[u8], expected: &Outcome) {
    let before = state.to_vec();
    let answer = entry::make_with(state, layout, table);
    let name = format!("layout {layout}, table {table:x?}: {answer:?}");
    assert!(same_answer(answer, expected.answer()), "{name}");
    match expected {
        Outcome::New(setup) => assert!(*state == setup.fresh(), "{name}"),
        _ => assert!(*state == before, "{name}"),
    }
}

/// 17 or 18 in every layout, or none, and the same of a block that has the table.
fn judged(places: &[Vector; 12], number: u32) {
    let table = table(places);
    for layout in 0..4 {
        let expected = match number {
            0 => new(layout, table),
            _ => refused(number),
        };
        makes(&mut vec![0x5a; BLOCK], layout, &table, &expected);
    }
    in_a_block(&table, number == 0);
}

/// A new renderer's block with that table: taken, or refused by 1 by push, flush and reset.
fn in_a_block(table: &Table, holds: bool) {
    let (mut host, call) = (Host::new(64), bed_frame(10));
    ranges::put_table(&mut host.state, table);
    assert_eq!(ranges::hold(&host.state), holds);
    let name = &format!("{table:x?}");
    if holds {
        let pushed = entry::push(&mut host.state.clone(), &call, &mut host.out, 64);
        assert_eq!((pushed.kind, pushed.number), (0, 0), "{name}");
        host.calls(&Outcome::Nothing, entry::flush, name);
        host.calls(&new(0, *table), |s, _, _| entry::reset(s), name);
        assert!(block::table(&host.state) == *table, "{name}");
    } else {
        host.calls(&refused(1), |s, o, n| entry::push(s, &call, o, n), name);
        host.calls(&refused(1), entry::flush, name);
        host.calls(&refused(1), |s, _, _| entry::reset(s), name);
    }
}

/// "channel 3's record is read": each of the 36 is judged, in every layout.
#[test]
fn each_coordinate_is_from_minus_1_to_1() {
    // No two channels share a coordinate that is put.
    let apart: [Vector; 12] = std::array::from_fn(|k| [0.05 * k as f32 + 0.1; 3]);
    for (channel, axis) in (0..12).flat_map(|c| (0..3).map(move |a| (c, a))) {
        for (words, number) in [(&OUTSIDE[..], 17), (&INSIDE[..], 0)] {
            for &word in words {
                let mut places = apart;
                places[channel][axis] = f32::from_bits(word);
                judged(&places, number);
            }
        }
    }
}

/// "No two full-range speakers may have equal coordinates, the two zeros being equal": of channel 3
/// nothing is asked. Apart are places that differ by a step in one coordinate.
#[test]
fn each_pair_is_apart() {
    each_pair_of(&BUILT_IN);
    for seed in seeds!(0..40) {
        let inputs = &mut Generator::new(seed);
        each_pair_of(&places(&tables::accepted(inputs)));
    }
}

fn each_pair_of(all: &[Vector; 12]) {
    for (a, b) in (0..12).flat_map(|b| (0..b).map(move |a| (a, b))) {
        let mut places = *all;
        places[a] = places[b].map(|x| if x == 0.0 { -x } else { x });
        judged_with(&places, a);
        for axis in 0..3 {
            let mut places = places;
            let x = &mut places[a][axis];
            *x = if *x < 1.0 { x.next_up() } else { x.next_down() };
            judged_with(&places, a);
        }
    }
}

/// A right table but for channel a, which may be where another is.
fn judged_with(places: &[Vector; 12], a: usize) {
    let there = (0..12).any(|c| c != a && c != 3 && places[c] == places[a]);
    judged(places, if a != 3 && there { 18 } else { 0 });
}

/// 1, 15, 16, 17 and 18, each before those behind it, on any bytes.
#[test]
fn the_lowest_number_wins() {
    let mut numbers = BTreeMap::new();
    for seed in seeds!(0..6_000) {
        let inputs = &mut Generator::new(seed);
        let others = [
            BLOCK - 144,
            BLOCK - 1,
            BLOCK + 1,
            inputs.below(60_000) as usize,
        ];
        let length = match inputs.below(8) {
            0 => inputs.pick(&others),
            _ => BLOCK,
        };
        let layout = inputs.pick(&[0, 1, 2, 3, 0, 1, 2, 3, 4, 255, 256, 1 << 31, u32::MAX]);
        let table = match inputs.below(3) {
            0 => tables::accepted(inputs).to_vec(),
            _ => tables::spoilt(inputs),
        };
        let expected = match () {
            () if length != BLOCK => refused(1),
            () if layout > 3 => refused(15),
            () if fault(&table) != 0 => refused(fault(&table)),
            () => new(layout, table[..].try_into().unwrap()),
        };
        makes(&mut any_block(inputs, length), layout, &table, &expected);
        *numbers.entry(expected.answer().number).or_insert(0) += 1;
    }
    println!("{numbers:?}");
    let all = [0, 1, 15, 16, 17, 18].map(|number| numbers.get(&number).copied().unwrap_or(0));
    assert!(
        !seeds::all() || all.iter().all(|&times| times > 200),
        "{all:?}"
    );
}

/// A bad coordinate in the last record comes before equal places in the first two, and a length
/// before both; the length is looked at before what stands there.
#[test]
fn over_the_whole_table() {
    let mut places = BUILT_IN;
    places[1] = places[0];
    judged(&places, 18);
    places[11][2] = 1f32.next_up();
    judged(&places, 17);
    let mut bytes = table(&places).to_vec();
    bytes.push(0);
    for length in [0, 1, 12, 143, 145] {
        makes(
            &mut vec![0; BLOCK],
            0,
            &bytes[..length.min(bytes.len())],
            &refused(16),
        );
        makes(
            &mut vec![0; BLOCK],
            4,
            &bytes[..length.min(bytes.len())],
            &refused(15),
        );
        makes(
            &mut vec![0; BLOCK - 1],
            4,
            &bytes[..length.min(bytes.len())],
            &refused(1),
        );
    }
}

/// "With the built-in values loaded, the samples equal those without a table": the block is the same.
#[test]
fn the_built_in_table_makes_the_same_block() {
    for layout in 0..4 {
        makes(
            &mut vec![0xa5; BLOCK],
            layout,
            &built_in(),
            &new(layout, built_in()),
        );
        assert!(Setup::built_in(layout).fresh() == fresh(layout));
        assert!(block::table(&fresh(layout)) == built_in());
    }
}

#[test]
#[cfg_attr(no_sources, ignore = "Rust sources not at hand")]
fn the_built_in_table_is_the_rusts() {
    assert_eq!(BUILT_IN, oracle::leaf::speakers());
    let signs = |places: [Vector; 12]| table(&places);
    assert_eq!(signs(BUILT_IN), signs(oracle::leaf::speakers()));
}

/// Reset looks at the length, the code and the table, and keeps the last two; any bytes else.
#[test]
fn reset_keeps_the_table() {
    for seed in seeds!(0..4_000) {
        let inputs = &mut Generator::new(seed);
        let mut host = Host::new(64);
        host.state = any_block(inputs, BLOCK);
        ranges::layout().put(&mut host.state, inputs.below(4));
        let mut table = tables::accepted(inputs);
        if inputs.chance(2) {
            let any = tables::spoilt(inputs);
            table.iter_mut().zip(any).for_each(|(to, byte)| *to = byte);
        }
        ranges::put_table(&mut host.state, &table);
        let setup = Setup::of_block(&host.state);
        let expected = match fault(&table) {
            0 => Outcome::New(setup),
            _ => refused(1),
        };
        let name = format!("{setup:?}");
        host.calls(&expected, |s, _, _| entry::reset(s), &name);
        assert!(fault(&table) != 0 || host.state == setup.fresh(), "{name}");
    }
}

/// Made again in a block in use, with a table and without: nothing of the old one is left.
#[test]
fn a_renderer_is_made_again() {
    for seed in seeds!(0..40) {
        let (inputs, mut state) = (&mut Generator::new(seed), used_block(seed));
        for layout in [0, 3, 1, 2, 0] {
            let table = tables::accepted(inputs);
            makes(&mut state, layout, &table, &new(layout, table));
            assert_eq!(Step::Make(layout).call(&mut state, &mut [], 64).kind, 3);
            assert!(state == fresh(layout));
        }
    }
}
