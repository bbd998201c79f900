//! State blocks (docs/STATE-BLOCK.md): out of range they are refused, in range they are taken, at
//! the ends of every range and with floats of any bits.

use compare::block::{AREA, ELEMENT, ELEMENTS};
use compare::calls::{Call, Step, bed_frame};
use compare::entry::{self, BLOCK};
use compare::host::{Host, used_block};
use compare::model::{Model, Outcome, lifts};
use compare::ranges::{self, EACH_ELEMENT, Field};
use compare::setup::{Setup, Table, table};
use compare::{Frames, Generator, block, seeds};
use oracle::frame::{self, Frame};
use oracle::state::{Element, Metadata};
use std::collections::BTreeSet;

/// Fields that depend on another, each put out of range: byte and word.
type Puts = (&'static str, &'static [(usize, u32)]);

const RELATED: [Puts; 6] = [
    ("pending", &[(0, 0), (64, 1)]),
    ("slot", &[(4, 63), (8, 62), (12, 0), (16, 0), (20, 0)]),
    ("beds", &[(80, 3), (88, 4)]),
    ("dynamic", &[(80, 20), (84, 3)]),
    (
        "flags",
        &[
            (80, 5),
            (84, 3),
            (88, 0),
            (92, 2),
            (ELEMENTS + ELEMENT + 4, 1),
        ],
    ),
    (
        "ramp",
        &[
            (8, 0),
            (12, 0),
            (16, 0),
            (20, 0),
            (4, 0),
            (ELEMENTS + 8, 0xffdf_ffff),
            (ELEMENTS + 12, 0x7fff),
        ],
    ),
];

/// The block with that damage is refusal 1, for push and flush alike; reset looks at the hall alone.
fn refused(block: &[u8], damage: impl FnOnce(&mut [u8]), name: &str) {
    let (call, one) = (bed_frame(10), Outcome::Refused([1, 0, 0]));
    let mut host = Host::new(64);
    host.state.copy_from_slice(block);
    damage(&mut host.state);
    assert!(!ranges::hold(&host.state), "{name}: not out of range");
    host.calls(&one, |s, o, n| entry::push(s, &call, o, n), name);
    host.calls(&one, entry::flush, name);
    let setup = Setup::of_block(&host.state);
    let reset = if setup.holds() {
        Outcome::New(setup)
    } else {
        one
    };
    host.calls(&reset, |s, _, _| entry::reset(s), name);
}

/// The numbers next to a field's range, and the largest that it can hold.
fn outside(field: &Field) -> Vec<u64> {
    let mut numbers = vec![field.most + 1, u64::MAX >> (64 - 8 * field.width)];
    numbers.extend(field.least.checked_sub(1));
    numbers
}

/// Every field out of its range is refusal 1.
#[test]
fn damaged_blocks() {
    for seed in seeds!(0..6) {
        let block = used_block(seed);
        for field in ranges::fields() {
            for number in outside(field) {
                let name = format!("byte {} is {number}", field.at);
                refused(&block, |s| field.put(s, number), &name);
            }
        }
        refused(&block, |s| s[..4].copy_from_slice(&[1, 0, 0, 0]), "rate 1");
        for (name, puts) in RELATED {
            let put = |s: &mut [u8]| {
                for (at, word) in puts {
                    s[*at..at + 4].copy_from_slice(&word.to_le_bytes());
                }
            };
            refused(&block, put, name);
        }
    }
}

/// Flush takes every block in range: as many samples as are pending, or none.
#[test]
fn every_end_is_in_range() {
    let mut reached = BTreeSet::new();
    for seed in seeds!(0..3_000) {
        let block = ranges::drawn(&mut Generator::new(seed));
        assert!(ranges::hold(&block), "not drawn in range");
        for field in ranges::fields() {
            let number = field.number(&block);
            if number == field.least || number == field.most {
                reached.insert((field.at, number));
            }
        }
        let pending = usize::from(block[64]);
        let mut host = Host::new(64);
        host.state = block;
        let answer = entry::flush(&mut host.state, &mut host.out, 64);
        let kind = if pending == 0 { 2 } else { 0 };
        assert_eq!((answer.kind, answer.ready), (kind, pending), "{answer:?}");
        assert!(ranges::hold(&host.state), "what flush leaves");
    }
    for field in ranges::fields() {
        for end in [field.least, field.most] {
            assert!(
                !seeds::all() || reached.contains(&(field.at, end)),
                "{field:?}"
            );
        }
    }
}

/// Every coordinate at an end of its range or a zero.
fn at_the_ends() -> Table {
    let end = |k: usize, axis: u32| [1.0, -1.0, -0.0][k / 3usize.pow(axis) % 3];
    table(&std::array::from_fn(|k| [end(k, 0), end(k, 1), end(k, 2)]))
}

/// All at the least, or all at the most, with every float that NaN.
#[test]
fn all_at_one_end() {
    let related = [
        (80, 32),
        (84, 16),
        (88, 18),
        (8, 1 << 40),
        (16, (1 << 40) - 63),
        (AREA, 0),
        (AREA + 4, 0),
    ];
    for (most, nan) in [(false, 0x7f80_0001u32), (true, 0xffff_ffff)] {
        let mut host = Host::new(64);
        host.state = nan.to_le_bytes().repeat(BLOCK / 4);
        ranges::put_table(&mut host.state, &at_the_ends());
        for field in ranges::fields() {
            let number = if most { field.most } else { field.least };
            let kept = related.iter().find(|(at, _)| most && *at == field.at);
            field.put(&mut host.state, kept.map_or(number, |(_, number)| *number));
        }
        if !most {
            // A ramp may remain as far below 0 as the stream is long.
            for at in EACH_ELEMENT.map(|element| element + 8) {
                host.state[at..at + 8].copy_from_slice(&((1u64 << 47) - (1 << 21)).to_le_bytes());
            }
        }
        let answer = entry::flush(&mut host.state, &mut host.out, 64);
        let expected = if most { (0, 63) } else { (2, 0) };
        assert_eq!((answer.kind, answer.ready), expected, "{answer:?}");
    }
}

/// A drawn block, in every second case with room before the stream's end.
fn block_with_room(inputs: &mut Generator) -> Vec<u8> {
    loop {
        let mut block = ranges::drawn(inputs);
        if inputs.chance(2) {
            block[8..16].copy_from_slice(&((1u64 << 40) - 2_000).to_le_bytes());
            block[16..24].fill(0);
        }
        if ranges::hold(&block) {
            return block;
        }
    }
}

/// Both elements have flags for one dynamic object more than the state, as many as a rise asks for.
fn put_a_flag_more(block: &mut [u8]) {
    let dynamic = block::state(block).metadata.dynamic_sources.len() as u32;
    for at in EACH_ELEMENT.map(|element| element + 4) {
        block[at..at + 4].copy_from_slice(&(dynamic + 1).min(16).to_le_bytes());
    }
}

/// What the pushes from blocks in range come to.
#[derive(Debug, Default)]
struct Tally {
    accepted: u64,
    /// Of these, those with a NaN, and those that lift a channel.
    nans: u64,
    lifted: u64,
    /// Those before which an object was sent to the bass feed, and those held against the unchanged
    /// Rust.
    sent: u64,
    unchanged: u64,
    /// Those in a layout other than 7.1.4.
    smaller: u64,
    /// Accepted pushes that meet an element that would be kept, whose flags tell otherwise than the
    /// state whether it is: more than the update's dynamic objects, though these are as many as the
    /// state's; or as many, though a channel is lifted.
    more_flags: u64,
    as_many_flags: u64,
}

impl Tally {
    fn count(&mut self, before: &Metadata, frame: &Frame, channels: &[Vec<f32>]) {
        let updates = frame.applied();
        let lifted = lifts(before, &updates);
        let met = updates.first().is_some_and(|update| {
            let dynamic = update.objects.saturating_sub(update.bed_or_isf_objects);
            let kept = |(e, new): (&Element, &frame::Element)| {
                e.block_used.len() == new.blocks.len()
                    && (e.update_now.len() == usize::from(dynamic)) == lifted
            };
            before.object_count == usize::from(update.objects)
                && before.elements.len() == update.elements.len()
                && before.elements.iter().zip(&update.elements).any(kept)
        });
        self.accepted += 1;
        self.nans += u64::from(channels.concat().iter().any(|x| x.is_nan()));
        self.lifted += u64::from(lifted);
        self.more_flags += u64::from(met && !lifted);
        self.as_many_flags += u64::from(met && lifted);
    }
}

/// From a block in range the entries go on as the Rust does from the state that it holds, and as
/// the amended one does from a lifted channel or a send on: in every second run channels are lifted,
/// and in every second block sends have any bits.
#[test]
#[cfg_attr(no_sources, ignore = "Rust sources not at hand")]
fn blocks_in_range_go_on_as_in_the_rust() {
    let mut tally = Tally::default();
    for seed in seeds!(0..6_000) {
        let mut inputs = Generator::new(!seed);
        let mut host = Host::new(256);
        host.state = block_with_room(&mut inputs);
        if seed % 4 == 1 {
            put_a_flag_more(&mut host.state);
        }
        let mut model = Model::of_block(&host.state);
        let mut frames = Frames::after(&model.state(), seed, 256);
        if seed % 2 == 1 {
            frames.set_lifting();
        }
        for k in 0..4 {
            let name = &format!("call {k}");
            if k == 3 || inputs.chance(8) {
                host.step(&mut model, &Step::Flush, name);
            } else {
                let frame = frames.next_frame();
                let before = model.state().metadata;
                let outcome = host.push(&mut model, &Call::from(&frame), name);
                if let Outcome::Ready(channels, _) = &outcome {
                    tally.count(&before, &frame, channels);
                    tally.sent += u64::from(model.sent());
                    tally.unchanged += u64::from(model.beside_the_rust());
                    tally.smaller += u64::from(model.layout() > 0);
                }
            }
            assert!(ranges::hold(&host.state), "{name}");
            let differs = model.difference(&host.state);
            assert_eq!(differs, None, "{name}");
        }
    }
    println!("{tally:?}");
    let few = 500..tally.accepted - 500;
    assert!(!seeds::all() || tally.accepted > 2_000 && few.contains(&tally.nans));
    let kinds = [tally.sent, tally.unchanged, tally.smaller];
    assert!(!seeds::all() || kinds.iter().all(|&n| n > 500));
    let flags = [tally.more_flags, tally.as_many_flags];
    assert!(!seeds::all() || tally.lifted > 300 && flags.iter().all(|&n| n > 20));
}
