// SPDX-License-Identifier: Apache-2.0
//! Document 02's R-11 with arguments of any kind: "Refused: 24, an object number not below the last
//! applied update's count, 0 without one", and what a hold or a release changes in the block.

use compare::block::{self, HELD, SOURCE, SOURCE_MARKS, SOURCES, WANTED};
use compare::calls::{Call, Step};
use compare::entry;
use compare::host::{Host, used_block};
use compare::model::Outcome;
use compare::{Generator, ranges, seeds};
use oracle::frame::{Frame, Update};

const REFUSED: Outcome = Outcome::Refused([24, 0, 0]);
const KNOWN: Outcome = Outcome::Marked(None);

/// A hold, or a release.
fn marks(host: &mut Host, object: u32, wanted: bool, expected: &Outcome) {
    let name = format!("object {object}, {wanted}");
    host.calls(expected, |s, _, _| entry::mark(s, object, wanted), &name);
}

fn changes(object: u32, wanted: bool) -> Outcome {
    Outcome::Marked(Some((object as usize, wanted)))
}

/// One sample with an update of so many beds and dynamic objects.
fn update(beds: u8, dynamic: u8) -> Call {
    Call::from(&Frame {
        rate: 48_000,
        samples: 1,
        beds: vec![0; beds.into()],
        objects: dynamic.into(),
        pcm: vec![0.5; (beds + dynamic).into()],
        updates: vec![Update {
            objects: beds + dynamic,
            bed_or_isf_objects: beds,
            beds: vec![0; beds.into()],
            ..Update::default()
        }],
    })
}

/// A new renderer's after that call.
fn host(call: &Call) -> Host {
    let mut host = Host::new(64);
    let answer = entry::push(&mut host.state, call, &mut host.out, 64);
    assert_eq!(answer.kind, 0);
    host
}

fn mark(block: &[u8], object: u32) -> u8 {
    block[SOURCES + SOURCE * object as usize + SOURCE_MARKS]
}

/// "Objects here are the dynamic ones, numbered from 0 as in the PCM": beds do not count.
#[test]
fn the_number_is_below_the_count() {
    for beds in [0, 1, 16] {
        for dynamic in 0..=16u8 {
            if beds + dynamic == 0 {
                continue;
            }
            let count = u32::from(dynamic);
            let mut host = host(&update(beds, dynamic));
            for object in 0..count {
                for wanted in [true, false] {
                    marks(&mut host, object, wanted, &changes(object, wanted));
                    let set = if wanted { WANTED as u8 } else { 0 };
                    assert_eq!(mark(&host.state, object), set);
                    marks(&mut host, object, wanted, &KNOWN);
                }
            }
            for object in [count, count + 1, 16, 17, 1 << 16, 1 << 31, u32::MAX] {
                for wanted in [true, false] {
                    marks(&mut host, object.max(count), wanted, &REFUSED);
                }
            }
        }
    }
}

/// "0 without one": of a new renderer, after a reset, in a block that says that no update was applied
/// though it has counts, and where the update that would bring objects was refused or dropped.
#[test]
fn without_an_update_there_is_none() {
    let none = |host: &mut Host| {
        for object in [0, 1, 15, u32::MAX] {
            for wanted in [true, false] {
                marks(host, object, wanted, &REFUSED);
            }
        }
    };
    let mut host = host(&update(0, 3));
    let mut unset = Host::new(64);
    unset.state = host.state.clone();
    unset.state[68..72].fill(0);
    assert!(ranges::hold(&unset.state));
    none(&mut unset);
    marks(&mut host, 2, true, &changes(2, true));
    entry::reset(&mut host.state);
    none(&mut host);

    let (mut refused, mut dropped) = (update(0, 3), update(1, 0));
    refused.rate = 0;
    let answer = entry::push(&mut host.state, &refused, &mut host.out, 64);
    assert_eq!((answer.kind, answer.number), (1, 3));
    none(&mut host);
    let mut late = update(0, 3).meta;
    late[2] = 1;
    dropped.meta.extend(late);
    let answer = entry::push(&mut host.state, &dropped, &mut host.out, 64);
    assert_eq!(answer.kind, 0);
    none(&mut host);
}

/// 1 comes before 24: blocks of other lengths and out of range, also by the marks alone.
#[test]
fn a_block_out_of_range_is_1() {
    let one = Outcome::Refused([1, 0, 0]);
    for seed in seeds!(0..40) {
        let inputs = &mut Generator::new(seed);
        let block = used_block(seed);
        for object in [0, 16, u32::MAX] {
            for wanted in [true, false] {
                let refused = |state: Vec<u8>| {
                    let mut host = Host::new(64);
                    host.state = state;
                    marks(&mut host, object, wanted, &one);
                };
                let length = inputs.below(block.len() as u64) as usize;
                refused(block[..length].to_vec());
                refused([&block[..], &[0]].concat());
                let field = inputs.pick(ranges::fields());
                let mut damaged = block.clone();
                field.put(&mut damaged, field.most + 1);
                refused(damaged);
                let mut damaged = block.clone();
                let at = SOURCES + SOURCE * inputs.below(16) as usize + SOURCE_MARKS;
                let word = inputs.pick(&[8, 9, 15, 255, 256, 1 << 31, u32::MAX]);
                damaged[at..at + 4].copy_from_slice(&word.to_le_bytes());
                refused(damaged);
            }
        }
    }
}

/// "A second hold, or a release without one, changes nothing": no byte, whatever NaNs the block has; and
/// what is not known changes one mark. On blocks drawn from all that are in range.
#[test]
fn what_is_known_changes_no_byte() {
    let (mut known, mut changed, mut refused, mut nans) = (0, 0, 0, 0);
    for seed in seeds!(0..4_000) {
        let inputs = &mut Generator::new(!seed);
        let mut host = Host::new(64);
        host.state = ranges::drawn(inputs);
        if !inputs.chance(8) {
            host.state[68] = 1;
        }
        let words = host.state.as_chunks::<4>().0.iter();
        nans += words
            .filter(|&&word| f32::from_le_bytes(word).is_nan())
            .count();
        for _ in 0..4 {
            let metadata = block::state(&host.state).metadata;
            let count = metadata.dynamic_sources.len() as u64;
            let (object, wanted) = (inputs.below(count + 1) as u32, inputs.chance(2));
            let before = u32::from(mark(&host.state, object.min(15)));
            let expected = match (before & WANTED != 0) == wanted {
                _ if !metadata.initialized || u64::from(object) >= count => REFUSED,
                true => KNOWN,
                false => changes(object, wanted),
            };
            marks(&mut host, object, wanted, &expected);
            assert!(ranges::hold(&host.state));
            match expected {
                Outcome::Refused(_) => refused += 1,
                Outcome::Marked(None) => known += 1,
                _ => {
                    let after = u32::from(mark(&host.state, object));
                    assert_eq!(after & !WANTED, before & !WANTED);
                    changed += 1;
                }
            }
        }
    }
    println!("known {known}, changed {changed}, refused {refused}, {nans} NaNs");
    assert!(!seeds::all() || [known, changed, refused].iter().all(|&n| n > 800));
    assert!(!seeds::all() || nans > 10_000);
}

/// Neither is in effect before a slot starts: `held` follows `wanted` there, and not before.
#[test]
fn the_next_slot_takes_it() {
    let first = update(0, 2);
    let sound = Call {
        meta: Vec::new(),
        ..first.clone()
    };
    let mut host = host(&first);
    let pushes = |host: &mut Host, samples: usize| {
        for _ in 0..samples {
            let step = Step::Push(sound.clone());
            assert_eq!(step.call(&mut host.state, &mut host.out, 64).kind, 0);
        }
    };
    let [wanted, both, held] = [WANTED, WANTED | HELD, HELD].map(|marks| marks as u8);
    marks(&mut host, 1, true, &changes(1, true));
    // The slot that began with the first sample has 63 more.
    pushes(&mut host, 63);
    assert_eq!([0, 1].map(|d| mark(&host.state, d)), [0, wanted]);
    pushes(&mut host, 1);
    assert_eq!([0, 1].map(|d| mark(&host.state, d)), [0, both]);
    marks(&mut host, 1, false, &changes(1, false));
    assert_eq!(mark(&host.state, 1), held);
    marks(&mut host, 1, true, &changes(1, true));
    marks(&mut host, 1, false, &changes(1, false));
    pushes(&mut host, 64);
    assert_eq!([0, 1].map(|d| mark(&host.state, d)), [0, 0]);
}
