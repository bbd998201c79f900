// SPDX-License-Identifier: Apache-2.0
//! Document 02's R-12 at its edges: what a record of kind 9 may hold, how many may wait, and which
//! refusals come first.

use compare::block::AREA;
use compare::calls::Call;
use compare::entry;
use compare::host::Host;
use compare::model::waits;
use compare::{floats, ranges};

/// An update of kind 9 of one bed of code 2 with no elements, at that offset.
fn far(offset: u32) -> [u8; 40] {
    let mut record = [0; 40];
    (record[0], record[4], record[5], record[6], record[8]) = (9, 1, 1, 1, 2);
    record[28..32].copy_from_slice(&offset.to_le_bytes());
    record
}

/// One of kind 1.
fn near(offset: u16) -> [u8; 40] {
    let mut record = far(0);
    record[0] = 1;
    record[2..4].copy_from_slice(&offset.to_le_bytes());
    record
}

/// An update of kind 9 of so many records: a bed's, whose element has `blocks` blocks.
fn of_records(offset: u32, elements: u8, blocks: u8, objects: u8) -> Vec<u8> {
    let mut update = far(offset);
    (update[4], update[5], update[7]) = (objects, objects, elements);
    let mut records = update.to_vec();
    for _ in 0..elements {
        let (mut element, mut object) = ([0; 40], [0; 40]);
        (element[0], element[1], object[0]) = (2, blocks, 4);
        object[32..36].copy_from_slice(&1f32.to_le_bytes());
        records.extend(element);
        for _ in 0..blocks {
            let mut block = [0; 40];
            block[0] = 3;
            records.extend(block);
        }
        (0..usize::from(objects) * usize::from(blocks)).for_each(|_| records.extend(object));
    }
    records
}

/// So many samples, a half each, of one bed of code 2.
fn call(samples: usize, meta: &[u8]) -> Call {
    Call {
        rate: 48_000,
        samples: samples as u32,
        codes: vec![2],
        objects: 0,
        meta: meta.to_vec(),
        pcm: 0.5f32.to_le_bytes().repeat(samples),
    }
}

fn push(host: &mut Host, call: &Call) -> (u32, u32) {
    let before = host.state.clone();
    let answer = entry::push(&mut host.state, call, &mut host.out, 64);
    assert!(ranges::hold(&host.state), "the ranges");
    assert!(answer.kind == 0 || host.state == before, "a refused call");
    (answer.kind, answer.number)
}

/// A renderer that has begun.
fn begun() -> Host {
    let mut host = Host::new(64);
    assert_eq!(push(&mut host, &call(1, &near(0))), (0, 0));
    host
}

fn waiting(host: &Host) -> usize {
    let position = u64::from_le_bytes(host.state[8..16].try_into().unwrap());
    waits::read(&host.state, position).unwrap().len()
}

/// "Kind 9 is kind 1 with the offset in bytes 28 to 31 .., bytes 2 and 3 zero", and kind 1 has none there.
#[test]
fn unused_places_are_zero() {
    for at in [1, 2, 3, 9, 25, 26, 27, 32, 33, 36, 39] {
        let (mut host, mut record) = (begun(), far(10));
        record[at] = 1;
        assert_eq!(push(&mut host, &call(1, &record)), (1, 5), "byte {at}");
    }
    for at in 26..40 {
        let (mut host, mut record) = (begun(), near(10));
        record[at] = 1;
        assert_eq!(push(&mut host, &call(1, &record)), (1, 5), "byte {at}");
    }
    for kind in [0, 5, 8, 10, 255] {
        let (mut host, mut record) = (begun(), far(10));
        record[0] = kind;
        assert_eq!(push(&mut host, &call(1, &record)), (1, 5), "kind {kind}");
    }
}

/// "refusal 6 bounds only the offsets of blocks": each offset of 32 bits, in the frame and past it.
#[test]
fn any_offset() {
    for (offset, waits) in [
        (0, 0),
        (63, 0),
        (64, 1),
        (65, 1),
        (1_048_577, 1),
        (u32::MAX, 1),
    ] {
        let mut host = begun();
        assert_eq!(push(&mut host, &call(64, &far(offset))), (0, 0));
        assert_eq!(waiting(&host), waits, "{offset}");
    }
}

/// "Up to eight", over several frames, and 25 for the ninth; those that fall have left.
#[test]
fn eight_may_wait() {
    let mut host = begun();
    let far_5 = [200, 300, 400, 500, 600].map(far).concat();
    assert_eq!(push(&mut host, &call(1, &far_5)), (0, 0));
    let far_4 = [64, 200, 200, 200].map(far).concat();
    assert_eq!(push(&mut host, &call(1, &far_4)), (1, 25));
    let far_3 = [64, 200, 200].map(far).concat();
    assert_eq!(push(&mut host, &call(1, &far_3)), (0, 0));
    assert_eq!(waiting(&host), 8);
    assert_eq!(push(&mut host, &call(1, &far(1))), (1, 25));
    // One that falls does not wait.
    assert_eq!(push(&mut host, &call(1, &far(0))), (0, 0));
    // The one at 64 falls in this frame, so that another may come.
    assert_eq!(push(&mut host, &call(64, &far(64))), (0, 0));
    assert_eq!(waiting(&host), 8);
    entry::reset(&mut host.state);
    assert_eq!(waiting(&host), 0);
}

/// "of at most 1,200 records in all": 531, 531 and 138, and one more.
#[test]
fn twelve_hundred_records_may_wait() {
    let (most, rest) = (of_records(900, 2, 8, 32), of_records(901, 1, 8, 16));
    let sizes = [&most, &rest].map(|records| records.len() / 40);
    assert_eq!(sizes, [531, 138]);
    let mut host = begun();
    assert_eq!(
        push(&mut host, &call(1, &[&most[..], &most].concat())),
        (0, 0)
    );
    let one_more = [&rest[..], &far(902)].concat();
    assert_eq!(push(&mut host, &call(1, &one_more)), (1, 25));
    assert_eq!(push(&mut host, &call(1, &rest)), (0, 0));
    let area = &host.state[AREA..];
    assert_eq!((area[0], &area[4..8]), (3, &1_200u32.to_le_bytes()[..]));
    assert_eq!(push(&mut host, &call(1, &far(3))), (1, 25));
    assert_eq!(push(&mut host, &call(1, &[])), (0, 0));
}

/// "25 when more would wait, after 8", before 9 to 14; also where nothing waits for lack of samples.
#[test]
fn the_order_of_refusals() {
    let nine: Vec<u8> = (0..9).flat_map(|k| far(100 + k)).collect();
    let mut too_many = call(1, &nine);
    assert_eq!(push(&mut begun(), &too_many), (1, 25));
    assert_eq!(push(&mut Host::new(64), &too_many), (1, 25));
    let other = Call {
        rate: 44_100,
        ..too_many.clone()
    };
    assert_eq!(push(&mut begun(), &other), (1, 25));
    let none = call(0, &(0..9).flat_map(far).collect::<Vec<_>>());
    assert_eq!(push(&mut begun(), &none), (1, 25));
    too_many.pcm = f32::NAN.to_le_bytes().to_vec();
    assert_eq!(push(&mut begun(), &too_many), (1, 8));
    too_many.meta[1] = 1;
    assert_eq!(push(&mut begun(), &too_many), (1, 5));
}

/// "For 10, an update that only waits doesn't count; one that falls in the frame does; in a frame of no
/// samples none of kind 9 falls. Kind 1 is dropped as before."
#[test]
fn what_counts_for_10_and_12() {
    let mut host = Host::new(64);
    assert_eq!(push(&mut host, &call(10, &far(10))), (1, 10));
    assert_eq!(push(&mut host, &call(0, &far(0))), (1, 10));
    assert_eq!(push(&mut host, &call(0, &near(0))), (1, 12));
    assert_eq!(push(&mut Host::new(64), &call(10, &far(9))), (0, 0));
    // A dropped one counts, and lets one wait.
    let both = [near(10), far(10)].concat();
    assert_eq!(push(&mut host, &call(10, &both)), (0, 0));
    assert_eq!(waiting(&host), 1);
    assert_eq!(push(&mut host, &call(0, &far(0))), (1, 10));
    // It begins the stream where it falls: silent up to there, and heard from there on.
    assert_eq!(push(&mut host, &call(1, &[])), (0, 0));
    assert_eq!(waiting(&host), 0);
    let answer = entry::flush(&mut host.state, &mut host.out, 64);
    let center = floats(&host.out[4 * 64 * 2..][..4 * 11]);
    assert_eq!(answer.ready, 11);
    let silent = center[..10].iter().all(|x| *x == 0.0);
    assert!(silent && center[10] == 0.5 * 0.707, "{center:?}");
}

/// "before that frame's own updates of the same offset; waiting ones keep their order": the last one's
/// beds are heard.
#[test]
fn the_order_at_one_sample() {
    let of = |mut record: [u8; 40], code: u8| {
        record[8] = code;
        record
    };
    let two = Call {
        codes: vec![0, 1, 2],
        pcm: 0.5f32.to_le_bytes().repeat(3),
        ..call(1, &[])
    };
    let heard = |own: &[u8]| {
        let mut host = begun();
        let waiting = [of(far(2), 0), of(far(1), 2), of(far(2), 1)].concat();
        let first = Call {
            meta: waiting,
            ..two.clone()
        };
        assert_eq!(push(&mut host, &first), (0, 0));
        assert_eq!(push(&mut host, &two), (0, 0));
        let last = Call {
            meta: own.to_vec(),
            ..two.clone()
        };
        assert_eq!(push(&mut host, &last), (0, 0));
        entry::flush(&mut host.state, &mut host.out, 64);
        let last = |channel: usize| floats(&host.out[4 * (64 * channel + 3)..][..4])[0];
        [0, 1, 2].map(|channel| last(channel) != 0.0)
    };
    // At the third sample after them: 0, then 1.
    assert_eq!(heard(&[]), [false, true, false]);
    assert_eq!(heard(&of(near(0), 2)), [false, false, true]);
    assert_eq!(heard(&of(far(0), 0)), [true, false, false]);
}
