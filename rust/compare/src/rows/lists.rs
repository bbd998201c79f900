//! The calls of the rows.

use super::parts::*;
use super::{Group, Push, Row, Turn};
use crate::model::{Model, Outcome, STREAM_END};
use crate::setup::{built_in, table};
use oracle::Vector;
use oracle::frame::{Anchor, Element, Object};

type Part = (&'static str, fn(&mut Rows));

pub fn groups() -> Vec<Group> {
    let parts: [Part; 12] = [
        ("refusals", refusals),
        ("outputs", outputs),
        ("block_rows", blocks),
        ("bed_rows", beds),
        ("object_rows", objects),
        ("updates", updates),
        ("slots", slots),
        ("halls", halls),
        ("tables", tables),
        ("hold_rows", holds),
        ("searches", searches),
        ("ahead_rows", ahead),
    ];
    let group = |(name, part): Part| {
        let mut rows = Rows(vec![]);
        part(&mut rows);
        Group { name, rows: rows.0 }
    };
    parts.map(group).into()
}

struct Rows(Vec<Row>);

impl Rows {
    fn row(&mut self, name: &'static str) -> &mut Row {
        let row = Row {
            name,
            shows: "",
            start: 0,
            turns: vec![],
        };
        self.0.push(row);
        self.0.last_mut().unwrap()
    }
}

// ---- pushes that many rows have

/// One sample, a half, of a front left bed.
fn of_bed() -> Push {
    frame(&[0], &[[0.5]])
}

/// The same with its update.
fn half() -> Push {
    of_bed().with(bed(&[0]))
}

/// The same with a block.
fn with_block(block: (i64, i64), object: Object) -> Push {
    of_bed().with(update(0, &[0], 0, &[element([block], &[[object]])]))
}

fn with_object(object: Object) -> Push {
    with_block((0, 0), object)
}

/// The same with that send in the object record at `at`.
fn with_send(at: usize, send: f32, push: Push) -> Push {
    let bytes = (at + 36..).zip(send.to_le_bytes());
    let put = bytes.filter(|&(_, byte)| byte != 0);
    put.fold(push, |push, (at, byte)| push.spoilt(at, byte))
}

/// One sample of a front left bed.
fn loud(x: f32) -> Push {
    frame(&[0], &[[x]]).with(bed(&[0]))
}

/// One sample, a half, of an object.
fn of_object() -> Push {
    frame(&[], &[[0.5]])
}

/// The same, set at once.
fn moved(ramp: i64, object: Object) -> Push {
    of_object().with(set(ramp, &[object]))
}

fn near() -> Object {
    at(0.1, 0.2, 0.1)
}

fn far() -> Object {
    at(0.9, 0.4, 0.8)
}

// ---- rows

fn refusals(rows: &mut Rows) {
    rows.row("no_room")
        .shows("1: strides 0, 63 and 1,600; an output that is a byte short")
        .pushes([0, 63, 1_600].map(|stride| half().stride(stride)))
        .short(Turn::Push(half()))
        .turn(Turn::Flush(63))
        .short(Turn::Flush(64));
    rows.row("too_many")
        .shows("2: 65 samples, 19 beds, 17 objects, code 18, PCM a word too long, no channels")
        .push(frame(&[0], &[[0.0; 65]]))
        .push(frame(&[0; 19], &[[0.0]; 19]))
        .push(frame(&[], &[[0.0]; 17]))
        .push(frame(&[18], &[[0.5]]))
        .push(of_bed().pcm(&[0.5, 0.5]))
        .push(of_bed().codes(&[]).pcm(&[]));
    rows.row("rates")
        .shows("3: no rate, and the rates beside those that are accepted")
        .pushes([0, 7_999, 192_001].map(|rate| half().rate(rate)));
    rows.row("end_of_stream")
        .shows("4: the stream's last sample is accepted, one more is not")
        .starts(STREAM_END - 1)
        .push(frame(&[0], &[[0.5, 0.5]]).with(bed(&[0])))
        .push(half())
        .push(half())
        .flush();
    let counts = [(4, 33), (7, 3), (41, 9)];
    let values = [(0, 5), (8, 18), (121, 3), (122, 64), (140, 1), (123, 1)];
    rows.row("counts")
        .shows("5: 33 objects, 3 elements, 9 blocks, 17 updates")
        .pushes(counts.map(|(at, byte)| with_object(SILENT).spoilt(at, byte)))
        .push((0..17).fold(of_bed(), |push, _| push.with(bed(&[0]))));
    rows.row("values")
        .shows("5: a kind, a code, an anchor, a flag, an absent value, an unused place")
        .pushes(values.map(|(at, byte)| with_object(SILENT).spoilt(at, byte)));
    let gains = [8f32.next_up(), 0f32.next_down(), f32::NAN];
    rows.row("ranges")
        .shows("6: gain above 8, below 0, NaN; size above 1; offset, ramp, depth; the last passes")
        .pushes(gains.map(|x| with_object(gain(x, SILENT))))
        .push(with_object(size(1f32.next_up(), SILENT)))
        .push(with_block((1_048_577, 0), SILENT))
        .push(with_block((0, -1_048_577), SILENT))
        .push(with_object(depth(0.75, SILENT)))
        .push(with_object(size(1.0, gain(8.0, SILENT))));
    let sends = [1f32.next_up(), 0f32.next_down(), f32::NAN, -0.0, 1.0];
    rows.row("send_ranges")
        .shows("6: a bed's send above 1, below 0, NaN; -0.0 and 1 pass")
        .pushes(sends.map(|x| with_send(120, x, with_object(SILENT))));
    rows.row("both")
        .shows("5 before 6")
        .push(with_object(gain(9.0, SILENT)).spoilt(121, 3));
    rows.row("bad_samples")
        .shows("8: the f32 above 16, NaN, an infinity; -16 passes")
        .pushes([16f32.next_up(), f32::NAN, -f32::INFINITY, -16.0].map(loud));
    let wrong = with_object(gain(9.0, SILENT)).pcm(&[17.0]);
    let worse = wrong.clone().spoilt(121, 3);
    rows.row("lowest_first")
        .shows("1, 2, 3, 5, 6 and 8 in one call, mended one after another")
        .short(Turn::Push(worse.clone().rate(7).codes(&[18])))
        .push(worse.clone().rate(7).codes(&[18]))
        .push(worse.clone().rate(7))
        .push(worse)
        .push(wrong)
        .push(loud(17.0))
        .push(half());
    rows.row("rate_changed")
        .shows("9, expected and provided; before 11")
        .push(half())
        .push(of_bed().rate(44_100))
        .push(frame(&[0], &[[0.5]; 2]).rate(96_000));
    rows.row("no_update")
        .shows("10: document 01's example; before 12")
        .push(frame(&[2], &[[1.0]]))
        .flush()
        .push(of_bed().empty());
    let two = frame(&[0], &[[0.5, 0.5]]).with(bed(&[0]));
    let object = |offset| update(offset, &[], 1, &[]);
    rows.row("objects_differ")
        .shows("11, expected and provided: an update at offset 0, one at 1, the present state")
        .push(of_bed().with(object(0)))
        .push(two.clone().with(object(1)))
        .push(half())
        .push(frame(&[0], &[[0.5]; 2]));
    rows.row("no_samples")
        .shows("12: behind 11 for an update at offset 0, before 11 for the present state")
        .push(half().empty())
        .push(of_bed().with(object(0)).empty())
        .push(half())
        .push(frame(&[0], &[[0.5]; 2]).empty());
    rows.row("no_input")
        .shows("13: two bass beds, one in time, one before 14, one of the present state")
        .push(frame(&[2], &[[0.5]]).with(bed(&[3, 2, 17])))
        .push(two.with(update(1, &[2], 0, &[])))
        .push(of_bed().with(bed(&[6])))
        .push(half())
        .push(frame(&[2], &[[0.5]]));
    rows.row("rear_centre")
        .shows("14: the code 6")
        .push(frame(&[6], &[[0.5]]).with(bed(&[6])));
}

fn outputs(rows: &mut Rows) {
    rows.row("flush_waits")
        .shows("a flush gives what waits, a second says none")
        .push(half())
        .flush()
        .flush();
    let [start, again] = [&[at_once(0, &[SILENT, SILENT, near()])], &[][..]]
        .map(|elements| update(0, &[3, 8], 1, elements));
    let three = |x: f32| frame(&[3, 8], &[[x]; 3]);
    rows.row("after_reset")
        .shows("after a reset nothing waits, and all is as from the start")
        .push(three(16.0).with(start))
        .flush()
        .push(three(16.0))
        .reset()
        .flush()
        .push(three(0.5))
        .push(three(0.5).with(again).rate(96_000))
        .flush();
    rows.row("sum")
        .shows("a bed and then two objects on one channel: any other order rounds otherwise")
        .push(centre(SUM))
        .flush();
}

/// Samples whose sum on the centre depends on its order.
const SUM: [f32; 3] = [0.1, 0.1, -0.3];

/// A sample of a bed and one of each of two objects, all on the centre.
fn centre(samples: [f32; 3]) -> Push {
    let place = at(0.5, 0.0, 0.0);
    let element = at_once(0, &[SILENT, place, place]);
    frame(&[2], &samples.map(|x| [x])).with(update(0, &[2], 2, &[element]))
}

/// Whether no other order of the terms of `sum` gives what is heard.
pub fn order_matters() -> bool {
    let heard = |samples| {
        let mut model = Model::new();
        model.push(&(&centre(samples)).into(), 64);
        let Outcome::Ready(channels, _) = model.flush() else {
            panic!("a sample waits")
        };
        channels[2][0]
    };
    let [bed, first, second] = SUM;
    let terms = [[bed, 0.0, 0.0], [0.0, first, 0.0], [0.0, 0.0, second]];
    let [bed, first, second] = terms.map(heard);
    let sum = bed + first + second;
    sum == heard(SUM) && sum != bed + second + first && sum != first + second + bed
}

fn blocks(rows: &mut Rows) {
    rows.row("loud_block")
        .shows("a loud block lowers the gain, which grows by length / rate and limits the next")
        .push(loud(-16.0))
        .flush()
        .push(loud(1.0))
        .flush()
        .pushes([16.0, 0.5].map(loud))
        .flush()
        .push(loud(1.0))
        .flush();
    rows.row("full_gain")
        .shows("the gain never passes 1")
        .push(half())
        .flush()
        .push(half())
        .flush();
    let left = |n, heard: &[(usize, f32)]| frame(&[0], &[lone(n, heard)]);
    let heard = [0, 63, 64, 99].map(|t| (t, 0.5));
    let quieter = update(0, &[0], 0, &[element([(0, 0)], &[[gain(0.25, SILENT)]])]);
    rows.row("hundred")
        .shows(
            "100 samples: 64 ready, 36 by a flush, then none; a block at offset 0 is applied at 64",
        )
        .push(left(100, &heard).with(quieter).stride(128))
        .flush()
        .flush();
    rows.row("second_block")
        .shows("the second whole block is limited by the grown gain, and so is the third")
        .push(left(64, &[(1, 16.0), (63, 8.0)]).with(bed(&[0])))
        .push(left(64, &[(0, 1.0), (63, -16.0)]))
        .push(left(64, &[(63, 1.0)]));
}

fn beds(rows: &mut Rows) {
    let codes: Vec<u8> = (0..18).filter(|&code| code != 6).collect();
    let turned: Vec<u8> = codes.iter().rev().copied().collect();
    let steps: Vec<[f32; 1]> = (1..=17).map(|k| [k as f32 / 32.0]).collect();
    let folded = [11, 12, 15, 16];
    rows.row("folded_beds")
        .shows("the beds that are panned, one alone after another")
        .push(frame(&folded, &diagonal(4, 0.5)).with(bed(&folded)))
        .flush();
    rows.row("all_beds")
        .shows("all beds at once, their inputs in another order")
        .push(frame(&turned, &steps).with(bed(&codes)))
        .flush();
    rows.row("one_bass")
        .shows("both bass beds take the one bass input")
        .push(frame(&[17], &[[0.5]]).with(bed(&[3, 17])))
        .flush();
    rows.row("own_bass")
        .shows("a bass bed takes the input of its own code where there is one")
        .push(frame(&[3, 17], &[[0.5], [0.25]]).with(bed(&[17])))
        .flush();
    let row = rows.row("bass_rates");
    row.shows("the low-pass at the lowest rate, at the highest and between them");
    for rate in [8_000, 22_051, 44_100, 96_000, 192_000] {
        let bass = frame(&[3], &[[0.5, 0.0, -0.25]]).with(bed(&[3]));
        row.push(bass.rate(rate)).flush().reset();
    }
    let two = || frame(&[0, 1], &[[0.5], [0.25]]);
    let quieter = at_once(0, &[gain(0.25, SILENT), SILENT]);
    rows.row("bed_gains_is")
        .shows("a gain stays while the number of beds does, and starts again with another")
        .push(two().with(update(0, &[0, 1], 0, &[quieter])))
        .push(two().with(bed(&[1, 0])))
        .push(two().with(bed(&[0])))
        .flush();
}

fn objects(rows: &mut Rows) {
    let place = at(0.3, 0.4, 0.2);
    let screen = anchored(Anchor::Screen, 0.5, at(0.8, 0.3, 0.7));
    rows.row("anchors")
        .shows("one object alone after another: in the room, at the screen, at the speakers")
        .each(&[place, screen, anchored(Anchor::Speaker, 1.0, place)]);
    rows.row("depths")
        .shows("the four depth factors")
        .each(&[0.25, 0.5, 1.0, 2.0].map(|x| depth(x, screen)));
    rows.row("distances")
        .shows("a distance, and an infinite one of either sign")
        .each(&[1.5, f32::INFINITY, -f32::INFINITY].map(|x| distance(x, place)));
    let [loud, quiet] = [gain(0.5, place), gain(0.0, place)];
    rows.row("sizes")
        .shows("sizes 0.25 and 1, a size at gain 0")
        .each(&[size(0.25, place), size(1.0, loud), size(0.25, quiet)]);
    let nan = at(f32::NAN, f32::NAN, f32::NAN);
    let infinite = at(f32::INFINITY, 0.5, -f32::INFINITY);
    rows.row("odd_positions")
        .shows("a NaN, infinities, none given, one that is not valid")
        .each(&[nan, infinite, valid(true, SILENT), valid(false, place)]);
    let three = at_once(0, &[SILENT, near(), place]);
    let isf = frame(&[0], &[[0.0], [0.5]]).with(update(0, &[0], 2, &[three]));
    rows.row("isf")
        .shows("an ISF object that is no bed: the dynamic object comes behind it")
        .push(isf.spoilt(5, 2))
        .flush();
}

fn updates(rows: &mut Rows) {
    rows.row("offset_0")
        .shows("a block at offset 0 is not applied at timecode 0, in a second push either")
        .push(with_object(gain(8.0, SILENT)))
        .push(with_object(gain(8.0, SILENT)))
        .flush();
    rows.row("new_slot")
        .shows("an update at a second push's offset 0 starts a slot there")
        .push(moved(0, near()))
        .push(moved(0, far()))
        .flush();
    let quieter = |offset, code| update(offset, &[code], 0, &[at_once(0, &[gain(0.25, SILENT)])]);
    let two = frame(&[0, 1], &[[0.5; 3], [0.25; 3]]);
    rows.row("mid_frame")
        .shows("an update in mid-frame changes the beds at once, and starts no slot")
        .push(two.with(bed(&[0])).with(quieter(1, 1)))
        .flush();
    rows.row("leading_silence")
        .shows("samples before the first update are silent; it starts a slot in mid-frame")
        .push(frame(&[0], &[[0.5; 3]]).with(quieter(1, 0)))
        .flush();
    let code = |offset, code| update(offset, &[code], 0, &[]);
    rows.row("dropped")
        .shows("an update at the frame's end is never applied: silence; then 9 before 10")
        .push(of_bed().with(code(1, 0)))
        .push(of_bed().rate(96_000))
        .push(of_bed())
        .flush();
    let three = frame(&[0, 1, 2], &[[0.5; 2], [0.25; 2], [0.125; 2]]);
    rows.row("in_order")
        .shows("updates are taken by offset, those of one offset in the order sent")
        .push(three.with(code(1, 1)).with(code(1, 2)).with(code(0, 0)))
        .flush();
    let two = [at_once(0, &[near()]), element([(0, 0)], &[[far()]])];
    rows.row("two_elements")
        .shows("of two elements that have begun the last is taken, though its block is not due")
        .push(of_object().with(update(0, &[], 1, &two)))
        .flush();
    let below = element([(-1, 0)], &[[far()]]);
    rows.row("below_0")
        .shows("an element whose first offset is below 0 does nothing")
        .push(of_object().with(update(0, &[], 1, &[below])))
        .flush();
    let by = differential(at(0.25, 0.1, 0.0));
    rows.row("differences")
        .shows("a differential position, twice")
        .push(moved(0, near()))
        .push(moved(0, by))
        .push(moved(0, by))
        .flush();
    rows.row("another_number")
        .shows("with another number of objects all start again")
        .push(moved(0, gain(0.25, near())))
        .push(frame(&[], &[[0.5], [0.0]]).with(update(0, &[], 2, &[])))
        .flush();
    let resting = update(0, &[], 1, &[element([(0, 0), (5, 0)], &[[SILENT; 2]])]);
    rows.row("kept_element")
        .shows("a kept element keeps flag, target and ramp: half of the way, then the rest")
        .push(moved(0, near()))
        .push(moved(129, far()))
        .push(of_object().with(resting.clone()))
        .flush();
    rows.row("no_flag")
        .shows("where the flag is not set at the previous slot: straight to the target")
        .push(moved(0, near()))
        .push(moved(0, SILENT))
        .push(moved(129, far()))
        .flush();
    let longer = element([(0, 0), (-1, 129), (5, 0)], &[[SILENT, far(), SILENT]]);
    rows.row("new_element")
        .shows("a new element has no flag: straight to the target; and no ramp: there it stays")
        .push(moved(0, near()))
        .push(of_object().with(update(0, &[], 1, &[longer])))
        .push(of_object().with(resting))
        .flush();
    let sent = |send: f32| with_send(200, send, moved(0, gain(0.5, near())));
    rows.row("sent_alone")
        .shows(
            "an object alone on the bass feed; its send stays without a block, and ends with one",
        )
        .push(sent(0.5))
        .push(of_object())
        .push(sent(0.0))
        .flush();
    let rounded = frame(&[], &[[0.7]]).with(update(0, &[], 1, &[at_once(0, &[near()])]));
    rows.row("sent_rounded")
        .shows("gain x send is rounded, then sample x that")
        .push(with_send(200, 0.75, rounded))
        .flush();
    let both = update(0, &[3], 1, &[at_once(0, &[SILENT, near()])]);
    let both = frame(&[3], &[[0.25], [0.5]]).with(both);
    rows.row("sent_with_a_bed")
        .shows(
            "a bass bed and an object, the bed's own send without effect; other objects start at 0",
        )
        .push(with_send(280, 0.75, with_send(200, 1.0, both)))
        .push(frame(&[], &[[0.5], [0.25]]).with(update(0, &[], 2, &[])))
        .flush();
    let last = update(0, &[3, 17], 1, &[at_once(0, &[SILENT, SILENT, near()])]);
    let last = frame(&[3, 17], &[[16.0], [-16.0], [0.001]]).with(last);
    rows.row("sent_last")
        .shows("an object behind two bass beds that cancel each other")
        .push(with_send(360, 1.0, last))
        .flush();
    let fallen = element([(0, 0), (5, 0)], &[[SILENT, far()], [SILENT; 2]]);
    rows.row("lifted")
        .shows("an object becomes a bed, and then an object again: each time all start afresh, stored positions too")
        .push(frame(&[], &[[0.5], [0.0]]).with(set(129, &[far(), SILENT])))
        .push(frame(&[0], &[[0.0], [0.5]]).with(update(0, &[0], 1, &[fallen])))
        .push(frame(&[], &[[0.5], [0.25]]).with(set(0, &[valid(true, SILENT), near()])))
        .flush();
}

fn slots(rows: &mut Rows) {
    let object = |n: usize, heard: &[usize], element: Element| {
        let heard: Vec<_> = heard.iter().map(|&t| (t, 0.5)).collect();
        let push = frame(&[], &[lone(n, &heard)]).with(update(0, &[], 1, &[element]));
        push.stride(192)
    };
    rows.row("second_slot")
        .shows("an object that is heard elsewhere from the second slot on")
        .push(object(65, &[0, 63, 64], element([(0, 0)], &[[far()]])))
        .flush();
    let ramp = element([(0, 0), (-1, 0), (10, 182)], &[[SILENT, near(), far()]]);
    rows.row("ramp")
        .shows("a ramp over slots: half of the way at 64, the rest at 128")
        .push(object(129, &[0, 64, 128], ramp))
        .flush();
}

/// The beds whose speaker some layout lacks.
const LACKED: [u8; 6] = [7, 8, 9, 10, 13, 14];

fn lacked() -> Push {
    frame(&LACKED, &diagonal(6, 0.5)).with(bed(&LACKED))
}

/// Low and high, and two of a size.
fn low_and_high() -> [Object; 4] {
    [
        at(0.3, 0.4, 0.2),
        at(0.2, 0.9, 0.7),
        size(0.25, at(0.3, 0.4, 0.2)),
        size(1.0, gain(0.5, far())),
    ]
}

fn halls(rows: &mut Rows) {
    rows.row("no_layout")
        .shows("15: a layout code above 3; the renderer stays as it was")
        .push(half())
        .make(4)
        .make(u32::MAX)
        .flush();
    rows.row("made_again")
        .shows("a making call starts anew: nothing waits, and any rate is the first")
        .push(half())
        .make(0)
        .flush()
        .push(half().rate(96_000));
    rows.row("same_layout")
        .shows("a reset keeps the layout: beds whose speakers are absent, before and after")
        .make(3)
        .push(lacked())
        .reset()
        .push(lacked())
        .flush();
    let row = rows.row("lacked_beds");
    row.shows("each bed that has no speaker is panned, the others are not");
    for layout in [1, 2] {
        row.make(layout).push(lacked()).flush();
    }
    let codes: Vec<u8> = (0..18).filter(|&code| code != 6).collect();
    let steps: Vec<[f32; 1]> = (1..=17).map(|k| [k as f32 / 32.0]).collect();
    let row = rows.row("beds_together");
    row.shows("all beds at once in each layout");
    for layout in [1, 2, 3] {
        let beds = frame(&codes, &steps).with(bed(&codes));
        row.make(layout).push(beds).flush();
    }
    let row = rows.row("hall_objects");
    row.shows("low and high objects in each layout, and sizes, one alone after another");
    for layout in [1, 2, 3] {
        row.make(layout).each(&low_and_high());
    }
}

/// The floor below the listener, two boxes beside him, two above.
const THREE_HEIGHTS: [Vector; 12] = [
    [-1.0, -1.0, 1.0],
    [1.0, -1.0, 1.0],
    [0.0, -1.0, 1.0],
    [0.0, -1.0, 1.0],
    [-1.0, -1.0, -1.0],
    [1.0, -1.0, -1.0],
    [-1.0, -1.0, 0.0],
    [1.0, -1.0, 0.0],
    [-1.0, 0.0, 0.0],
    [1.0, 0.0, 0.0],
    [-1.0, 1.0, 0.0],
    [1.0, 1.0, 0.0],
];

/// No two boxes at one height.
const MEASURED: [Vector; 12] = [
    [-0.7, -0.1, 0.95],
    [0.72, -0.05, 0.9],
    [0.0, 0.1, 1.0],
    [0.3, -0.9, 0.8],
    [-0.6, 0.05, -0.9],
    [0.65, 0.0, -0.95],
    [-0.95, 0.15, -0.3],
    [1.0, 0.2, -0.25],
    [-0.8, 0.9, 0.4],
    [0.85, 0.95, 0.5],
    [-0.7, 0.85, -0.8],
    [0.75, 1.0, -0.7],
];

fn tables(rows: &mut Rows) {
    let three = table(&THREE_HEIGHTS);
    // A bass channel that is too far off; above, one box where another is.
    let (mut far_off, mut alike) = (THREE_HEIGHTS, THREE_HEIGHTS);
    (far_off[3], alike[11]) = ([0.0, 0.0, 1.5], [-1.0, 1.0, -0.0]);
    far_off[11] = alike[11];
    rows.row("no_table")
        .shows("16, 17 and 18, behind 15; the renderer stays as it was")
        .push(half())
        .make_with(4, &three[..4])
        .make_with(0, &three[..140])
        .make_with(0, &[&three[..], &[0; 4]].concat())
        .make_with(3, &table(&far_off))
        .make_with(3, &table(&alike))
        .flush();
    let row = rows.row("own_table");
    row.shows("low and high objects, and sizes, in a hall of three heights, with the rear pair and without it");
    for layout in [0, 1] {
        row.make_with(layout, &three).each(&low_and_high());
    }
    rows.row("any_heights")
        .shows("the same where no two speakers have one height")
        .make_with(0, &table(&MEASURED))
        .each(&low_and_high());
    rows.row("same_table")
        .shows("a reset keeps the table: beds whose speakers are absent, before and after")
        .make_with(3, &table(&MEASURED))
        .push(lacked())
        .reset()
        .push(lacked())
        .flush();
    rows.row("built_in_again")
        .shows("the built-in values loaded, and the built-in table: the same")
        .make_with(1, &built_in())
        .each(&low_and_high())
        .make(1)
        .each(&low_and_high());
}

/// One sample of an object that moves to the front right, with a ramp from the second slot on.
fn moved_right(ramp: i64) -> Push {
    frame(&[], &[[0.5]]).with(set(ramp, &[at(1.0, 0.0, 0.0)]))
}

/// One of the front left.
fn at_left() -> Push {
    frame(&[], &[[0.5]]).with(set(0, &[gain(1.0, at(0.0, 0.0, 0.0))]))
}

/// A new slot of an element that is kept, with no block due.
fn next_slot() -> Push {
    let kept = element([(0, 0), (5, 0)], &[[SILENT, SILENT]]);
    frame(&[], &[[0.5]]).with(update(0, &[], 1, &[kept]))
}

fn holds(rows: &mut Rows) {
    rows.row("held_and_released")
        .shows("held from the next slot on; a second hold says nothing new; released it goes on, half of the way left, with what remains of the ramp")
        .push(at_left())
        .hold(0)
        .hold(0)
        .push(moved_right(193))
        .release(0)
        .release(0)
        .push(next_slot())
        .flush();
    rows.row("not_held")
        .shows("the same without the hold: a third of the way, and half of the rest")
        .push(at_left())
        .push(moved_right(193))
        .push(next_slot())
        .flush();
    rows.row("held_past_the_ramp")
        .shows("held it stays where no ramp is left, and where there is none; released it is at its target")
        .push(at_left())
        .hold(0)
        .push(moved_right(65))
        .push(next_slot())
        .push(moved_right(0))
        .release(0)
        .push(next_slot())
        .flush();
    rows.row("undone")
        .shows("before one slot a release undoes a hold, and a hold a release")
        .push(at_left())
        .hold(0)
        .release(0)
        .push(moved_right(193))
        .hold(0)
        .push(next_slot())
        .release(0)
        .hold(0)
        .push(next_slot())
        .flush();
    let with_bed = update(0, &[0], 1, &[]);
    rows.row("no_object")
        .shows("24: before the first update, from the number of dynamic objects on")
        .hold(0)
        .release(0)
        .push(frame(&[0], &[[0.0], [0.5]]).with(with_bed))
        .hold(1)
        .hold(u32::MAX)
        .hold(0)
        .release(1);
    rows.row("holds_end")
        .shows("another number of objects, a reset and a making call end all holds")
        .push(at_left())
        .hold(0)
        .push(frame(&[], &[[0.5], [0.0]]).with(update(0, &[], 2, &[])))
        .release(0)
        .hold(1)
        .reset()
        .release(1)
        .push(at_left())
        .release(0)
        .hold(0)
        .make(0)
        .push(at_left())
        .release(0);
}

fn searches(rows: &mut Rows) {
    let row = rows.row("where_to_put");
    row.shows("the first places: rear left, rear right, between them; where they are absent, left surround");
    row.find(1 << 4)
        .find(1 << 5)
        .find(3 << 4)
        .make(1)
        .find(1 << 6);
}

fn ahead(rows: &mut Rows) {
    let new = || update(0, &[], 1, &[]);
    let left = || set(0, &[at(0.0, 0.0, 0.0)]);
    rows.row("falls_ahead")
        .shows("an update of kind 9 is applied in the frame where its sample falls, though that brings none")
        .push(of_object().ahead(2, left()).with(new()))
        .push(of_object())
        .push(of_object())
        .flush();
    rows.row("own_behind")
        .shows("one that waited comes before the frame's own of the same offset, one of kind 1 past the end never")
        .push(of_object().ahead(1, left()).with(new()).with(update(1, &[], 1, &[])))
        .push(of_object().with(set(0, &[at(1.0, 0.0, 0.0)])))
        .flush();
    let nine = (0..9).fold(of_object(), |push, _| push.ahead(5, new()));
    let eight = (0..8).fold(of_object(), |push, _| push.ahead(5, new()));
    rows.row("too_many_ahead")
        .shows("25: nine would wait, and one more than eight; a reset leaves none")
        .push(nine.with(new()))
        .push(eight.with(new()))
        .push(of_object().ahead(1, new()))
        .push(of_object().ahead(0, new()))
        .reset()
        .push(of_object().ahead(1, new()).with(new()));
    rows.row("none_falls")
        .shows("10: a first frame whose one update only waits")
        .push(of_object().ahead(1, new()))
        .push(of_object().ahead(0, new()));
}
