// SPDX-License-Identifier: Apache-2.0
//! What can arise, as it is printed: all of it must in a run that is long enough.

use super::What::{self, *};
use crate::tables::{KINDS, Kind};

/// A heading, and what stands behind it, by name.
type Line = (&'static str, Vec<(String, What)>);

/// What has a name.
const NAMED: [(&str, &[(&str, What)]); 18] = [
    (
        "compared",
        &[
            ("runs", Run),
            ("calls", Call),
            ("frames", Frame),
            ("samples", Sample),
        ],
    ),
    (
        "anchors",
        &[
            ("room", Anchor(0)),
            ("screen", Anchor(1)),
            ("speaker", Anchor(2)),
        ],
    ),
    (
        "flags",
        &[
            ("position valid", Flag(0)),
            ("differential", Flag(1)),
            ("gain", Flag(2)),
            ("position", Flag(3)),
            ("distance", Flag(4)),
            ("size", Flag(5)),
        ],
    ),
    (
        "depth factors",
        &[
            ("0.25", Depth(0)),
            ("0.5", Depth(1)),
            ("1", Depth(2)),
            ("2", Depth(3)),
        ],
    ),
    ("ramps", &[("ended", RampEnded), ("cut", RampCut)]),
    ("elements", &[("kept", Kept), ("new", New)]),
    (
        "lifted channels",
        &[("updates", Lift), ("frames from there on", Lifted)],
    ),
    (
        "sends",
        &[
            ("0", Send(0)),
            ("1", Send(1)),
            ("between", Send(2)),
            ("frames from one on", Sent),
        ],
    ),
    (
        "holds",
        &[
            ("holds", Hold),
            ("releases", Release),
            ("known", Known),
            ("objects stopped", Stopped),
            ("released on a ramp", GoesOn),
            ("released behind it", Jumps),
            ("frames from a hold on", Held),
        ],
    ),
    (
        "updates far ahead",
        &[
            ("frames that leave some", Waiting),
            ("that leave eight", MostWaiting),
            ("updates that fell", Fallen),
            ("at offset 0", FallenFirst),
            ("at the last sample", FallenLast),
        ],
    ),
    (
        "frames",
        &[
            ("beside the unchanged Rust", Unchanged),
            ("in other halls, beside the reading", Read),
        ],
    ),
    (
        "in time",
        &[
            ("frames with leading silence", Silence),
            ("updates dropped past the end", Dropped),
        ],
    ),
    ("limiter", &[("calls that leave a gain below 1", Limited)]),
    (
        "answered peaks and gains",
        &[
            ("peak above 1", Loud),
            ("infinite", Infinite),
            ("gain below 1", Down),
            ("above 1", Up),
            ("0 or less", Low),
            ("a NaN passed over", NanGain),
        ],
    ),
    ("flushes", &[("with samples", Flush), ("without", Nothing)]),
    ("new renderers", &[("all", Fresh)]),
    (
        "frames",
        &[
            ("at another stride", OtherStride),
            ("over 1,200 records", LongList),
            ("longer output", LongOutput),
        ],
    ),
    (
        "damaged",
        &[
            ("counts and lengths", Stretched),
            ("lent memory", WronglyLent),
            ("blocks out of range", BlockOutside),
            ("blocks in range", BlockInside),
            ("streams", Stream),
        ],
    ),
];

/// What tables are.
fn kinds() -> [Line; 2] {
    let line = |heading, what: fn(Kind) -> What| {
        let item = |(name, kind): (&str, Kind)| (name.to_string(), what(kind));
        (heading, KINDS.map(item).to_vec())
    };
    [
        line("frames by table", Table),
        line("made with a table", MakeWith),
    ]
}

/// What has a number: refusals of a renderer's calls but 7, bed codes, strides, layouts. Code 6 has no speaker and is never
/// mixed.
fn numbered() -> [Line; 6] {
    let beds = (0..18).filter(|&code| code != 6);
    [
        line("frames by layout", 0..4, Layout),
        line("made, by layout", 0..4, Make),
        line(
            "refusals",
            (1..=18).filter(|&n| n != 7).chain([24, 25]),
            Refusal,
        ),
        line("bed channels of frames", 0..18, Input),
        line("beds mixed", beds, Bed),
        line("strides", (64..=1_536).step_by(64), Stride),
    ]
}

fn line<N: Copy + ToString>(
    heading: &'static str,
    numbers: impl Iterator<Item = N>,
    what: fn(N) -> What,
) -> Line {
    let items = numbers.map(|n| (n.to_string(), what(n)));
    (heading, items.collect())
}

pub fn table() -> Vec<Line> {
    let owned = |&(name, what): &(&str, What)| (name.to_string(), what);
    let named = NAMED.map(|(heading, items)| (heading, items.iter().map(owned).collect()));
    let lines = named.into_iter().chain(kinds());
    lines.chain(numbered()).collect()
}
