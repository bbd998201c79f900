// SPDX-License-Identifier: Apache-2.0
//! What runs have reached: how often each thing arose.

use super::table::table;
use crate::setup::Table;
use crate::tables::{KINDS, Kind};
use std::collections::BTreeMap;
use std::fmt;

/// A thing that can arise.
#[derive(Clone, Copy, Debug, PartialEq, Eq, PartialOrd, Ord)]
pub enum What {
    Run,
    Call,
    /// An accepted push.
    Frame,
    /// One that is compared, of one channel.
    Sample,
    /// By number.
    Refusal(u32),
    /// A bed channel of an accepted push, by code.
    Input(u8),
    /// A bed that is mixed after an accepted push, by code.
    Bed(u8),
    /// Of an object record whose block was applied to a dynamic object: its anchor's code, the
    /// places of its flags, its depth factor's code.
    Anchor(u8),
    Flag(u8),
    Depth(u8),
    /// Between two calls: a ramp ran out with no update or block in between; a block was applied,
    /// or the element made new, before the ramp could run out.
    RampEnded,
    RampCut,
    /// Elements of applied updates.
    Kept,
    New,
    /// An update that lifts a channel, and an accepted push from there to the next new renderer.
    Lift,
    Lifted,
    /// Sends of applied object records: 0, 1, between; and an accepted push from an object that is
    /// sent to the bass feed to the next new renderer.
    Send(u8),
    Sent,
    /// Holds, releases, and those that were known; and an accepted push from a hold to the next new
    /// renderer.
    Hold,
    Release,
    Known,
    Held,
    /// Objects that an accepted push leaves held where they were, in another place than they would have
    /// without the hold, those that it releases with a ramp left, and with none.
    Stopped,
    GoesOn,
    Jumps,
    /// An accepted push that leaves updates waiting, and one that leaves eight; waiting ones that fell in
    /// accepted pushes, at offset 0, and at the last sample.
    Waiting,
    MostWaiting,
    Fallen,
    FallenFirst,
    FallenLast,
    /// An accepted push that is held against the unchanged Rust.
    Unchanged,
    /// In another hall than the Rust's, one that is held against the reading of its hall.
    Read,
    /// Accepted pushes by layout and by what their hall's table is; making calls that are accepted,
    /// by layout, and those with a table by what it is.
    Layout(u32),
    Table(Kind),
    Make(u32),
    MakeWith(Kind),
    /// An accepted push with silent samples before the first update.
    Silence,
    /// An update at or past the frame's end.
    Dropped,
    /// An accepted push or flush that leaves a limiter gain below 1.
    Limited,
    /// One that answers a peak above 1, an infinite one; a gain below 1 and above 0, above 1, not
    /// above 0; and one that gives samples of a block whose gain is NaN.
    Loud,
    Infinite,
    Down,
    Up,
    Low,
    NanGain,
    /// A flush that gives samples, and one that has none to give.
    Flush,
    Nothing,
    /// A new renderer, by reset or making.
    Fresh,
    /// Accepted pushes by stride and by rate.
    Stride(u32),
    Rate(u32),
    /// An accepted push at another stride than the one before, of more than 1,200 metadata records,
    /// into more than 12 x stride places.
    OtherStride,
    LongList,
    LongOutput,
    /// Damaged calls: of a push's counts and lengths; of what is lent to write; of a block, out of
    /// its ranges and within; a list read from a damaged stream of records.
    Stretched,
    WronglyLent,
    BlockOutside,
    BlockInside,
    Stream,
}

/// How often each thing arose.
#[derive(Clone, Debug, Default, PartialEq)]
pub struct Reached(BTreeMap<What, u64>);

impl Reached {
    pub fn add(&mut self, what: What, times: u64) {
        if times > 0 {
            *self.0.entry(what).or_insert(0) += times;
        }
    }

    /// All that a table is.
    pub fn kinds(&mut self, table: &Table, what: fn(Kind) -> What) {
        for (_, kind) in KINDS {
            self.add(what(kind), kind.is(table).into());
        }
    }

    pub fn one(&mut self, what: What) {
        self.add(what, 1);
    }

    pub fn join(&mut self, other: &Reached) {
        for (&what, &times) in &other.0 {
            self.add(what, times);
        }
    }

    pub fn times(&self, what: What) -> u64 {
        self.0.get(&what).copied().unwrap_or(0)
    }

    /// Those of the table that did not arise, in runs of that layout: only layout 0 is held against
    /// the unchanged Rust.
    pub fn missing(&self, layout: u32) -> Vec<What> {
        let all = table().into_iter().flat_map(|(_, line)| line);
        let whats = all.map(|(_, what)| what);
        let can = whats.filter(|&what| what != What::Unchanged || layout == 0);
        can.filter(|&what| self.times(what) == 0).collect()
    }

    /// The different rates.
    pub fn rates(&self) -> usize {
        let rates = self.0.keys().filter(|what| matches!(what, What::Rate(_)));
        rates.count()
    }
}

impl fmt::Display for Reached {
    fn fmt(&self, f: &mut fmt::Formatter) -> fmt::Result {
        for (heading, line) in table() {
            let item = |(name, what): &(String, What)| format!("{name}: {}", self.times(*what));
            let items: Vec<String> = line.iter().map(item).collect();
            writeln!(f, "{heading}: {}", items.join(", "))?;
        }
        write!(f, "rates: {}", self.rates())
    }
}
