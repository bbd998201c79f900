// SPDX-License-Identifier: Apache-2.0
//! Document 02's R-13, twice: by the terms of `oracle::reading`, and by what the amended Rust's own
//! loops put on the channels.

use crate::entry::Place;
use oracle::amended::leaf::render_object_in_hall;
use oracle::reading::{object, silence, source};
use oracle::{Hall, Vector};

/// "x and z from -1 to 1 in steps of 1/32 and y from 0 to 1 in steps of 1/16 .. the first by y, then z,
/// then x, each rising"
pub fn grid() -> impl Iterator<Item = Vector> {
    let across = || (0..65u8).map(|i| f32::from(i) / 32.0 - 1.0);
    let up = (0..17u8).map(|j| f32::from(j) / 16.0);
    up.flat_map(move |y| across().flat_map(move |z| across().map(move |x| [x, y, z])))
}

/// "a 12-bit mask, bit c for channel c": channels with "a nonzero coefficient for gain 1 and size 0".
fn read_at(hall: &Hall, place: Vector) -> usize {
    let terms = object(hall, &source(place, 1.0, 0.0));
    let sounding = terms.iter().filter(|(_, factor)| *factor != 0.0);
    sounding.fold(0, |mask, (channel, _)| mask | 1 << channel)
}

/// The same of what a sample of 1 leaves on the channels.
fn mixed_at(hall: &Hall, place: Vector, channels: &mut [Vec<f32>]) -> usize {
    channels.iter_mut().for_each(|samples| samples.fill(0.0));
    render_object_in_hall(hall, &[1.0], channels, 0, &source(place, 1.0, 0.0));
    let sounds = |&channel: &usize| channels[channel].first().is_some_and(|x| *x != 0.0);
    (0..12).filter(sounds).map(|channel| 1 << channel).sum()
}

/// The first place of each set that the grid has, by its mask.
pub struct Found(Vec<Option<Vector>>);

impl Found {
    /// Both ways agree at each place.
    pub fn new(hall: &Hall) -> Self {
        let mut found = vec![None; 1 << 12];
        let mut channels = silence(hall, 1);
        for place in grid() {
            let mask = mixed_at(hall, place, &mut channels);
            assert_eq!(read_at(hall, place), mask, "{hall:?}, {place:?}");
            found[mask].get_or_insert(place);
        }
        Found(found)
    }

    /// "none exactly if the grid has none .. a mask above 4,095 does too"
    pub fn place(&self, mask: u32) -> Option<Vector> {
        self.0.get(mask as usize).copied().flatten()
    }

    /// The masks that the grid has.
    pub fn masks(&self) -> Vec<u32> {
        let masks = (0..1 << 12).filter(|&mask| self.place(mask).is_some());
        masks.collect()
    }

    /// The entry's answer is this, to the bit: "With none .. they are +0.0".
    pub fn is(&self, mask: u32, answer: Place) -> bool {
        let place = self.place(mask);
        let bits = [answer.x, answer.y, answer.z].map(f32::to_bits);
        let kind = if place.is_some() { 0 } else { 2 };
        (answer.kind, answer.number) == (kind, 0)
            && bits == place.unwrap_or_default().map(f32::to_bits)
    }
}
