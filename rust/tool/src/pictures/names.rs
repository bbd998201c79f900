// SPDX-License-Identifier: Apache-2.0
//! The names of speakers beside their points: those of one place together, and none over another where there is room.
use crate::svg::{Align, Area, Svg};
use voqlisna::Speaker;

/// How far a name stays from its point, half of its height, and half of a letter's width.
const APART: f64 = 9.0;
const UP: f64 = 7.0;
const LETTER: f64 = 4.2;
/// Of more names than these the number is told.
const MOST: usize = 5;

struct Group {
    at: (f64, f64),
    colour: &'static str,
    speakers: Vec<Speaker>,
}

impl Group {
    fn text(&self) -> String {
        if self.speakers.len() > MOST {
            return format!("{} speakers", self.speakers.len());
        }
        let names: Vec<&str> = self.speakers.iter().map(|s| s.short_name()).collect();
        names.join(" ")
    }
}

pub struct Names {
    area: Area,
    /// Points that are nearer than this, in both directions, share a name.
    near: f64,
    groups: Vec<Group>,
    taken: Vec<Area>,
}

impl Names {
    pub fn new(area: Area, near: f64) -> Self {
        Self {
            area,
            near,
            groups: Vec::new(),
            taken: Vec::new(),
        }
    }

    /// Where no name may be.
    pub fn keep_clear(&mut self, at: (f64, f64), radius: f64) {
        self.taken.push(around(at, radius, radius));
    }

    /// A name that is shared has the colour of the last.
    pub fn add(&mut self, at: (f64, f64), colour: &'static str, speaker: Speaker) {
        let near = |a: f64, b: f64| (a - b).abs() < self.near;
        let is_near = |g: &&mut Group| near(g.at.0, at.0) && near(g.at.1, at.1);
        match self.groups.iter_mut().find(is_near) {
            Some(group) => {
                group.colour = colour;
                group.speakers.push(speaker);
            }
            None => self.groups.push(Group {
                at,
                colour,
                speakers: vec![speaker],
            }),
        }
    }

    pub fn draw(mut self, svg: &mut Svg) {
        for group in &self.groups {
            let text = group.text();
            let place = place(self.area, group.at, text.len(), &self.taken);
            self.taken.push(place);
            let at = (place.x + place.width / 2.0, place.bottom() - 2.5);
            svg.on_white(at, Align::Middle, group.colour, &text);
        }
    }
}

/// For so many letters: beside the point, over it or under it, inside the area and where there is nothing yet.
fn place(area: Area, at: (f64, f64), letters: usize, taken: &[Area]) -> Area {
    let across = LETTER * letters as f64;
    let (aside, above) = (APART + across, APART + UP);
    let farther = above + 2.0 * UP;
    let places = [
        (aside, 0.0),
        (-aside, 0.0),
        (0.0, -above),
        (0.0, above),
        (aside, -above),
        (-aside, -above),
        (aside, above),
        (-aside, above),
        (0.0, -farther),
        (0.0, farther),
    ];
    let places = places.map(|(right, down)| around((at.0 + right, at.1 + down), across, UP));
    let free = |p: &Area| area.holds(*p) && !taken.iter().any(|t| t.meets(*p));
    places.into_iter().find(free).unwrap_or(places[0])
}

/// A rectangle about a point.
fn around(at: (f64, f64), across: f64, up: f64) -> Area {
    Area {
        x: at.0 - across,
        y: at.1 - up,
        width: 2.0 * across,
        height: 2.0 * up,
    }
}
