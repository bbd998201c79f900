//! A frame in the terms of document 01, "What a call receives".

use crate::Vector;

#[derive(Clone, Debug, Default, PartialEq)]
pub struct Frame {
    pub rate: u32,
    /// Samples of each channel.
    pub samples: usize,
    /// Code, 0 to 17, of each bed channel.
    pub beds: Vec<u8>,
    pub objects: usize,
    /// Channel after channel, beds then objects: (beds + objects) * samples.
    pub pcm: Vec<f32>,
    pub updates: Vec<Update>,
}

impl Frame {
    /// The samples of one channel, beds then objects.
    pub fn channel(&self, index: usize) -> &[f32] {
        &self.pcm[index * self.samples..][..self.samples]
    }

    /// The updates that are applied, in time: not those at or past the end, offset 0 excepted.
    pub fn applied(&self) -> Vec<&Update> {
        let applied = |u: &&Update| u.offset == 0 || usize::from(u.offset) < self.samples;
        let mut updates: Vec<&Update> = self.updates.iter().filter(applied).collect();
        updates.sort_by_key(|update| update.offset);
        updates
    }
}

#[derive(Clone, Debug, Default, PartialEq)]
pub struct Update {
    pub offset: u16,
    pub objects: u8,
    pub bed_or_isf_objects: u8,
    /// Code of each bed channel.
    pub beds: Vec<u8>,
    pub elements: Vec<Element>,
}

#[derive(Clone, Debug, Default, PartialEq)]
pub struct Element {
    pub blocks: Vec<Block>,
    /// For each object, one entry a block.
    pub objects: Vec<Vec<Object>>,
}

#[derive(Clone, Copy, Debug, Default, PartialEq)]
pub struct Block {
    pub offset: i64,
    pub ramp: i64,
}

#[derive(Clone, Copy, Debug, Default, PartialEq)]
pub enum Anchor {
    #[default]
    Room,
    Screen,
    Speaker,
}

/// The anchors by code.
pub const ANCHORS: [Anchor; 3] = [Anchor::Room, Anchor::Screen, Anchor::Speaker];
/// The depth factors, and in a state block their codes.
pub const DEPTHS: [f32; 4] = [0.25, 0.5, 1.0, 2.0];

/// An object in a block.
#[derive(Clone, Copy, Debug, PartialEq)]
pub struct Object {
    pub anchor: Anchor,
    pub position_valid: bool,
    pub differential: bool,
    pub gain: Option<f32>,
    pub position: Option<Vector>,
    pub distance: Option<f32>,
    pub size: Option<f32>,
    pub screen: f32,
    pub depth: f32,
    /// To the bass feed (document 02, R-3): the unchanged Rust has none.
    pub send: f32,
}

impl Object {
    /// It says nothing.
    pub const SILENT: Self = Self {
        anchor: Anchor::Room,
        position_valid: false,
        differential: false,
        gain: None,
        position: None,
        distance: None,
        size: None,
        screen: 1.0,
        depth: 1.0,
        send: 0.0,
    };

    /// The record's flags, by place.
    pub fn flags(&self) -> [bool; 6] {
        [
            self.position_valid,
            self.differential,
            self.gain.is_some(),
            self.position.is_some(),
            self.distance.is_some(),
            self.size.is_some(),
        ]
    }
}

impl Default for Object {
    fn default() -> Self {
        Self::SILENT
    }
}
