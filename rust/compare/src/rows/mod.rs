//! The rows of crates/rows: lists of calls, and what document 01 has the host see of each.

mod lists;
mod parts;
mod text;

use crate::calls::{Call, Step};
use crate::model::find::Found;
use crate::model::{Model, Outcome};
use crate::records;
use oracle::Vector;
use oracle::frame::Update;

pub use lists::groups;

/// A push, with its metadata as updates.
#[derive(Clone)]
pub struct Push {
    pub stride: u32,
    pub rate: u32,
    pub samples: u32,
    pub codes: Vec<u8>,
    pub objects: u32,
    /// Channel after channel.
    pub pcm: Vec<f32>,
    /// Updates of kind 9, with their offsets; they come before the others.
    pub ahead: Vec<(u32, Update)>,
    pub updates: Vec<Update>,
    /// Bytes put wrong in the first update: place and value.
    pub spoilt: Vec<(usize, u8)>,
}

#[derive(Clone)]
pub enum Turn {
    Push(Push),
    /// At a stride.
    Flush(u32),
    Reset,
    /// By the layout's code, and with a table's bytes.
    Make(u32),
    MakeWith(u32, Vec<u8>),
    /// Of a dynamic object: whether a hold is wanted.
    Mark(u32, bool),
    /// By the mask.
    Find(u32),
    /// The same with an output that is a byte short.
    Short(Box<Turn>),
}

/// What the host sees of a call.
#[derive(Debug)]
pub enum Seen {
    Said(Outcome),
    /// A hold or a release: whether it changed anything.
    Noted(bool),
    /// Of a search.
    Place(Option<Vector>),
}

pub struct Row {
    pub name: &'static str,
    /// What it shows, in a line.
    pub shows: &'static str,
    /// The stream's position before the first call.
    pub start: u64,
    pub turns: Vec<Turn>,
}

pub struct Group {
    pub name: &'static str,
    pub rows: Vec<Row>,
}

/// The text of crates/rows/specs/Lists.antt.
pub fn text() -> String {
    assert!(lists::order_matters());
    text::text(&groups())
}

impl From<&Push> for Call {
    fn from(push: &Push) -> Self {
        let ahead = push.ahead.iter();
        let mut meta: Vec<u8> = ahead
            .flat_map(|(offset, update)| records::write_ahead(update, *offset))
            .collect();
        meta.extend(records::write(&push.updates));
        for &(at, byte) in &push.spoilt {
            meta[at] = byte;
        }
        Call {
            rate: push.rate,
            samples: push.samples,
            codes: push.codes.clone(),
            objects: push.objects,
            meta,
            pcm: push.pcm.iter().flat_map(|x| x.to_le_bytes()).collect(),
        }
    }
}

impl Turn {
    pub fn stride(&self) -> u32 {
        match self {
            Turn::Push(push) => push.stride,
            Turn::Flush(stride) => *stride,
            Turn::Reset | Turn::Make(_) | Turn::MakeWith(..) => 0,
            Turn::Mark(..) | Turn::Find(_) => 0,
            Turn::Short(turn) => turn.stride(),
        }
    }

    /// Bytes of the output that is lent.
    pub fn room(&self) -> usize {
        48 * self.stride() as usize - usize::from(matches!(self, Turn::Short(_)))
    }

    fn seen(&self, model: &mut Model) -> Seen {
        match self {
            Turn::Mark(object, wanted) => match model.mark(*object, *wanted) {
                Outcome::Marked(mark) => Seen::Noted(mark.is_some()),
                refused => Seen::Said(refused),
            },
            Turn::Find(mask) => Seen::Place(Found::new(model.hall()).place(*mask)),
            _ => Seen::Said(self.outcome(model)),
        }
    }

    fn outcome(&self, model: &mut Model) -> Outcome {
        let stride = self.stride();
        let strides = stride.is_multiple_of(64) && (64..=1_536).contains(&stride);
        match self {
            Turn::Reset => model.reset(),
            Turn::Make(layout) => model.make(&Step::Make(*layout)),
            Turn::MakeWith(layout, table) => model.make(&Step::MakeWith(*layout, table.clone())),
            // Document 01's 1, for what is lent besides the state block.
            _ if !strides || self.room() < 48 * stride as usize => Outcome::Refused([1, 0, 0]),
            Turn::Push(push) => model.push(&push.into(), stride as usize),
            Turn::Flush(_) => model.flush(),
            Turn::Short(turn) => turn.outcome(model),
            Turn::Mark(..) | Turn::Find(_) => unreachable!("`seen` has them"),
        }
    }
}

impl Row {
    /// What the host sees of each call.
    pub fn seen(&self) -> Vec<Seen> {
        let mut model = Model::new();
        model.before = self.start;
        let turns = self.turns.iter();
        turns.map(|turn| turn.seen(&mut model)).collect()
    }
}
