//! What the rows are made of.

use super::{Push, Row, Turn};
use oracle::frame::{Anchor, Block, Element, Object, Update};

// ---- calls

/// A frame at 48,000 and stride 64; channels past the beds are objects.
pub fn frame<T: AsRef<[f32]>>(codes: &[u8], channels: &[T]) -> Push {
    let samples = channels.first().map_or(0, |x| x.as_ref().len());
    Push {
        stride: 64,
        rate: 48_000,
        samples: samples as u32,
        codes: codes.to_vec(),
        objects: (channels.len() - codes.len()) as u32,
        pcm: channels.iter().flat_map(|x| x.as_ref()).copied().collect(),
        ahead: vec![],
        updates: vec![],
        spoilt: vec![],
    }
}

/// Channel k has x at sample k alone.
pub fn diagonal(n: usize, x: f32) -> Vec<Vec<f32>> {
    (0..n).map(|k| lone(n, &[(k, x)])).collect()
}

/// Silence but for these samples.
pub fn lone(n: usize, heard: &[(usize, f32)]) -> Vec<f32> {
    let mut samples = vec![0.0; n];
    heard.iter().for_each(|&(t, x)| samples[t] = x);
    samples
}

impl Push {
    pub fn with(mut self, update: Update) -> Self {
        self.updates.push(update);
        self
    }

    /// An update of kind 9, so many samples ahead.
    pub fn ahead(mut self, offset: u32, update: Update) -> Self {
        self.ahead.push((offset, update));
        self
    }

    pub fn stride(self, stride: u32) -> Self {
        Push { stride, ..self }
    }

    pub fn rate(self, rate: u32) -> Self {
        Push { rate, ..self }
    }

    pub fn codes(mut self, codes: &[u8]) -> Self {
        self.codes = codes.to_vec();
        self
    }

    pub fn pcm(mut self, pcm: &[f32]) -> Self {
        self.pcm = pcm.to_vec();
        self
    }

    /// No samples, and no PCM.
    pub fn empty(self) -> Self {
        let push = self.pcm(&[]);
        Push { samples: 0, ..push }
    }

    pub fn spoilt(mut self, at: usize, byte: u8) -> Self {
        self.spoilt.push((at, byte));
        self
    }
}

impl Row {
    pub fn shows(&mut self, shows: &'static str) -> &mut Self {
        self.shows = shows;
        self
    }

    pub fn starts(&mut self, start: u64) -> &mut Self {
        self.start = start;
        self
    }

    pub fn turn(&mut self, turn: Turn) -> &mut Self {
        self.turns.push(turn);
        self
    }

    pub fn push(&mut self, push: Push) -> &mut Self {
        self.turn(Turn::Push(push))
    }

    pub fn pushes(&mut self, pushes: impl IntoIterator<Item = Push>) -> &mut Self {
        self.turns.extend(pushes.into_iter().map(Turn::Push));
        self
    }

    pub fn flush(&mut self) -> &mut Self {
        self.turn(Turn::Flush(64))
    }

    pub fn reset(&mut self) -> &mut Self {
        self.turn(Turn::Reset)
    }

    pub fn make(&mut self, layout: u32) -> &mut Self {
        self.turn(Turn::Make(layout))
    }

    pub fn make_with(&mut self, layout: u32, table: &[u8]) -> &mut Self {
        self.turn(Turn::MakeWith(layout, table.to_vec()))
    }

    pub fn hold(&mut self, object: u32) -> &mut Self {
        self.turn(Turn::Mark(object, true))
    }

    pub fn release(&mut self, object: u32) -> &mut Self {
        self.turn(Turn::Mark(object, false))
    }

    pub fn find(&mut self, mask: u32) -> &mut Self {
        self.turn(Turn::Find(mask))
    }

    /// Objects that are set at once and heard one after another.
    pub fn each(&mut self, objects: &[Object]) -> &mut Self {
        let push = frame(&[], &diagonal(objects.len(), 0.5));
        self.push(push.with(set(0, objects))).flush()
    }

    /// With an output that is a byte short.
    pub fn short(&mut self, turn: Turn) -> &mut Self {
        self.turn(Turn::Short(Box::new(turn)))
    }
}

// ---- metadata

pub fn update(offset: u16, beds: &[u8], dynamic: u8, elements: &[Element]) -> Update {
    Update {
        offset,
        objects: beds.len() as u8 + dynamic,
        bed_or_isf_objects: beds.len() as u8,
        beds: beds.to_vec(),
        elements: elements.to_vec(),
    }
}

/// Beds alone, at offset 0.
pub fn bed(codes: &[u8]) -> Update {
    update(0, codes, 0, &[])
}

/// Dynamic objects that are set at once, at offset 0.
pub fn set(ramp: i64, objects: &[Object]) -> Update {
    update(0, &[], objects.len() as u8, &[at_once(ramp, objects)])
}

/// For each object one entry a block.
pub fn element<const N: usize>(blocks: [(i64, i64); N], objects: &[[Object; N]]) -> Element {
    Element {
        blocks: blocks.map(|(offset, ramp)| Block { offset, ramp }).to_vec(),
        objects: objects.iter().map(|o| o.to_vec()).collect(),
    }
}

/// Objects of a block that is due at timecode 0: its offset is -1, behind a first block at 0.
pub fn at_once(ramp: i64, objects: &[Object]) -> Element {
    let objects: Vec<_> = objects.iter().map(|&o| [SILENT, o]).collect();
    element([(0, 0), (-1, ramp)], &objects)
}

pub const SILENT: Object = Object::SILENT;

pub fn at(x: f32, y: f32, z: f32) -> Object {
    Object {
        position_valid: true,
        position: Some([x, y, z]),
        ..SILENT
    }
}

pub fn gain(gain: f32, object: Object) -> Object {
    Object {
        gain: Some(gain),
        ..object
    }
}

pub fn size(size: f32, object: Object) -> Object {
    Object {
        size: Some(size),
        ..object
    }
}

pub fn distance(distance: f32, object: Object) -> Object {
    Object {
        distance: Some(distance),
        ..object
    }
}

pub fn depth(depth: f32, object: Object) -> Object {
    Object { depth, ..object }
}

pub fn valid(position_valid: bool, object: Object) -> Object {
    Object {
        position_valid,
        ..object
    }
}

pub fn differential(object: Object) -> Object {
    Object {
        differential: true,
        ..object
    }
}

pub fn anchored(anchor: Anchor, screen: f32, object: Object) -> Object {
    Object {
        anchor,
        screen,
        ..object
    }
}
