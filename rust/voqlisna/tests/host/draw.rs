// SPDX-License-Identifier: Apache-2.0
//! Drawn inputs: from a seed, so that a case's number repeats it.

use crate::raw;
use voqlisna::*;

pub struct Draw(u64);

impl Draw {
    /// One stream of numbers for each test and case.
    pub fn new(test: u64, case: u64) -> Self {
        Self(test << 32 ^ case)
    }

    /// SplitMix64.
    pub fn word(&mut self) -> u64 {
        self.0 = self.0.wrapping_add(0x9e37_79b9_7f4a_7c15);
        let z = (self.0 ^ self.0 >> 30).wrapping_mul(0xbf58_476d_1ce4_e5b9);
        let z = (z ^ z >> 27).wrapping_mul(0x94d0_49bb_1331_11eb);
        z ^ z >> 31
    }

    pub fn below(&mut self, n: usize) -> usize {
        (self.word() % n as u64) as usize
    }

    /// True once in `n` times.
    pub fn once_in(&mut self, n: usize) -> bool {
        self.below(n) == 0
    }

    pub fn pick<T: Copy>(&mut self, from: &[T]) -> T {
        from[self.below(from.len())]
    }

    /// From 0 to 1.
    pub fn share(&mut self) -> f32 {
        self.below(1 << 20) as f32 / ((1 << 20) - 1) as f32
    }

    /// Any float: mostly a share, at times an edge or any bits.
    pub fn float(&mut self) -> f32 {
        match self.below(16) {
            0 => f32::from_bits(self.word() as u32),
            1 => self.pick(&[f32::NAN, f32::INFINITY, -0.0, 1.0, 8.0, 16.0, -1.0, 1e-40]),
            _ => self.share(),
        }
    }

    pub fn bytes(&mut self, length: usize) -> Vec<u8> {
        (0..length).map(|_| self.word() as u8).collect()
    }

    /// A coordinate: mostly of a few, so that places meet; at times a step beside one, any, or one that
    /// is outside.
    fn coordinate(&mut self) -> f32 {
        let few: f32 = self.pick(&[0.0, -0.0, 1.0, -1.0, 0.5, -0.5]);
        let above = 1.000_000_1;
        match self.below(8) {
            0 => few * 0.999_999_94,
            1 => self.share() * 2.0 - 1.0,
            2 if self.once_in(24) => self.pick(&[above, -above, f32::NAN, f32::INFINITY, -8.0]),
            _ => few,
        }
    }

    /// Any places, half of them right.
    pub fn places(&mut self) -> [Panned; 12] {
        let apart = self.once_in(2);
        let mut places = [(); 12].map(|()| Panned {
            x: self.coordinate(),
            y: self.coordinate(),
            z: self.coordinate(),
        });
        if apart {
            for place in &mut places {
                place.y = self.share() * 2.0 - 1.0;
            }
        }
        places
    }

    /// A right one, in every fourth case the built-in one.
    pub fn table(&mut self) -> HallTable {
        if self.once_in(4) {
            return HallTable::BUILT_IN;
        }
        loop {
            if let Ok(table) = HallTable::new(self.places()) {
                return table;
            }
        }
    }

    pub fn refusal(&mut self) -> Refusal {
        let (number, first, second) = (
            self.below(28) as u32,
            self.word() as u32,
            self.word() as u32,
        );
        Refusal::from_answer(sys::Answer {
            kind: 1,
            number,
            first,
            second,
            ..raw::DONE
        })
        .unwrap()
    }
}

/// A frame with its memory.
#[derive(Clone)]
pub struct Owned {
    pub rate: Rate,
    pub beds: Vec<Bed>,
    pub pcm: Vec<f32>,
    pub channels: usize,
    pub metadata: Vec<u8>,
}

impl Owned {
    pub fn frame(&self) -> Frame<'_> {
        let pcm = Pcm::packed(&self.pcm, self.channels).unwrap();
        Frame::new(
            self.rate,
            &self.beds,
            pcm,
            Metadata::from_records(&self.metadata),
        )
        .unwrap()
    }
}

/// The channels of a stream.
pub struct Scene {
    pub rate: Rate,
    pub beds: Vec<Bed>,
    pub objects: usize,
}

impl Scene {
    pub fn draw(draw: &mut Draw) -> Self {
        let beds = (0..draw.below(6))
            .map(|_| draw.pick(&Bed::ALL))
            .filter(|bed| *bed != Bed::RearCenter);
        let beds: Vec<Bed> = beds.collect();
        let objects = draw.below(6) + usize::from(beds.is_empty());
        Self {
            rate: Rate::new(draw.pick(&[8_000, 44_100, 48_000, 192_000])).unwrap(),
            beds,
            objects,
        }
    }

    /// A frame of so many samples, with an update in every second one; right in itself.
    pub fn frame(&self, draw: &mut Draw, samples: usize) -> Owned {
        let channels = self.beds.len() + self.objects;
        let level = draw.pick(&[1.0, 1.0, 4.0, 16.0, 1e-30]);
        let pcm = (0..channels * samples)
            .map(|_| (2.0 * draw.share() - 1.0) * level)
            .collect();
        let mut memory = vec![0; 40 * 200];
        let mut writer = MetadataWriter::new(&mut memory);
        for _ in 0..draw.below(3) {
            let objects = (self.beds.len() + self.objects) as u8;
            let at = draw.below(samples.max(1) + 1) as u16;
            let update = Update {
                at,
                objects,
                fixed: self.beds.len() as u8,
                beds: &self.beds,
            };
            let blocks: Vec<_> = (0..draw.below(4)).map(|_| block(draw)).collect();
            let writing = if draw.once_in(6) {
                writer.update_ahead(ahead(draw, update))
            } else {
                writer.update(update)
            };
            writing
                .unwrap()
                .element(&blocks, |_, _| object(draw))
                .unwrap();
        }
        let metadata = writer.finish().as_bytes().to_vec();
        Owned {
            rate: self.rate,
            beds: self.beds.clone(),
            pcm,
            channels,
            metadata,
        }
    }
}

/// The same within the frame, or in one of the next.
fn ahead<'a>(draw: &mut Draw, update: Update<'a>) -> Ahead<'a> {
    let Update {
        at,
        objects,
        fixed,
        beds,
    } = update;
    Ahead {
        at: u32::from(at) + draw.pick(&[0, 1, 700, 70_000]),
        objects,
        fixed,
        beds,
    }
}

fn block(draw: &mut Draw) -> Block {
    Block {
        offset: draw.below(300) as i64 - 20,
        ramp: draw.below(2000) as i64 - 20,
    }
}

/// An object that the writer takes.
fn object(draw: &mut Draw) -> Object {
    let position = Room {
        x: draw.share(),
        y: draw.share(),
        z: draw.share(),
    };
    Object {
        anchor: draw.pick(&Anchor::ALL),
        gain: (!draw.once_in(3)).then(|| 2.0 * draw.share()),
        position: (!draw.once_in(4)).then_some(position),
        valid: !draw.once_in(4),
        differential: draw.once_in(4),
        distance: draw.once_in(4).then(|| draw.share()),
        size: draw.once_in(3).then(|| draw.share()),
        screen_factor: draw.share(),
        depth: draw.pick(&Depth::ALL),
        send: if draw.once_in(2) { draw.share() } else { 0.0 },
    }
}

/// Makes one wrong place in metadata, if there is any.
pub fn damage(draw: &mut Draw, metadata: &mut Vec<u8>) {
    if metadata.is_empty() {
        return;
    }
    let at = draw.below(metadata.len());
    let record = at / 40 * 40;
    let end = (record + 40).min(metadata.len());
    match draw.below(8) {
        0 => metadata.truncate(at),
        1 => metadata.truncate(record),
        2 => metadata.extend_from_within(record..end),
        3 => metadata[at] ^= 1 << draw.below(8),
        4 => metadata[at] = draw.below(40) as u8,
        5 => metadata[record + draw.below(end.min(record + 8) - record)] = draw.below(40) as u8,
        _ => spoil_value(draw, &mut metadata[record..end]),
    }
}

/// Puts a value of a block or an object out of its range.
fn spoil_value(draw: &mut Draw, record: &mut [u8]) {
    let (at, value) = match record[0] {
        3 => (draw.pick(&[8, 16]), 1_048_577i64.to_le_bytes().to_vec()),
        _ => {
            let value: f32 = draw.pick(&[-0.5, 9.0, 1.5, f32::NAN]);
            (draw.pick(&[4, 24, 32, 36]), value.to_le_bytes().to_vec())
        }
    };
    for (place, byte) in record.iter_mut().skip(at).zip(value) {
        *place = byte;
    }
}
