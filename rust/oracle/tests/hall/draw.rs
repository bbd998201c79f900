//! Random values, the same in every run.

use oracle::amended::leaf;
use oracle::frame::{ANCHORS, Block, DEPTHS, Element, Frame, Object, Update};
use oracle::reading::{BASS, present, source};
use oracle::state::{Metadata, Source, State};
use oracle::{Hall, Oracle, Vector};
use std::array;

pub const REAR_CENTER: u8 = 6;
const RATES: [u32; 5] = [32_000, 44_100, 48_000, 88_200, 96_000];

pub struct Draw(pub u64);

impl Draw {
    /// splitmix64
    fn bits(&mut self) -> u64 {
        self.0 = self.0.wrapping_add(0x9e37_79b9_7f4a_7c15);
        let mut z = self.0;
        z = (z ^ (z >> 30)).wrapping_mul(0xbf58_476d_1ce4_e5b9);
        z = (z ^ (z >> 27)).wrapping_mul(0x94d0_49bb_1331_11eb);
        z ^ (z >> 31)
    }

    fn below(&mut self, end: usize) -> usize {
        (self.bits() % end as u64) as usize
    }

    fn one_in(&mut self, n: usize) -> bool {
        self.below(n) == 0
    }

    fn of<T: Copy>(&mut self, values: &[T]) -> T {
        values[self.below(values.len())]
    }

    /// From -most to most.
    fn within(&mut self, most: f32) -> f32 {
        (self.bits() >> 40) as f32 / (1 << 23) as f32 * most - most
    }

    fn samples(&mut self, count: usize) -> Vec<f32> {
        (0..count).map(|_| self.within(2.0)).collect()
    }

    pub fn gain(&mut self) -> f32 {
        let any = self.within(4.0) + 4.0;
        self.of(&[0.0, 1.0, 8.0, any, any, any])
    }

    pub fn size(&mut self) -> f32 {
        let any = self.within(0.5) + 0.5;
        self.of(&[0.0, 0.0, 0.0, 1.0, any, any])
    }

    /// From -1 to 1: ends, zeros, subnormals, neighbours and others.
    fn coordinate(&mut self) -> f32 {
        const EDGES: [f32; 8] = [0.0, -0.0, 1.0, -1.0, 0.5, f32::MIN_POSITIVE, 1e-45, -1e-45];
        let (edge, any) = (self.of(&EDGES), self.within(1.0));
        let tiny = any * f32::MIN_POSITIVE;
        let stepped = self.of(&[edge.next_up(), edge.next_down()]);
        self.of(&[edge, stepped, any, any, tiny]).clamp(-1.0, 1.0)
    }

    /// No two full-range speakers at one place: one in four has them anywhere, in others they
    /// share rows and layers.
    pub fn table(&mut self) -> [Vector; 12] {
        let apart = self.one_in(4);
        loop {
            let table = match apart {
                true => array::from_fn(|_| array::from_fn(|_| self.within(1.0))),
                false => self.grid(),
            };
            if distinct(&table) {
                return table;
            }
        }
    }

    /// Twelve places of a grid of two to four coordinates an axis.
    fn grid(&mut self) -> [Vector; 12] {
        let sizes = self.of(&[
            [2, 2, 3],
            [2, 3, 2],
            [3, 2, 2],
            [3, 3, 2],
            [4, 2, 4],
            [3, 4, 4],
        ]);
        let [x, y, z] = sizes.map(|size| (0..size).map(|_| self.coordinate()).collect::<Vec<_>>());
        let rows = y.iter().flat_map(|&y| z.iter().map(move |&z| (y, z)));
        let mut places: Vec<Vector> = rows
            .flat_map(|(y, z)| x.iter().map(move |&x| [x, y, z]))
            .collect();
        array::from_fn(|_| places.swap_remove(self.below(places.len())))
    }

    /// Of every layout; one in eight has the built-in table.
    pub fn hall(&mut self) -> Hall {
        let table = if self.one_in(8) {
            Hall::built_in().table
        } else {
            self.table()
        };
        Hall {
            layout: self.below(4) as u8,
            table,
        }
    }

    /// Along an axis: at a speaker, one step beside it, between two, and anything else.
    fn place(&mut self, table: &[Vector; 12], axis: usize) -> f32 {
        const EDGES: [f32; 7] = [
            f32::NAN,
            f32::INFINITY,
            f32::NEG_INFINITY,
            0.0,
            -0.0,
            1e-45,
            -1e-45,
        ];
        let [speaker, other] = [0; 2].map(|_| table[self.below(12)][axis]);
        match self.below(16) {
            0 => speaker,
            1 => self.of(&[speaker.next_up(), speaker.next_down()]),
            2 => self.of(&EDGES),
            3 => f32::from_bits(self.bits() as u32),
            4 => self.within(1.2),
            _ => speaker + (other - speaker) * 0.3,
        }
    }

    pub fn source(&mut self, table: &[Vector; 12]) -> Source {
        let position = array::from_fn(|axis| self.place(table, axis));
        source(position, self.gain(), self.size())
    }

    /// Codes that can be mixed, each at most once, in any order.
    pub fn beds(&mut self) -> Vec<u8> {
        let mut codes: Vec<u8> = (0..18).filter(|&code| code != REAR_CENTER).collect();
        let count = self.below(6);
        (0..count)
            .map(|_| codes.swap_remove(self.below(codes.len())))
            .collect()
    }

    /// Every sample from -2 to 2.
    pub fn frame(&mut self, rate: u32, beds: &[u8], objects: usize) -> Frame {
        let samples = 1 + self.below(200);
        Frame {
            rate,
            samples,
            beds: beds.to_vec(),
            objects,
            pcm: self.samples((beds.len() + objects) * samples),
            updates: Vec::new(),
        }
    }

    /// A renderer between two calls: some beds, objects and waiting samples, and no element that
    /// would move them. What stands in absent channels is loud.
    pub fn state(&mut self, hall: &Hall) -> State {
        let (rate, waiting) = (self.of(&RATES), self.below(64));
        let bed_channels = self.beds();
        let dynamic_sources: Vec<Source> = (0..1 + self.below(4))
            .map(|_| Source {
                send: self.size(),
                ..self.source(&hall.table)
            })
            .collect();
        let fresh = Oracle::new().state();
        State {
            sample_rate: Some(rate),
            limiter_gain: self.of(&[1.0, 0.5]),
            lfe_lowpass: Some(leaf::lowpass_new(rate)),
            limiter_pending: (0..12)
                .map(|channel| match present(hall).contains(&channel) {
                    true => self.samples(waiting),
                    false => vec![f32::MAX; waiting],
                })
                .collect(),
            metadata: Metadata {
                initialized: true,
                object_count: bed_channels.len() + dynamic_sources.len(),
                bed_or_isf_objects: bed_channels.len(),
                bed_sources: bed_channels.iter().map(|_| self.gain()).collect(),
                bed_channels,
                dynamic_sources,
                ..fresh.metadata
            },
            ..fresh
        }
    }

    fn perhaps<T>(&mut self, value: T) -> Option<T> {
        (!self.one_in(3)).then_some(value)
    }

    fn object(&mut self) -> Object {
        let position = array::from_fn(|_| self.within(0.6) + 0.5);
        let (gain, size, distance) = (self.gain(), self.size(), self.within(3.0));
        Object {
            anchor: self.of(&ANCHORS),
            position_valid: !self.one_in(4),
            differential: self.one_in(4),
            gain: self.perhaps(gain),
            position: self.perhaps(position),
            distance: self.perhaps(distance).filter(|_| self.one_in(2)),
            size: self.perhaps(size),
            screen: self.within(1.0),
            depth: self.of(&DEPTHS),
            send: 0.0,
        }
    }

    fn element(&mut self, objects: u8) -> Element {
        let count = 1 + self.below(2);
        Element {
            blocks: (0..count)
                .map(|_| Block {
                    offset: self.below(100) as i64 - 10,
                    ramp: self.of(&[0, 64, 200]),
                })
                .collect(),
            objects: (0..objects)
                .map(|_| (0..count).map(|_| self.object()).collect())
                .collect(),
        }
    }

    fn update(&mut self, offset: u16, beds: &[u8], objects: usize) -> Update {
        let total = (beds.len() + objects) as u8;
        Update {
            offset,
            objects: total,
            bed_or_isf_objects: beds.len() as u8,
            beds: beds.to_vec(),
            elements: (0..self.below(3)).map(|_| self.element(total)).collect(),
        }
    }

    /// Frames of one rate and one number of objects.
    pub fn stream(&mut self) -> Vec<Frame> {
        let (rate, objects) = (self.of(&RATES), 1 + self.below(3));
        let mut beds = self.beds();
        (0..8)
            .map(|index| {
                let afresh = index == 0 || self.one_in(4);
                if afresh {
                    beds = self.beds();
                }
                self.updated(rate, &beds, objects, afresh)
            })
            .collect()
    }

    /// A frame with up to two updates, and one at its start where `afresh`; one in twelve has a
    /// bed that these are refused for.
    fn updated(&mut self, rate: u32, beds: &[u8], objects: usize, afresh: bool) -> Frame {
        let mut beds = beds.to_vec();
        beds.extend(self.one_in(12).then_some(REAR_CENTER));
        let mut frame = self.frame(rate, &beds, objects);
        let count = self.below(3);
        let later = (0..count).map(|_| self.below(frame.samples) as u16);
        let offsets: Vec<u16> = later.chain(afresh.then_some(0)).collect();
        frame.updates = offsets
            .iter()
            .map(|&offset| self.update(offset, &beds, objects))
            .collect();
        frame
    }
}

fn distinct(table: &[Vector; 12]) -> bool {
    let full = |channel: &usize| *channel != BASS;
    (0..12)
        .filter(full)
        .all(|i| (0..i).filter(full).all(|j| table[i] != table[j]))
}
