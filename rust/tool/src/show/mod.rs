// SPDX-License-Identifier: Apache-2.0
//! The demo's programme: three objects circle and rise over beds with bass, one of them a ship that shakes the floor as
//! it passes overhead; halfway one packet is broken, at three quarters a stroke goes above full scale.
mod path;
mod score;
mod tone;
mod voice;

use crate::programme::{Ask, Broken, Packet, Programme};
use score::{CHORD, STEP};
use tone::{Noise, RATE, smooth};
use voice::{Bass, Engine, Pad, Plucks, Song, Stroke};
use voqlisna::{Bed, Block, BuildError, MetadataWriter, Object, Update};

const HERTZ: u32 = RATE as u32;
/// Samples of a frame, and frames between two updates.
const FRAME: usize = 256;
const UPDATE: usize = 4;
const BEDS: [Bed; 6] = [
    Bed::FrontLeft,
    Bed::FrontRight,
    Bed::Center,
    Bed::Bass,
    Bed::SurroundLeft,
    Bed::SurroundRight,
];
const OBJECTS: usize = 3;
const CHANNELS: usize = BEDS.len() + OBJECTS;
/// The ship among the objects, and how much of it goes to the bass feed.
const SHIP: usize = 2;
const SHAKES: f32 = 0.8;
/// The sample of the broken packet that is none.
const BROKEN: (usize, usize) = (4, 17);
const SEED: u64 = 0x5eed_0714;

pub struct Show {
    /// In samples.
    length: usize,
    at: usize,
    pad: Pad,
    bass: Bass,
    plucks: [Plucks; 2],
    song: Song,
    engine: Engine,
    stroke: Stroke,
    chance: Noise,
}

impl Show {
    pub fn new(seconds: f64) -> Self {
        Self {
            length: (seconds * RATE).round() as usize,
            at: 0,
            pad: Pad::new(),
            bass: Bass::default(),
            plucks: [Plucks::new(), Plucks::new()],
            song: Song::default(),
            engine: Engine::default(),
            stroke: Stroke::new(SEED),
            chance: Noise(SEED),
        }
    }

    pub fn seconds(&self) -> f64 {
        self.length as f64 / RATE
    }

    /// Tones that start with this sample.
    fn strike(&mut self, at: usize) {
        let samples = (STEP * RATE) as usize;
        if at == self.length / 4 * 3 {
            self.stroke.strike();
        }
        if at % samples != 0 {
            return;
        }
        let (number, step) = (at / samples / 8, at / samples % 8);
        if step % 4 == 0 {
            self.bass.strike(number);
        }
        for (which, plucks) in self.plucks.iter_mut().enumerate() {
            let level = 0.85 + 0.15 * self.chance.next();
            if let Some(key) = score::figure(which, number, step) {
                plucks.strike(key, level);
            }
        }
    }

    /// All channels at a sample.
    fn sample(&mut self, at: usize) -> [f64; CHANNELS] {
        self.strike(at);
        let time = at as f64 / RATE;
        let [left, right, side_left, side_right] = self.pad.next(time);
        let stroke = self.stroke.next();
        let bass = self.bass.next();
        let ship = self.song.next(time) + self.engine.next(time / self.seconds());
        let [first, second] = &mut self.plucks;
        let objects = [first.next(), second.next(), ship];
        let left_over = (self.length - at) as f64 / RATE;
        let level = smooth(time / 0.5) * smooth(left_over / CHORD.min(self.seconds() / 4.0));
        let all = [
            left, right, stroke, bass, side_left, side_right, objects[0], objects[1], objects[2],
        ];
        all.map(|x| level * x)
    }

    /// Where the objects are to be when the next update comes.
    fn metadata(&self, to: &mut Vec<u8>) -> Result<(), BuildError> {
        let all = CHANNELS as u8;
        to.resize(MetadataWriter::bytes_for(CHANNELS, &[1]), 0);
        let mut writer = MetadataWriter::new(to);
        let ramp = (UPDATE * FRAME) as i64;
        let time = (self.at + UPDATE * FRAME) as f64 / RATE;
        let fixed = BEDS.len();
        writer
            .update(Update {
                at: 0,
                objects: all,
                fixed: fixed as u8,
                beds: &BEDS,
            })?
            .element(&[Block { offset: 0, ramp }], |o, _| {
                let object = match o.checked_sub(fixed) {
                    None => Object::KEEP,
                    Some(k) => {
                        let send = if k == SHIP { SHAKES } else { 0.0 };
                        Object::at(path::place(k, time, self.seconds())).send(send)
                    }
                };
                object.gain(1.0)
            })?;
        Ok(())
    }
}

impl Programme for Show {
    fn next(&mut self, frame: &mut Packet) -> Result<Option<Ask>, Broken> {
        let samples = FRAME.min(self.length - self.at);
        if samples == 0 {
            return Ok(None);
        }
        let number = self.at / FRAME;
        (frame.rate, frame.samples, frame.objects) = (HERTZ, samples, OBJECTS);
        frame.codes = BEDS.map(Bed::code).to_vec();
        frame.metadata.clear();
        if number % UPDATE == 0 {
            let why = |e: BuildError| Broken::Record {
                at: 0,
                why: e.to_string(),
            };
            self.metadata(&mut frame.metadata).map_err(why)?;
        }
        frame.pcm.resize(4 * CHANNELS * samples, 0);
        for i in 0..samples {
            for (channel, x) in self.sample(self.at + i).into_iter().enumerate() {
                put(frame, channel, i, x as f32);
            }
        }
        if number == self.length.div_ceil(FRAME) / 2 {
            put(frame, BROKEN.0, BROKEN.1, f32::NAN);
        }
        self.at += samples;
        Ok(Some(Ask::Frame))
    }

    fn part(&self) -> Option<f64> {
        Some(self.at as f64 / self.length as f64)
    }
}

fn put(frame: &mut Packet, channel: usize, sample: usize, x: f32) {
    let at = 4 * (channel * frame.samples + sample);
    frame.pcm[at..at + 4].copy_from_slice(&x.to_le_bytes());
}
