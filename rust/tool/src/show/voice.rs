// SPDX-License-Identifier: Apache-2.0
//! The voices: pads, a bass, plucked figures, a slow voice, an engine, a stroke.
use super::score::{self, CHORD, STEP};
use super::tone::{Noise, Phasor, RATE, hertz, sine, smooth};

/// Seconds in which one chord gives way to the next.
const BLEND: f64 = 0.7;

/// A chord held on four channels, each a little out of tune with the others.
pub struct Pad {
    chords: [Held; 2],
}

struct Held {
    number: Option<usize>,
    tones: [[Phasor; 12]; 4],
}

impl Pad {
    pub fn new() -> Self {
        let held = || Held {
            number: None,
            tones: [[Phasor::default(); 12]; 4],
        };
        Self {
            chords: [held(), held()],
        }
    }

    /// The four channels at a time in seconds.
    pub fn next(&mut self, time: f64) -> [f64; 4] {
        let number = (time / CHORD) as usize;
        let within = time - number as f64 * CHORD;
        let now = smooth(within / BLEND);
        let mut sum = [0.0; 4];
        self.add(number, now, &mut sum);
        if now < 1.0 && number > 0 {
            self.add(number - 1, 1.0 - now, &mut sum);
        }
        sum
    }

    fn add(&mut self, number: usize, level: f64, sum: &mut [f64; 4]) {
        let held = &mut self.chords[number % 2];
        if held.number != Some(number) {
            held.begin(number);
        }
        for (place, tones) in sum.iter_mut().zip(&mut held.tones) {
            *place += level * tones.iter_mut().map(Phasor::next).sum::<f64>();
        }
    }
}

impl Held {
    fn begin(&mut self, number: usize) {
        const TUNE: [f64; 4] = [0.9985, 1.0015, 1.0005, 0.9995];
        const PARTS: [f64; 3] = [0.060, 0.022, 0.010];
        self.number = Some(number);
        for (channel, tune) in TUNE.into_iter().enumerate() {
            for (k, key) in score::chord(number).keys.into_iter().enumerate() {
                for (p, level) in PARTS.into_iter().enumerate() {
                    let f = hertz(key) * tune * (p + 1) as f64;
                    self.tones[channel][3 * k + p] = Phasor::new(f, level, 1.0);
                }
            }
        }
    }
}

/// Struck on the first and fifth step of a chord, and left to ring.
#[derive(Default)]
pub struct Bass {
    tone: Phasor,
}

impl Bass {
    pub fn strike(&mut self, number: usize) {
        self.tone = Phasor::new(hertz(score::chord(number).bass), 0.8, 0.2);
    }

    pub fn next(&mut self) -> f64 {
        self.tone.next()
    }
}

/// Plucked tones, and their echo.
pub struct Plucks {
    tones: [[Phasor; 3]; 6],
    last: usize,
    echo: Vec<f64>,
    at: usize,
}

impl Plucks {
    pub fn new() -> Self {
        Self {
            tones: [[Phasor::default(); 3]; 6],
            last: 0,
            echo: vec![0.0; (1.5 * STEP * RATE) as usize],
            at: 0,
        }
    }

    pub fn strike(&mut self, key: u8, level: f64) {
        const PARTS: [(f64, f64, f64); 3] =
            [(1.0, 0.20, 0.08), (2.0, 0.07, 0.01), (3.01, 0.03, 0.001)];
        self.last = (self.last + 1) % self.tones.len();
        self.tones[self.last] =
            PARTS.map(|(part, high, left)| Phasor::new(part * hertz(key), level * high, left));
    }

    pub fn next(&mut self) -> f64 {
        let now: f64 = self.tones.iter_mut().flatten().map(Phasor::next).sum();
        let out = now + 0.35 * self.echo[self.at];
        self.echo[self.at] = out;
        self.at = (self.at + 1) % self.echo.len();
        out
    }
}

/// One soft tone a chord, with a slow tremble.
#[derive(Default)]
pub struct Song {
    turns: f64,
}

impl Song {
    pub fn next(&mut self, time: f64) -> f64 {
        let number = (time / CHORD) as usize;
        let within = time - number as f64 * CHORD;
        let tremble = 1.0 + 0.004 * smooth(within - 0.3) * sine(5.2 * time);
        self.turns += hertz(score::song(number)) * tremble / RATE;
        self.turns -= self.turns.floor();
        let level = 0.22 * smooth(within / 0.35) * smooth((CHORD - within) / 0.5);
        level * (sine(self.turns) + 0.18 * sine(2.0 * self.turns) + 0.06 * sine(3.0 * self.turns))
    }
}

/// A deep hum that comes near and goes, lower as it goes: once, around the show's first quarter.
#[derive(Default)]
pub struct Engine {
    turns: f64,
}

impl Engine {
    /// At a part of the show, from 0 to 1.
    pub fn next(&mut self, part: f64) -> f64 {
        let near = 1.0 - (part - 0.25).abs() / 0.12;
        if near <= 0.0 {
            return 0.0;
        }
        self.turns += (46.0 - 10.0 * smooth((part - 0.2) / 0.1)) / RATE;
        self.turns -= self.turns.floor();
        let hum = sine(self.turns) + 0.5 * sine(2.0 * self.turns) + 0.2 * sine(3.0 * self.turns);
        0.22 * smooth(near) * hum
    }
}

/// One stroke far above full scale: a drum and a cymbal.
pub struct Stroke {
    drum: [Phasor; 2],
    cymbal: f64,
    before: f64,
    noise: Noise,
}

impl Stroke {
    pub fn new(seed: u64) -> Self {
        Self {
            drum: [Phasor::default(); 2],
            cymbal: 0.0,
            before: 0.0,
            noise: Noise(seed),
        }
    }

    pub fn strike(&mut self) {
        self.drum = [Phasor::new(73.4, 3.2, 1e-4), Phasor::new(146.8, 1.2, 1e-6)];
        self.cymbal = 0.8;
    }

    pub fn next(&mut self) -> f64 {
        let noise = self.noise.next();
        // The difference of neighbours takes the depth out of the noise.
        let bright = (noise - self.before) * self.cymbal * 0.5;
        self.before = noise;
        self.cymbal *= 0.999_93;
        self.drum.iter_mut().map(Phasor::next).sum::<f64>() + bright
    }
}
