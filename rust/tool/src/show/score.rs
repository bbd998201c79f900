// SPDX-License-Identifier: Apache-2.0
//! What is played: eight chords of 2.5 s, from the beginning again where the show is longer.

pub struct Chord {
    pub bass: u8,
    pub keys: [u8; 4],
}

/// Seconds of a chord, and of one of its eight steps.
pub const CHORD: f64 = 2.5;
pub const STEP: f64 = CHORD / 8.0;

const CHORDS: [Chord; 8] = [
    Chord {
        bass: 33,
        keys: [57, 60, 64, 67],
    },
    Chord {
        bass: 29,
        keys: [57, 60, 64, 65],
    },
    Chord {
        bass: 36,
        keys: [55, 60, 62, 64],
    },
    Chord {
        bass: 31,
        keys: [55, 59, 62, 64],
    },
    Chord {
        bass: 33,
        keys: [57, 60, 64, 67],
    },
    Chord {
        bass: 29,
        keys: [57, 60, 64, 65],
    },
    Chord {
        bass: 38,
        keys: [57, 60, 62, 65],
    },
    Chord {
        bass: 36,
        keys: [55, 60, 64, 67],
    },
];

pub fn chord(number: usize) -> &'static Chord {
    &CHORDS[number % CHORDS.len()]
}

/// The keys of two figures, step by step: the first runs up and down an octave above the chord, the second answers
/// two octaves above it, between the first's steps.
pub fn figure(which: usize, number: usize, step: usize) -> Option<u8> {
    const UP: [usize; 8] = [0, 1, 2, 3, 2, 1, 3, 2];
    let keys = chord(number).keys;
    match which {
        0 => Some(keys[UP[step]] + 12),
        _ if step % 2 == 1 => Some(keys[UP[7 - step]] + 24),
        _ => None,
    }
}

/// The key of the slow voice: a tone of each chord, high.
pub fn song(number: usize) -> u8 {
    const TONE: [usize; 8] = [2, 3, 2, 1, 3, 2, 3, 1];
    chord(number).keys[TONE[number % 8]] + 12
}
