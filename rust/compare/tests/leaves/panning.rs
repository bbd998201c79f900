//! Panning against `render_object_timeslot_to_714`, mixed term by term: every combination of
//! special positions, gains and sizes (1,906,624 coefficient sets), and 9,000,000 random ones; in
//! each smaller layout (document 02, R-5) as many and 2,000,000, against the same loops over the
//! channels that are there; in 40,000 halls with tables of their own 2,000,000, against these
//! loops over those tables. Which speakers are chosen depends on how a position compares with the
//! speakers' coordinates: the special positions have every outcome.

use compare::setup::{Setup, built_in};
use compare::{EDGES, Generator, all_same, drawn, probe::panning, seeds, tables};
use oracle::leaf::{render_object_timeslot_to_714, speakers};
use oracle::reading::source;
use oracle::{Hall, Vector, amended};

/// The speakers' coordinates, above 0.
const COORDINATES: [f32; 3] = [0.483_689_52, 0.707_106_77, 1.0];

const GAINS: [f32; 8] = [1.0, 0.25, 0.707, 8.0, 1e-45, -0.0, f32::INFINITY, f32::NAN];

const SIZES: [f32; 8] = [0.0, -0.0, 0.5, 1.0, 1e-45, 0.3, f32::INFINITY, f32::NAN];

/// One sample mixed into one place of each channel.
struct Mix {
    setup: Setup,
    hall: Hall,
    sample: f32,
    channels: Vec<Vec<f32>>,
}

impl Mix {
    fn new(layout: u32) -> Self {
        Mix::of(Setup::built_in(layout))
    }

    fn of(setup: Setup) -> Self {
        Mix {
            hall: setup.hall(),
            setup,
            sample: 1.0,
            channels: vec![vec![0.0]; 12],
        }
    }

    /// With the built-in table by the calls that have none, and in layout 0 against the unchanged Rust.
    fn compare(&mut self, position: [f32; 3], gain: f32, size: f32, start: f32) {
        let mut expected = [start; 12];
        let Setup { layout, table } = self.setup;
        let panned = match layout {
            _ if table != built_in() => panning::pan_with(&self.setup, position, gain, size),
            0 => panning::pan(position, gain, size),
            _ => panning::pan_in(layout, position, gain, size),
        };
        for (channel, coefficient) in panned.terms_in(layout) {
            expected[channel] += self.sample * coefficient;
        }
        self.channels
            .iter_mut()
            .for_each(|channel| channel[0] = start);
        let source = source(position, gain, size);
        let (input, channels) = ([self.sample], &mut self.channels);
        if self.setup.is_the_rusts() {
            render_object_timeslot_to_714(&input, channels, 0, &source);
        } else {
            amended::leaf::render_object_in_hall(&self.hall, &input, channels, 0, &source);
        }
        let mixed: [f32; 12] = std::array::from_fn(|channel| self.channels[channel][0]);
        assert!(
            all_same(&mixed, &expected),
            "{:?}, position {position:?}, gain {gain}, size {size}: {expected:?}, Rust {mixed:?}",
            self.setup
        );
    }
}

/// Zero and the speakers' coordinates with their neighbours, halves, and what lies outside.
fn special() -> Vec<f32> {
    let mut values = vec![0.0, 0.5, 2.0, 1e-45, f32::MAX, f32::INFINITY];
    for x in COORDINATES {
        values.extend([x.next_down(), x, x.next_up()]);
    }
    let negative: Vec<f32> = values.iter().map(|x| -x).collect();
    values.extend(negative);
    values.push(f32::NAN);
    values
}

/// The positions drawn here and the generator's edges have the very coordinates of the speakers.
#[cfg_attr(no_sources, ignore = "Rust sources not at hand")]
#[test]
fn coordinates_are_the_speakers() {
    for x in speakers().as_flattened() {
        let size = x.abs();
        assert!(size == 0.0 || COORDINATES.contains(&size), "{x}");
        let is_size = |&edge: &u32| f32::from_bits(edge).abs() == size;
        assert!(EDGES.iter().any(is_size), "{x}");
    }
}

#[cfg_attr(no_sources, ignore = "Rust sources not at hand")]
#[test]
fn special_positions() {
    (0..4).for_each(special_positions_in);
}

fn special_positions_in(layout: u32) {
    let values = special();
    assert_eq!(values.len(), 31);
    let mut mix = Mix::new(layout);
    for &x in &values {
        for &y in &values {
            for &z in &values {
                for gain in GAINS {
                    for size in SIZES {
                        mix.compare([x, y, z], gain, size, 0.0);
                    }
                }
            }
        }
    }
}

#[cfg_attr(no_sources, ignore = "Rust sources not at hand")]
#[test]
fn random_positions() {
    let mut inputs = drawn!(4);
    random_positions_in(0, 9_000_000, &mut inputs);
    (1..4).for_each(|layout| random_positions_in(layout, 2_000_000, &mut inputs));
}

fn random_positions_in(layout: u32, rounds: u32, inputs: &mut Generator) {
    let values = special();
    let mut mix = Mix::new(layout);
    for round in 0..rounds {
        let mut coordinate = || match inputs.below(8) {
            0 => values[inputs.below(values.len() as u64) as usize],
            1 => inputs.float(),
            _ => inputs.between(-1.25, 1.25),
        };
        let position = [coordinate(), coordinate(), coordinate()];
        let gain = if round % 4 == 0 {
            inputs.near(0.0, 8.0)
        } else {
            inputs.between(0.0, 1.0)
        };
        let size = if round % 3 == 0 {
            inputs.near(0.0, 1.0)
        } else {
            0.0
        };
        mix.sample = inputs.between(-1.0, 1.0);
        let start = inputs.between(-1.0, 1.0);
        mix.compare(position, gain, size, start);
    }
}

/// At a speaker of the table along an axis, one step beside it, between two, or anywhere.
fn place(inputs: &mut Generator, table: &[Vector; 12], axis: usize) -> f32 {
    let [speaker, other] = [0; 2].map(|_| table[inputs.below(12) as usize][axis]);
    match inputs.below(8) {
        0 => speaker,
        1 => inputs.pick(&[speaker.next_up(), speaker.next_down()]),
        2 => inputs.float(),
        3 => inputs.between(-1.25, 1.25),
        _ => speaker + (other - speaker) * inputs.between(0.0, 1.0),
    }
}

/// Tables of every kind in every layout: the walk over sorted speakers chooses as the loops do, also in
/// 7.1.4.
#[cfg_attr(no_sources, ignore = "Rust sources not at hand")]
#[test]
fn tables_of_their_own() {
    let mut inputs = drawn!(5);
    let mut sounding = [0; 9];
    for round in 0..40_000 {
        let table = tables::accepted(&mut inputs);
        let mut mix = Mix::of(Setup {
            layout: round % 4,
            table,
        });
        for k in 0..50 {
            let position = std::array::from_fn(|axis| place(&mut inputs, &mix.hall.table, axis));
            let gain = inputs.near(0.0, 8.0);
            let size = match k % 3 {
                0 => inputs.near(0.0, 1.0),
                _ => 0.0,
            };
            mix.compare(position, gain, size, inputs.between(-1.0, 1.0));
            if size == 0.0 {
                let panned = panning::pan_with(&mix.setup, position, 1.0, 0.0);
                sounding[panned.terms_in(round % 4).count()] += 1;
            }
        }
    }
    println!("by number of speakers: {sounding:?}");
    assert!(!seeds::all() || sounding[1..].iter().all(|&times| times > 1_000));
}
