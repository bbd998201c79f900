//! Document 02's on the amended sources: the Rust's own loops over a hall's speakers,
//! held against document 01's rules read over sets of speakers.

mod draw;
mod given;

use draw::{Draw, REAR_CENTER};
use given::given;
use oracle::amended::leaf;
use oracle::reading::{self, BASS, Term, present, silence, source};
use oracle::state::Source;
use oracle::{Hall, Oracle, Pushed, Refusal, Vector, amended};

fn built_in(layout: u8) -> Hall {
    Hall::of_layout(layout)
}

fn bits(channels: &[Vec<f32>]) -> Vec<Vec<u32>> {
    let words = |samples: &Vec<f32>| samples.iter().map(|s| s.to_bits()).collect();
    channels.iter().map(words).collect()
}

/// What a sample of 1 puts on each channel, by the amended sources.
fn panned(hall: &Hall, source: &Source) -> Vec<Vec<f32>> {
    let mut output = silence(hall, 1);
    leaf::render_object_in_hall(hall, &[1.0], &mut output, 0, source);
    output
}

/// The same by the reading.
fn read(hall: &Hall, terms: &[Term]) -> Vec<Vec<f32>> {
    let mut output = silence(hall, 1);
    reading::add(terms, &[1.0], &mut output, 0);
    output
}

/// `value` on the channels named, 0 on the others that are present.
fn on(hall: &Hall, channels: &[usize], value: f32) -> Vec<Vec<f32>> {
    let mut output = silence(hall, 1);
    for &channel in channels {
        output[channel][0] = value;
    }
    output
}

#[test]
#[cfg_attr(no_sources, ignore = "Rust sources not at hand")]
fn hand_worked_places() {
    let half = 0.5f32.sqrt();
    let cases: [(u8, Vector, &[usize], f32); 17] = [
        (0, [0.0, 0.0, -1.0], &[4, 5], half),
        (1, [0.0, 0.0, -1.0], &[6, 7], half),
        (2, [0.0, 0.0, -1.0], &[4, 5], half),
        (3, [0.0, 0.0, -1.0], &[6, 7], half),
        (0, [0.0, 0.5, -1.0], &[4, 5, 10, 11], 0.5),
        (1, [0.0, 0.5, -1.0], &[6, 7, 10, 11], 0.5),
        (2, [0.0, 0.5, -1.0], &[4, 5], half),
        (3, [0.0, 0.5, -1.0], &[6, 7], half),
        (1, [0.0, 2.0, -1.0], &[10, 11], half),
        (2, [0.0, 2.0, -1.0], &[4, 5], half),
        (3, [0.0, -2.0, 2.0], &[2], 1.0),
        (3, [-1.0, 1.0, 1.0], &[0], 1.0),
        (3, [1.0, 1.0, -1.0], &[7], 1.0),
        (0, [f32::NAN; 3], &[4], 1.0),
        (1, [f32::NAN; 3], &[6], 1.0),
        (2, [f32::NAN; 3], &[4], 1.0),
        (3, [f32::NAN; 3], &[6], 1.0),
    ];
    for (layout, place, channels, value) in cases {
        let hall = built_in(layout);
        let heard = panned(&hall, &source(place, 1.0, 0.0));
        assert_eq!(heard, on(&hall, channels, value), "{layout} {place:?}");
    }
}

/// Any place, gain and size in any layout and table; at size 0 up to eight speakers sound.
#[test]
#[cfg_attr(no_sources, ignore = "Rust sources not at hand")]
fn the_loops_divide_as_item_4_says() {
    let mut draw = Draw(1);
    let mut sounding = [0; 9];
    for _ in 0..10_000 {
        let hall = draw.hall();
        for _ in 0..20 {
            let source = draw.source(&hall.table);
            let theirs = panned(&hall, &source);
            let ours = read(&hall, &reading::object(&hall, &source));
            assert_eq!(bits(&theirs), bits(&ours), "{hall:?} {source:?}");
            if source.size == 0.0 {
                sounding[theirs.iter().flatten().filter(|&&c| c != 0.0).count()] += 1;
            }
        }
    }
    println!("by number of speakers: {sounding:?}");
    assert!(sounding.iter().all(|&places| places > 100));
}

/// At size 1 nothing is left for the corners.
#[test]
#[cfg_attr(no_sources, ignore = "Rust sources not at hand")]
fn size_is_divided_by_the_channels() {
    let mut draw = Draw(2);
    for (layout, channels) in [(0, 12.0f32), (1, 10.0), (2, 8.0), (3, 6.0)] {
        for gain in [1.0, 0.3, 8.0] {
            let hall = Hall {
                layout,
                table: draw.table(),
            };
            let around = gain * (1.0 / channels).sqrt();
            let mut expected = on(&hall, present(&hall), around);
            expected[BASS] = vec![0.0];
            let source = Source {
                size: 1.0,
                gain,
                ..draw.source(&hall.table)
            };
            assert_eq!(panned(&hall, &source), expected);
        }
    }
}

/// What a sample of 1 of a bed puts on each channel.
fn bed(hall: &Hall, code: u8, gain: f32) -> Result<Vec<Vec<f32>>, Refusal> {
    let mut output = silence(hall, 1);
    leaf::mix_beds_in_hall(hall, &[code], &[1.0], &[(code, gain)], &mut output, 0, 1)?;
    Ok(output)
}

#[test]
#[cfg_attr(no_sources, ignore = "Rust sources not at hand")]
fn beds_without_a_speaker_are_folded() {
    // A rear left, a top front left and a top rear right: in full on their own speaker, by the
    // root of the gain on the nearest one that is left.
    for (code, own, folded) in [
        (7, 4, [4, 6, 4, 6]),
        (9, 8, [8, 8, 0, 0]),
        (14, 11, [11, 11, 5, 7]),
    ] {
        for (layout, channel) in (0..).zip(folded) {
            let hall = built_in(layout);
            let value = if channel == own { 0.25 } else { 0.5 };
            assert_eq!(bed(&hall, code, 0.25), Ok(on(&hall, &[channel], value)));
        }
    }
    let mut draw = Draw(3);
    for _ in 0..2_000 {
        let (hall, gain) = (draw.hall(), draw.gain());
        for code in (0..18).filter(|&code| code != REAR_CENTER) {
            let expected = read(&hall, &reading::bed(&hall, code, gain));
            assert_eq!(
                bed(&hall, code, gain),
                Ok(expected),
                "{hall:?} {code} {gain}"
            );
        }
        let refusal = bed(&hall, REAR_CENTER, gain).unwrap_err();
        assert_eq!((refusal.number, refusal.counts), (14, [6, 0]));
    }
}

/// A push and a flush of any state in any hall: the present channels are the reading's, the absent
/// ones have no samples and lower no gain, whatever stood there.
#[test]
#[cfg_attr(no_sources, ignore = "Rust sources not at hand")]
fn a_renderer_has_the_present_channels_only() {
    let mut draw = Draw(4);
    for _ in 0..2_000 {
        let hall = draw.hall();
        let state = draw.state(&hall);
        let (beds, objects) = (
            &state.metadata.bed_channels,
            &state.metadata.dynamic_sources,
        );
        let frame = draw.frame(state.sample_rate.unwrap(), beds, objects.len());
        let ([ready, rest], gain) = given(&hall, &state, &frame);

        let mut renderer = amended::Oracle::in_hall_and_state(&hall, &state);
        let Pushed::Ready(pushed) = renderer.push(&frame) else {
            panic!("{hall:?} {state:?}");
        };
        assert_eq!(bits(&pushed), bits(&ready), "{hall:?} {state:?}");
        let flushed = renderer.flush();
        assert_eq!(flushed.is_none(), rest[0].is_empty());
        assert!(flushed.is_none_or(|flushed| bits(&flushed) == bits(&rest)));
        assert_eq!(renderer.state().limiter_gain, gain);
    }
}

/// Streams through the unchanged sources and through the amended ones in the built-in hall: the
/// same answers, and the same state after each call.
#[test]
#[cfg_attr(no_sources, ignore = "Rust sources not at hand")]
fn the_built_in_hall_changes_nothing() {
    let mut draw = Draw(5);
    let (mut accepted, mut refused) = (0, 0);
    for _ in 0..400 {
        let (mut plain, mut hall) = (Oracle::new(), amended::Oracle::in_hall(&Hall::built_in()));
        for frame in draw.stream() {
            let answers = [plain.push(&frame), hall.push(&frame)];
            match &answers {
                [Pushed::Ready(a), Pushed::Ready(b)] => {
                    assert_eq!(bits(a), bits(b));
                    accepted += 1;
                }
                [a, b] => {
                    assert_eq!(a, b);
                    refused += 1;
                }
            }
            // All NaNs are equal in print, and no other values.
            let [a, b] = [plain.state(), hall.state()].map(|state| format!("{state:?}"));
            assert_eq!(a, b);
        }
        let [a, b] = [plain.flush(), hall.flush()].map(|flushed| flushed.map(|c| bits(&c)));
        assert_eq!(a, b);
    }
    println!("{accepted} frames accepted, {refused} refused");
    assert!(accepted > 2_000 && refused > 100);
}

#[test]
#[cfg_attr(no_sources, ignore = "Rust sources not at hand")]
fn reset_keeps_the_hall() {
    let mut draw = Draw(6);
    for _ in 0..40 {
        let (hall, frames) = (draw.hall(), draw.stream());
        let mut renderer = amended::Oracle::in_hall(&hall);
        let fresh = renderer.state();
        let first: Vec<Pushed> = frames.iter().map(|frame| renderer.push(frame)).collect();
        renderer.reset();
        assert_eq!((renderer.hall(), renderer.state()), (hall, fresh));
        let second: Vec<Pushed> = frames.iter().map(|frame| renderer.push(frame)).collect();
        assert_eq!(first, second);
    }
}
