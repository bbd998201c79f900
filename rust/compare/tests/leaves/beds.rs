//! Beds: every code, every list of at most three inputs, and 200,000 lists of beds and inputs with
//! what they mix or refuse.

use compare::probe::{beds, beds::Route, mixing};
use compare::{all_same, drawn};
use oracle::reading::source;
use oracle::{Refusal, leaf};

const CODES: std::ops::Range<u8> = 0..18;

#[test]
#[cfg_attr(no_sources, ignore = "Rust sources not at hand")]
fn positions_are_the_sources() {
    for code in CODES {
        let (rattle, rust) = (
            beds::bed_channel_position(code),
            leaf::bed_channel_position(code),
        );
        assert!(all_same(&rattle, &rust), "{code}: {rattle:?}, {rust:?}");
    }
}

#[test]
#[cfg_attr(no_sources, ignore = "Rust sources not at hand")]
fn direct_channels_are_the_sources() {
    for code in CODES {
        let direct = match beds::route_of(code) {
            Route::Direct(channel) => Some(channel),
            Route::Bass if code == 3 => Some(3),
            _ => None,
        };
        assert_eq!(direct, leaf::map_bed_channel_to_714(code), "{code}");
    }
    assert!((18..=255).all(|code| beds::route_of(code) == Route::Unsupported));
}

/// Of the codes of beds with a speaker, those whose speaker each layout lacks.
const LACKED: [&[u8]; 4] = [&[], &[7, 8], &[9, 10, 13, 14], &[7, 8, 9, 10, 13, 14]];

#[test]
fn a_bed_whose_speaker_is_absent_is_panned() {
    for (layout, lacked) in (0..).zip(LACKED) {
        for code in 0..=255 {
            let wanted = if lacked.contains(&code) {
                Route::Folded
            } else {
                beds::route_of(code)
            };
            assert_eq!(beds::route_in(layout, code), wanted, "{layout}, {code}");
        }
    }
}

#[test]
#[cfg_attr(no_sources, ignore = "Rust sources not at hand")]
fn every_pair_of_codes_matches_as_the_source_says() {
    for requested in CODES {
        for provided in CODES {
            assert_eq!(
                beds::bed_channel_matches_input(requested, provided),
                leaf::bed_channel_matches_input(requested, provided),
                "{requested}, {provided}"
            );
        }
    }
}

#[test]
#[cfg_attr(no_sources, ignore = "Rust sources not at hand")]
fn every_short_list_of_inputs_is_searched_as_the_source_does() {
    let mut lists: Vec<Vec<u8>> = vec![vec![]];
    for first in 0..4 {
        for list in std::mem::take(&mut lists) {
            check_search(&list);
            if first < 3 {
                lists.extend(CODES.map(|code| [&list[..], &[code]].concat()));
            }
        }
    }
}

fn check_search(inputs: &[u8]) {
    for requested in CODES {
        assert_eq!(
            beds::find_matching_input_bed_channel(requested, inputs),
            leaf::find_matching_input_bed_channel(requested, inputs),
            "{requested} among {inputs:?}"
        );
    }
}

const SAMPLES: usize = 8;

/// What `mix_bed_objects_segment_to_714` does, by the Rattle functions; panning is the source's.
fn mixed(
    inputs: &[u8],
    pcm: &[f32],
    update: &[(u8, f32)],
    output: &mut [Vec<f32>],
) -> Result<(), Refusal> {
    let codes: Vec<u8> = update.iter().map(|&(code, _)| code).collect();
    for &(code, gain) in update {
        let Some(input) = beds::find_matching_input_bed_channel(code, inputs) else {
            let counts = [&codes, inputs].map(|list| beds::count_matching(code, list).into());
            return Err(Refusal { number: 13, counts });
        };
        let samples = &pcm[input * SAMPLES..][..SAMPLES];
        match beds::route_of(code) {
            Route::Bass => {
                mixing::mix_full_channel(samples, &mut output[3], beds::bass_gain(gain));
            }
            Route::Direct(channel) => mixing::mix_full_channel(samples, &mut output[channel], gain),
            Route::Folded => {
                let source = source(beds::bed_channel_position(code), gain, 0.0);
                leaf::render_object_timeslot_to_714(samples, output, 0, &source);
            }
            Route::Unsupported => {
                let counts = [code.into(), 0];
                return Err(Refusal { number: 14, counts });
            }
        }
    }
    Ok(())
}

#[test]
#[cfg_attr(no_sources, ignore = "Rust sources not at hand")]
fn lists_of_beds_mix_or_are_refused_as_in_the_source() {
    let mut random = drawn!(3);
    let mut refusals = [0, 0];
    for _ in 0..200_000 {
        // Half of the inputs are the update's beds in another order, so that many streams mix.
        let update: Vec<(u8, f32)> = (0..random.below(7))
            .map(|_| (random.below(18) as u8, random.near(0.0, 8.0)))
            .collect();
        let mut inputs: Vec<u8> = update.iter().map(|&(code, _)| code).rev().collect();
        if random.chance(2) {
            inputs = (0..random.below(19))
                .map(|_| random.below(18) as u8)
                .collect();
        }
        check_search(&inputs);
        let pcm: Vec<f32> = (0..inputs.len() * SAMPLES)
            .map(|_| random.near(-16.0, 16.0))
            .collect();
        let start: Vec<Vec<f32>> = (0..12)
            .map(|_| (0..SAMPLES).map(|_| random.near(-1.0, 1.0)).collect())
            .collect();
        let (mut rattle, mut rust) = (start.clone(), start);
        let answer = mixed(&inputs, &pcm, &update, &mut rattle);
        let expected =
            leaf::mix_bed_objects_segment_to_714(&inputs, &pcm, &update, &mut rust, 0, SAMPLES);
        assert_eq!(answer, expected, "{update:?} from {inputs:?}");
        match answer {
            Err(refusal) => refusals[refusal.number as usize - 13] += 1,
            Ok(()) => {
                for (rattle, rust) in rattle.iter().zip(&rust) {
                    assert!(all_same(rattle, rust), "{update:?} from {inputs:?}");
                }
            }
        }
    }
    assert!(refusals.iter().all(|&count| count > 10_000), "{refusals:?}");
}
