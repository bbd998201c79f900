//! Mixing: 300,000 rows of up to 70 samples, any floats. Samples out of bytes: 300,000 rows.

use compare::{Generator, all_same, drawn, probe::mixing};
use oracle::leaf;

fn floats(random: &mut Generator, count: usize) -> Vec<f32> {
    (0..count).map(|_| random.near(-16.0, 16.0)).collect()
}

#[test]
#[cfg_attr(no_sources, ignore = "Rust sources not at hand")]
fn rows_are_mixed_as_the_source_does() {
    let mut random = drawn!(4);
    for turn in 0..300_000 {
        let count = random.below(71) as usize;
        let offset = random.below(10) as usize;
        let gain = random.near(0.0, 8.0);
        let input = floats(&mut random, count);
        let start = floats(&mut random, offset + count + 5);
        let (mut rattle, mut rust) = (start.clone(), start);
        let segment = offset..offset + count;
        match turn % 3 {
            0 => {
                mixing::mix_add_scaled(&input, &mut rattle[segment.clone()], gain);
                leaf::mix_add_scaled(&input, &mut rust[segment], gain);
            }
            1 => {
                mixing::mix_full_channel(&input, &mut rattle[segment.clone()], gain);
                leaf::mix_full_channel(&input, &mut rust[segment], gain);
            }
            _ => {
                mixing::mix_segment(&input, &mut rattle, offset, gain);
                leaf::mix_segment(&input, &mut rust, offset, gain);
            }
        }
        assert!(all_same(&rattle, &rust), "{count} samples, gain {gain}");
    }
}

#[test]
fn rows_that_do_not_fit_stay() {
    let start = [1.0f32; 8];
    let mut output = start;
    mixing::mix_add_scaled(&[1.0; 9], &mut output, 1.0);
    mixing::mix_full_channel(&[1.0; 9], &mut output, 1.0);
    mixing::mix_segment(&[1.0; 4], &mut output, 5, 1.0);
    mixing::mix_segment(&[], &mut output, 9, 1.0);
    mixing::read_row(&[0; 31], &mut output);
    assert_eq!(output, start);
}

#[test]
fn samples_pass_and_are_read_where_all_are_finite_and_within_16() {
    let mut random = drawn!(5);
    let mut passed = 0;
    for _ in 0..300_000 {
        let count = random.below(71) as usize;
        let mut samples: Vec<f32> = (0..count).map(|_| random.between(-16.0, 16.0)).collect();
        if count > 0 && random.chance(2) {
            let edge = [random.float(), 16.0, f32::from_bits(0xc180_0001)];
            samples[random.below(count as u64) as usize] = edge[random.below(3) as usize];
        }
        let pcm: Vec<u8> = samples.iter().flat_map(|x| x.to_le_bytes()).collect();
        let pass = samples.iter().all(|x| (-16.0..=16.0).contains(x));
        assert_eq!(mixing::samples_pass(&pcm, count), pass, "{samples:?}");
        let start: Vec<f32> = (0..count).map(|_| random.between(-1.0, 1.0)).collect();
        let mut row = start.clone();
        mixing::read_row(&pcm, &mut row);
        assert!(all_same(&row, if pass { &samples } else { &start }));
        passed += usize::from(pass);
    }
    assert!(passed > 100_000);
}
