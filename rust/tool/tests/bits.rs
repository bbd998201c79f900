// SPDX-License-Identifier: Apache-2.0
//! A show in 24 bits, and in f32 again.
mod common;
use common::{Folder, programme, run};
use std::fs;
use voqlisna::Layout;

/// Bytes before the samples of a WAVE file that `render` writes.
const HEAD: usize = 104;

/// In f64, which has every product and every half exactly.
fn code(x: f32) -> i32 {
    let scaled = f64::from(x) * 8_388_608.0;
    scaled.round_ties_even().min(8_388_607.0) as i32
}

fn words(wav: &[u8]) -> Vec<f32> {
    let words = wav[HEAD..].chunks(4);
    words
        .map(|word| f32::from_le_bytes(word.try_into().unwrap()))
        .collect()
}

#[test]
fn a_show_in_24_bits_is_the_one_in_floats_rounded_once() {
    let folder = Folder::new("bits");
    let from = folder.with("in", &programme(5, 1_536));
    let [plain, short, back] = ["a.wav", "b.wav", "c.wav"].map(|name| folder.file(name));
    for layout in Layout::ALL {
        let name = layout.to_string();
        let render = ["render", &from, "--layout", &name, "-o"];
        let said = run(&[&render[..], &[&plain]].concat());
        let in_24 = run(&[&render[..], &[&short, "--bits", "24"]].concat());
        assert_eq!((said.code, in_24.code), (0, 0), "{}", in_24.err);
        let floats = words(&fs::read(&plain).unwrap());
        let wav = fs::read(&short).unwrap();
        let codes: Vec<u8> = floats
            .iter()
            .flat_map(|x| code(*x).to_le_bytes()[..3].to_vec())
            .collect();
        assert!(wav[HEAD..] == codes, "{layout}");
        let width = layout.speakers().len() as u16;
        let half = |at: usize| u16::from_le_bytes([wav[at], wav[at + 1]]);
        assert_eq!(
            (half(58), half(68), half(70), half(74)),
            (width, 3 * width, 24, 24),
            "{layout}"
        );
        assert_eq!(wav[80], 1, "whole numbers");

        let said = run(&["floats", &short, "-o", &back]);
        assert_eq!((said.code, said.err.as_str()), (0, ""));
        let back = fs::read(&back).unwrap();
        assert!(back[..4] == *b"RIFF" && back[80] == 3);
        let back = words(&back);
        assert_eq!(back.len(), floats.len(), "{layout}");
        assert!(!back.is_empty(), "{layout}");
        for (x, y) in floats.iter().zip(back) {
            assert_eq!(f64::from(y), f64::from(code(*x)) / 8_388_608.0);
            assert!((x - y).abs() <= 1.0 / 8_388_608.0);
        }
    }
}

#[test]
fn other_files_are_told_apart() {
    let folder = Folder::new("bits-others");
    let [short, hall, plain] = ["a.wav", "b", "c.wav"].map(|name| folder.file(name));
    run(&["demo", "-s", "0.1", "--bits", "24", "-o", &short]);
    run(&["demo", "-s", "0.1", "-o", &plain]);
    let said = run(&["archive", &short, "-o", &hall]);
    assert_eq!(said.code, 2);
    assert!(
        said.err.contains("not a layout's channels in f32"),
        "{}",
        said.err
    );
    let said = run(&["floats", &plain, "-o", &hall]);
    assert_eq!(said.code, 2);
    assert!(
        said.err.contains("not a layout's channels in 24 bits"),
        "{}",
        said.err
    );
}
