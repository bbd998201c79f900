// SPDX-License-Identifier: Apache-2.0
//! `dump` and `undump`.
mod common;
use common::{Dice, FLUSH, RESET, damaged, feed, frame, programme, root};

fn there_and_back(bytes: &[u8]) {
    let text = feed(&["dump", "-"], bytes);
    assert_eq!((text.code, text.err.as_str()), (0, ""));
    let back = feed(&["undump", "-", "-o", "-"], &text.out);
    assert_eq!((back.code, back.err.as_str()), (0, ""), "{}", text.text());
    assert!(back.out == bytes, "{}", text.text());
}

#[test]
fn undump_of_dump_is_the_programme() {
    for seed in 0..40 {
        there_and_back(&programme(seed, 1_536));
    }
}

#[test]
fn undump_of_dump_is_what_was_damaged() {
    for seed in 0..200 {
        there_and_back(&damaged(seed));
    }
}

#[test]
fn undump_of_dump_is_any_bytes() {
    let mut dice = Dice::new(1);
    for length in [0, 1, 39, 40, 41, 79, 80, 400, 1_001, 4_000] {
        for top in [256, 10, 6] {
            // Small numbers make kinds, counts and zeros likely.
            let bytes: Vec<u8> = (0..length).map(|_| dice.below(top) as u8).collect();
            there_and_back(&bytes);
        }
    }
    // A kind each at a record's start, the rest zero but for one byte.
    for kind in 0..12 {
        for at in 0..40 {
            let mut record = [0u8; 40];
            record[0] = kind;
            record[at] ^= 3;
            there_and_back(&record);
        }
    }
}

#[test]
fn undump_of_dump_is_the_committed_input() {
    there_and_back(&std::fs::read(root().join("crates/hallrender/stdin")).unwrap());
}

/// The record of an object with these flags and floats from byte 4 on.
fn object(anchor: u8, flags: u8, floats: [f32; 8]) -> [u8; 40] {
    let mut r = [0; 40];
    (r[0], r[1], r[2]) = (4, anchor, flags);
    for (k, x) in floats.into_iter().enumerate() {
        r[4 + 4 * k..8 + 4 * k].copy_from_slice(&x.to_le_bytes());
    }
    r
}

/// An update, an element, a block and objects of each kind.
fn records() -> Vec<u8> {
    let mut update = [0u8; 40];
    update[..12].copy_from_slice(&[1, 0, 0, 1, 3, 2, 2, 1, 2, 3, 0, 0]);
    // 0x11170 samples ahead.
    let mut ahead = [0u8; 40];
    ahead[..9].copy_from_slice(&[9, 0, 0, 0, 1, 0, 1, 0, 2]);
    ahead[28..31].copy_from_slice(&[0x70, 0x11, 1]);
    let mut element = [0u8; 40];
    (element[0], element[1]) = (2, 1);
    let mut block = [0u8; 40];
    block[0] = 3;
    block[8..16].copy_from_slice(&(-64i64).to_le_bytes());
    block[16..24].copy_from_slice(&256i64.to_le_bytes());
    let nan = f32::from_bits(0x7fc0_0001);
    let mut sent = object(2, 63, [nan, 0.5, 0.25, -0.0, f32::INFINITY, 1.0, 0.0, 0.25]);
    sent[36..].copy_from_slice(&0.75f32.to_le_bytes());
    [
        ahead,
        update,
        element,
        block,
        object(0, 0, [0.0, 0.0, 0.0, 0.0, 0.0, 0.0, 0.0, 1.0]),
        object(1, 4 + 32, [0.25, 0.0, 0.0, 0.0, 0.0, 1e-9, 0.5, 2.0]),
        sent,
        // A gain that is not told must be zero.
        object(0, 0, [1.0, 0.0, 0.0, 0.0, 0.0, 0.0, 0.0, 1.0]),
    ]
    .concat()
}

fn example() -> Vec<u8> {
    let pcm = [0.25, 0.25, 0.25, -0.0, 0.0, 0.0, 1.0, 2.0, 1.0];
    let mut bytes = frame(48_000, &[2, 3], 1, &records(), &pcm);
    bytes.extend(FLUSH);
    bytes.extend(RESET);
    bytes.extend(frame(0, &[], 0, &[], &[]));
    // A record of PCM where none may stand, a frame whose PCM is missing, and a cut record.
    bytes.extend(&frame(8_000, &[200], 0, &[], &[1.0; 20])[..80]);
    bytes.extend([7, 0, 0xff]);
    bytes
}

const EXAMPLE: &str = "\
frame 48000 samples 3 beds FC,LFE objects 1
  update ahead at 70000 objects 1 fixed 0 beds FC elements 0 # at sample 70000
  update at 256 objects 3 fixed 2 beds FC,LFE elements 1
    element blocks 1
      block offset -64 ramp 256
        object room depth 1 # object 0, block 0
        object screen gain 0.25 size 1e-9 screen 0.5 depth 2 # object 1, block 0
        object speaker gain nan:7fc00001 at 0.5 0.25 -0 distance inf size 1 valid differential depth 0.25 send 0.75 # object 2, block 0
        raw 040000000000803f0000000000000000000000000000000000000000000000000000803f00000000 # object 3, block 0
  pcm 3e800000 x3
  pcm 80000000 00000000 x2
  pcm 3f800000 40000000 3f800000
flush
reset
frame 0 samples 0 objects 0
bad frame 8000 samples 20 beds 200 objects 0 records 0
bad raw 060000000000803f0000803f0000803f0000803f0000803f0000803f0000803f0000803f0000803f
cut 0700ff
";

#[test]
fn each_kind_of_record_as_text() {
    let said = feed(&["dump", "-"], &example());
    assert_eq!(said.text(), EXAMPLE);
    let back = feed(&["undump", "-", "-o", "-"], EXAMPLE.as_bytes());
    assert!(back.out == example());
}

/// Texts, and what is said of them, behind the line's number.
const WRONG: [(&str, &str); 15] = [
    ("flush\nsing 3\n", "2: no record is called sing"),
    ("frame x", "1: x is not a number that fits its place"),
    (
        "frame 48000 samples 1 beds XX objects 0",
        "1: XX are not beds",
    ),
    (
        "frame 48000 samples 70000 objects 0",
        "1: 70000 is not a number that fits its place",
    ),
    (
        "update at 0 objects 1 fixed 0 elements 0",
        "1: update stands outside of a frame",
    ),
    (
        "frame 8000 samples 0 objects 0\nupdate at 65536 objects 1 fixed 0 elements 0",
        "2: 65536 is not a number that fits its place",
    ),
    (
        "frame 8000 samples 0 objects 0\nupdate ahead 5 objects 1 fixed 0 elements 0",
        "2: at must stand where 5 stands",
    ),
    ("pcm 00000000", "1: pcm stands outside of a frame"),
    (
        "frame 48000 samples 1 beds FC objects 0\npcm 0",
        "2: 0 is not a word of 8 digits",
    ),
    (
        "frame 48000 samples 1 beds FC objects 0\npcm x2",
        "2: x2 has no word before it",
    ),
    (
        "frame 48000 samples 2 beds FC objects 0\npcm 00000000\nflush",
        "3: the frame before has 1 words of PCM, and its header asks for 2",
    ),
    (
        "frame 48000 samples 0 objects 0 records 1",
        "1: records are counted, and told only behind bad",
    ),
    (
        "bad raw 00",
        "1: raw must be followed by 80 hexadecimal digits",
    ),
    ("cut", "1: cut must be followed by 1 to 39 bytes"),
    ("flush now", "1: now stands behind the record's end"),
];

#[test]
fn text_that_says_nothing_is_told_by_line() {
    for (text, message) in WRONG {
        let said = feed(&["undump", "-", "-o", "-"], text.as_bytes());
        let wanted = format!("voqlisna: standard input:{message}\n");
        assert_eq!((said.code, said.err), (2, wanted), "{text}");
    }
    let said = feed(&["undump", "-", "-o", "-"], &[0xff]);
    assert_eq!(said.err, "voqlisna: standard input:1: not text\n");
}
