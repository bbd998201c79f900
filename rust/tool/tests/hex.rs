// SPDX-License-Identifier: Apache-2.0
//! `hex` prints what `hallrender` prints.
mod common;
use common::{Dice, Folder, damaged, feed, frame, hallrender, pipe, programme, root, run, update};
use std::collections::BTreeSet;
use std::process::Command;
use voqlisna::Bed;

#[test]
fn the_committed_output() {
    let said = run(&[
        "hex",
        root().join("crates/hallrender/stdin").to_str().unwrap(),
    ]);
    let wanted = std::fs::read(root().join("crates/hallrender/stdout")).unwrap();
    assert!(said.out == wanted);
    assert_eq!(said.code, 2, "its last record is cut");
}

/// Document 01: "prints exactly".
#[test]
fn the_document_s_example() {
    let mut bytes = frame(48_000, &[2], 0, &[], &[1.0]);
    bytes.extend(common::FLUSH);
    let said = feed(&["hex", "-"], &bytes);
    assert_eq!((said.code, said.text()), (0, "refused 10 0 0\nnone\n"));
}

/// Programmes good and damaged, and what a frame of the crate cannot say: codes above 17, no channel, a rate that is
/// none, more samples than hallrender takes. Last the bed that is not supported.
fn inputs() -> Vec<Vec<u8>> {
    let mut inputs: Vec<Vec<u8>> = (0..200).map(damaged).collect();
    inputs.extend((0..20).map(|seed| programme(seed, 256)));
    inputs.push(frame(48_000, &[18], 0, &[], &[f32::NAN]));
    inputs.push(frame(7_999, &[255], 0, &[], &[1.0]));
    inputs.push(frame(0, &[2], 0, &[], &[17.0]));
    inputs.push(frame(192_001, &[2], 0, &[], &[17.0]));
    inputs.push(frame(48_000, &[2], 0, &[], &[1.0; 257]));
    let mut silent = frame(48_000, &[], 0, &[], &[]);
    inputs.push(silent.clone());
    silent[8] = 5;
    inputs.push(silent);
    let rear = update(&[Bed::RearCenter], 0, &mut Dice::new(1));
    inputs.push(frame(48_000, &[6], 0, &rear, &[0.5; 64]));
    inputs
}

#[test]
fn any_input_as_hallrender() {
    let Some(program) = hallrender() else { return };
    for input in inputs() {
        let ours = feed(&["hex", "-"], &input);
        let theirs = pipe(&mut Command::new(&program), &input);
        let text = || feed(&["dump", "-"], &input).out;
        assert!(
            ours.out == theirs.out,
            "{}",
            String::from_utf8(text()).unwrap()
        );
    }
}

/// The inputs reach every answer: all refusals but those that no programme can cause.
#[test]
fn the_inputs_reach_every_answer() {
    let mut heads = BTreeSet::new();
    for input in inputs() {
        for line in feed(&["hex", "-"], &input).text().lines() {
            let words: Vec<&str> = line.split(' ').collect();
            heads.insert(match words[0] {
                "refused" => format!("refused {}", words[1]),
                "ready" | "none" | "reset" | "bad" => words[0].to_owned(),
                _ => "words".to_owned(),
            });
        }
    }
    let mut wanted: BTreeSet<String> = [2, 3, 5, 6, 8, 9, 10, 11, 12, 13, 14]
        .map(|k| format!("refused {k}"))
        .into();
    wanted.extend(["ready", "none", "reset", "bad", "words"].map(str::to_owned));
    assert_eq!(heads, wanted);
}

#[test]
fn a_bad_record_is_told() {
    let folder = Folder::new("bad-record");
    let mut bytes = programme(3, 100);
    let at = bytes.len();
    bytes.extend([12; 40]);
    let path = folder.with("show.bin", &bytes);
    let said = run(&["hex", &path]);
    assert!(said.text().ends_with("bad record\n"));
    assert_eq!(said.code, 2);
    let grouped = if at >= 1_000 {
        format!("{},{:03}", at / 1_000, at % 1_000)
    } else {
        at.to_string()
    };
    let wanted = format!(
        "voqlisna: {path}: byte {grouped}: bad record: kind 12 where a frame (5), flush (7) or reset (8) must stand\n"
    );
    assert_eq!(said.err, wanted);
}
