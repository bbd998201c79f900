// SPDX-License-Identifier: Apache-2.0
//! Writes the first inputs of the fuzzer (rust/fuzz), 200 lists of calls: `fuzz_seeds FOLDER`.

use compare::calls::{Call, Calls, Step};
use compare::{Generator, floats};
use std::path::PathBuf;
use std::{env, fs, process};

const LISTS: u64 = 200;
/// Metadata records of a list at most, so that it stays short.
const RECORDS: usize = 60;

/// A head of 32 bytes: an operation and a stride (rust/fuzz/README.md).
fn head(operation: u8, stride: u8) -> [u8; 32] {
    let mut head = [0; 32];
    head[..2].copy_from_slice(&[operation, stride]);
    head
}

/// A reset with an odd stride's byte: a making call, its layout's code at byte 8, or from 240 on that
/// of bytes 2 to 5.
fn make(layout: u32) -> [u8; 32] {
    let mut head = head(6, 1);
    head[2..6].copy_from_slice(&layout.to_le_bytes());
    head[8] = u8::try_from(layout)
        .ok()
        .filter(|&code| code < 5)
        .unwrap_or(240);
    head
}

/// The same with the second bit of the stride's byte, the table's length at bytes 6 and 7, and the table
/// in records behind the head.
fn make_with(layout: u32, table: &[u8]) -> Vec<u8> {
    let (mut head, mut records) = (make(layout), table.to_vec());
    records.resize(table.len().next_multiple_of(40), 0);
    head[1] = 3;
    head[6..8].copy_from_slice(&(table.len() as u16).to_le_bytes());
    head[10..12].copy_from_slice(&((records.len() / 40) as u16).to_le_bytes());
    [&head[..], &records].concat()
}

/// A hold or a release, by its code.
fn mark(code: u8, object: u32) -> [u8; 32] {
    let mut head = head(5, 0);
    head[2..6].copy_from_slice(&object.to_le_bytes());
    head[8] = u8::try_from(object).map_or(255, |object| object.min(240));
    head[9] = code;
    head
}

/// The PCM is told by its loudness alone, in the fuzzer's steps.
fn loudness(call: &Call) -> u8 {
    let samples = floats(&call.pcm);
    let peak = samples.iter().fold(0f32, |peak, x| match x.abs() {
        x if x.is_nan() || peak.is_nan() => f32::NAN,
        x => peak.max(x),
    });
    let steps = [0.0, 0.25, 0.5, 1.0, 2.0, 16.0, f32::INFINITY];
    steps.iter().position(|&step| peak <= step).unwrap_or(7) as u8
}

fn push(call: &Call, stride: u8) -> Vec<u8> {
    let mut head = head(loudness(call) << 5, stride);
    head[2..6].copy_from_slice(&call.rate.to_le_bytes());
    head[6..8].copy_from_slice(&(call.samples as u16).to_le_bytes());
    head[8] = call.objects as u8;
    head[9] = call.codes.len() as u8;
    head[10..12].copy_from_slice(&((call.meta.len() / 40) as u16).to_le_bytes());
    head[14..][..call.codes.len()].copy_from_slice(&call.codes);
    [&head[..], &call.meta[..]].concat()
}

/// A making call and up to 12 others; one list in eight goes to the stream's end, one has a byte of its block written.
fn list(seed: u64) -> Vec<u8> {
    let mut inputs = Generator::new(seed);
    let calls = if inputs.chance(4) {
        Calls::lifting(seed, 256)
    } else {
        Calls::new(seed, 256)
    };
    let layout = seed as u32 % 4;
    let mut calls = calls.with_making(layout);
    if inputs.chance(2) {
        calls = calls.with_holds();
    }
    if inputs.chance(2) {
        calls = calls.with_far();
    }
    let mut list = make(layout).to_vec();
    let mut records = 0;
    for _ in 0..4 + inputs.below(9) {
        match calls.next_step() {
            Step::Push(call) if records + call.meta.len() / 40 <= RECORDS => {
                records += call.meta.len() / 40;
                list.extend(push(&call, 3 + 24 * inputs.below(4) as u8));
            }
            Step::Push(_) => (),
            Step::Flush => list.extend(head(5, 0)),
            Step::Reset => list.extend(head(6, 0)),
            Step::Make(layout) => list.extend(make(layout)),
            Step::MakeWith(layout, table) => list.extend(make_with(layout, &table)),
            Step::Hold(object) => list.extend(mark(1, object)),
            Step::Release(object) => list.extend(mark(3, object)),
        }
        match inputs.below(64) {
            0 => {
                let mut to_the_end = head(7, 1);
                to_the_end[6..8].copy_from_slice(&(inputs.below(300) as u16).to_le_bytes());
                list.extend(to_the_end);
            }
            1 => {
                let mut write = head(7, 0);
                write[2..4].copy_from_slice(&(inputs.bits() as u16).to_le_bytes());
                write[8] = inputs.bits() as u8;
                list.extend(write);
            }
            _ => (),
        }
    }
    list
}

fn main() {
    let Some(folder) = env::args_os().nth(1).map(PathBuf::from) else {
        eprintln!("usage: fuzz_seeds FOLDER");
        process::exit(2);
    };
    fs::create_dir_all(&folder).unwrap();
    for seed in 0..LISTS {
        fs::write(folder.join(format!("{seed:03}")), list(seed)).unwrap();
    }
}
