// SPDX-License-Identifier: Apache-2.0
//! What the tests of the tool share: running it, folders, programmes good and damaged.
#![allow(dead_code)] // each test file uses a part
use std::ffi::OsStr;
use std::fs;
use std::io::Write;
use std::path::{Path, PathBuf};
use std::process::{Command, Output, Stdio};
use voqlisna::{Bed, Block, MetadataWriter, Object, Room, Update};

pub const TOOL: &str = env!("CARGO_BIN_EXE_voqlisna");

/// The project's root.
pub fn root() -> PathBuf {
    Path::new(env!("CARGO_MANIFEST_DIR")).join("../..")
}

/// A folder that goes with the test.
pub struct Folder(PathBuf);

impl Folder {
    pub fn new(name: &str) -> Self {
        let path = std::env::temp_dir().join(format!("voqlisna-{}-{name}", std::process::id()));
        fs::create_dir_all(&path).unwrap();
        Self(path)
    }
    pub fn file(&self, name: &str) -> String {
        self.0.join(name).to_str().unwrap().to_owned()
    }
    pub fn with(&self, name: &str, bytes: &[u8]) -> String {
        let path = self.file(name);
        fs::write(&path, bytes).unwrap();
        path
    }
}

impl Drop for Folder {
    fn drop(&mut self) {
        let _ = fs::remove_dir_all(&self.0);
    }
}

/// What a run said, and its exit code.
#[derive(Debug, PartialEq)]
pub struct Said {
    pub out: Vec<u8>,
    pub err: String,
    pub code: i32,
}

impl Said {
    fn of(output: Output) -> Self {
        Self {
            out: output.stdout,
            err: String::from_utf8(output.stderr).unwrap(),
            code: output.status.code().unwrap_or(-1),
        }
    }
    pub fn text(&self) -> &str {
        std::str::from_utf8(&self.out).unwrap()
    }
}

/// Runs the tool with nothing to read.
pub fn run<S: AsRef<OsStr>>(args: &[S]) -> Said {
    feed(args, b"")
}

/// Runs the tool with these bytes as its standard input.
pub fn feed<S: AsRef<OsStr>>(args: &[S], input: &[u8]) -> Said {
    pipe(Command::new(TOOL).args(args), input)
}

/// Runs a program with these bytes as its standard input.
pub fn pipe(command: &mut Command, input: &[u8]) -> Said {
    let mut child = command
        .stdin(Stdio::piped())
        .stdout(Stdio::piped())
        .stderr(Stdio::piped())
        .spawn()
        .unwrap();
    let mut to = child.stdin.take().unwrap();
    let input = input.to_vec();
    // A program that ends before its input does is no fault here.
    let writer = std::thread::spawn(move || {
        let _ = to.write_all(&input);
    });
    let said = Said::of(child.wait_with_output().unwrap());
    writer.join().unwrap();
    said
}

/// Whether sox is installed. It is asked only where it is.
pub fn has_sox() -> bool {
    let there = Command::new("sox").arg("--version").output().is_ok();
    if !there {
        println!("skipped: sox is not installed");
    }
    there
}

/// The proved program, from `rt run` in crates/hallrender, or from `rt ci`. Without it the tests that need it are skipped, with CI=true they fail.
pub fn hallrender() -> Option<PathBuf> {
    let program = root().join("crates/hallrender/out/hallrender");
    if program.exists() {
        return Some(program);
    }
    let strict = std::env::var_os("CI").is_some_and(|v| v == "true");
    assert!(!strict, "crates/hallrender/out/hallrender is missing");
    println!("skipped: crates/hallrender/out/hallrender is missing");
    None
}

/// Whole numbers by a seed.
pub struct Dice(u64);

impl Dice {
    pub fn new(seed: u64) -> Self {
        Self(seed.wrapping_mul(0x9e37_79b9_7f4a_7c15) | 1)
    }
    pub fn next(&mut self) -> u64 {
        self.0 ^= self.0 << 13;
        self.0 ^= self.0 >> 7;
        self.0 ^= self.0 << 17;
        self.0 >> 16
    }
    pub fn below(&mut self, n: usize) -> usize {
        (self.next() % n as u64) as usize
    }
    pub fn unit(&mut self) -> f32 {
        self.below(1 << 20) as f32 / (1 << 20) as f32
    }
}

pub const FLUSH: [u8; 40] = plain(7);
pub const RESET: [u8; 40] = plain(8);

const fn plain(kind: u8) -> [u8; 40] {
    let mut r = [0; 40];
    r[0] = kind;
    r
}

/// A frame as records. `pcm` is channel after channel.
pub fn frame(rate: u32, codes: &[u8], objects: u8, metadata: &[u8], pcm: &[f32]) -> Vec<u8> {
    let channels = codes.len() + usize::from(objects);
    let samples = pcm.len().checked_div(channels).unwrap_or(0) as u16;
    let mut r = [0u8; 40];
    r[0] = 5;
    r[4..8].copy_from_slice(&rate.to_le_bytes());
    r[8..10].copy_from_slice(&samples.to_le_bytes());
    (r[10], r[11]) = (codes.len() as u8, objects);
    r[12..14].copy_from_slice(&((metadata.len() / 40) as u16).to_le_bytes());
    r[14..14 + codes.len()].copy_from_slice(codes);
    let mut bytes = r.to_vec();
    bytes.extend_from_slice(metadata);
    for nine in pcm.chunks(9) {
        let mut r = [0u8; 40];
        r[0] = 6;
        for (place, x) in r[4..].chunks_exact_mut(4).zip(nine) {
            place.copy_from_slice(&x.to_le_bytes());
        }
        bytes.extend_from_slice(&r);
    }
    bytes
}

/// An update at the frame's start: beds, then objects at places by the dice.
pub fn update(beds: &[Bed], objects: usize, dice: &mut Dice) -> Vec<u8> {
    let all = beds.len() + objects;
    let mut memory = vec![0; MetadataWriter::bytes_for(all, &[1])];
    let mut writer = MetadataWriter::new(&mut memory);
    let head = Update {
        at: 0,
        objects: all as u8,
        fixed: beds.len() as u8,
        beds,
    };
    let block = Block {
        offset: 0,
        ramp: dice.below(1_000) as i64,
    };
    writer
        .update(head)
        .unwrap()
        .element(&[block], |o, _| {
            let place = Room {
                x: dice.unit(),
                y: dice.unit(),
                z: dice.unit(),
            };
            let object = if o < beds.len() {
                Object::KEEP
            } else {
                Object::at(place)
            };
            object.gain(dice.unit()).send(dice.unit())
        })
        .unwrap();
    memory
}

const BEDS: [Bed; 4] = [Bed::FrontLeft, Bed::Center, Bed::Bass, Bed::TopSurroundLeft];

/// A frame before it is written.
struct Take {
    rate: u32,
    codes: Vec<u8>,
    objects: usize,
    metadata: Vec<u8>,
    pcm: Vec<f32>,
}

impl Take {
    fn write(&self) -> Vec<u8> {
        let objects = self.objects as u8;
        frame(self.rate, &self.codes, objects, &self.metadata, &self.pcm)
    }

    /// One fault that leaves the records as laid out: each is a refusal, or passes.
    fn spoil(&mut self, dice: &mut Dice) {
        let samples = self.pcm.len() / (self.codes.len() + self.objects);
        match dice.below(10) {
            0 => self.rate = [7_999, 192_001, 32_000][dice.below(3)],
            1 => self
                .codes
                .iter_mut()
                .for_each(|c| *c += dice.below(12) as u8),
            2 => {
                self.objects += 1;
                self.pcm.resize(self.pcm.len() + samples, 0.0);
            }
            3 => self.pcm.clear(),
            4 => self.metadata.clear(),
            5 | 6 if !self.metadata.is_empty() => {
                let at = dice.below(self.metadata.len());
                self.metadata[at] = dice.below(20) as u8;
            }
            7 if !self.metadata.is_empty() => {
                // The first object's gain.
                self.metadata[124..128].copy_from_slice(&9f32.to_le_bytes());
            }
            _ if !self.pcm.is_empty() => {
                let at = dice.below(self.pcm.len());
                self.pcm[at] = [f32::NAN, f32::INFINITY, -16.1][dice.below(3)];
            }
            _ => {}
        }
    }
}

/// Frames of up to `most` samples at one rate, of which none is refused.
fn takes(dice: &mut Dice, most: usize) -> Vec<Take> {
    let rate = [8_000, 44_100, 48_000, 192_000][dice.below(4)];
    let beds = &BEDS[..dice.below(5)];
    let objects = 1 + dice.below(3);
    let mut take = |k: usize| {
        let told = k == 0 || dice.below(2) == 0;
        let metadata = if told {
            update(beds, objects, dice)
        } else {
            Vec::new()
        };
        let samples = 1 + dice.below(most);
        let level = if dice.below(4) == 0 { 8.0 } else { 0.5 };
        let channels = beds.len() + objects;
        let pcm = (0..samples * channels).map(|_| level * (dice.unit() - 0.5));
        Take {
            rate,
            codes: beds.iter().map(|b| b.code()).collect(),
            objects,
            metadata,
            pcm: pcm.collect(),
        }
    };
    (0..4).map(&mut take).collect()
}

/// A programme of which nothing is refused, with flushes here and there and at its end.
pub fn programme(seed: u64, most: usize) -> Vec<u8> {
    let mut dice = Dice::new(seed);
    let mut bytes = Vec::new();
    for take in takes(&mut dice, most) {
        bytes.extend(take.write());
        if dice.below(4) == 0 {
            bytes.extend(FLUSH);
        }
    }
    bytes.extend(FLUSH);
    bytes
}

/// A programme with faults in its frames, and for every third seed also in the order of its records.
pub fn damaged(seed: u64) -> Vec<u8> {
    let mut dice = Dice::new(seed ^ 0xdead);
    let mut bytes = Vec::new();
    for _ in 0..2 {
        for mut take in takes(&mut dice, 256) {
            if dice.below(2) == 0 {
                take.spoil(&mut dice);
            }
            bytes.extend(take.write());
        }
        bytes.extend(if dice.below(2) == 0 { FLUSH } else { RESET });
    }
    if seed % 3 == 0 {
        break_up(&mut bytes, &mut dice);
    }
    bytes
}

/// Up to three times: a byte changed, a record put in, left out or swapped with the next, the end cut off.
fn break_up(bytes: &mut Vec<u8>, dice: &mut Dice) {
    for _ in 0..1 + dice.below(3) {
        let records = bytes.len() / 40;
        let at = 40 * dice.below(records.max(1));
        let left = bytes.len() - at.min(bytes.len());
        match dice.below(6) {
            0 | 1 if left > 0 => bytes[at + dice.below(40.min(left))] = dice.next() as u8,
            2 => {
                let odd: Vec<u8> = (0..40).map(|_| dice.below(9) as u8).collect();
                bytes.splice(at..at, odd);
            }
            3 if left >= 40 => drop(bytes.drain(at..at + 40)),
            4 if left >= 80 => bytes[at..at + 80].rotate_left(40),
            _ => bytes.truncate(dice.below(bytes.len() + 1)),
        }
    }
}
