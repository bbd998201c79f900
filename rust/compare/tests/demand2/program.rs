//! The program `hallrender` on 10,000 streams at rates drawn from all that are accepted, and on 10,000
//! with sends: its standard output is, byte for byte, what the oracle has it print.

use compare::calls::{Call, Step};
use compare::seeds::Seeds;
use compare::{recorded, seeds, streams};
use std::collections::{BTreeMap, BTreeSet};
use std::fs;
use std::io::Write;
use std::path::Path;
use std::process::{Command, Stdio};
use std::thread;

const STREAMS: u64 = 10_000;
const PROGRAM: &str = concat!(
    env!("CARGO_MANIFEST_DIR"),
    "/../../crates/hallrender/out/hallrender"
);

/// What the program prints.
fn run(stream: &[u8]) -> String {
    let mut program = Command::new(PROGRAM)
        .stdin(Stdio::piped())
        .stdout(Stdio::piped())
        .spawn()
        .unwrap();
    let mut stdin = program.stdin.take().unwrap();
    let output = thread::scope(|scope| {
        scope.spawn(move || {
            // A program that ends at a bad record leaves the rest unread.
            _ = stdin.write_all(stream);
        });
        program.wait_with_output().unwrap()
    });
    assert!(output.status.success());
    String::from_utf8(output.stdout).unwrap()
}

/// The first lines that differ.
fn difference(found: &str, expected: &str) -> String {
    let place = found
        .lines()
        .zip(expected.lines())
        .position(|(a, b)| a != b)
        .unwrap_or(found.lines().count().min(expected.lines().count()));
    let line = |text: &str| text.lines().nth(place).unwrap_or("the end").to_string();
    format!(
        "line {}: found {}, expected {}",
        place + 1,
        line(found),
        line(expected)
    )
}

/// The answers of a text, samples left out.
fn answers(text: &str) -> impl Iterator<Item = &str> {
    text.lines().filter_map(|line| {
        let first = line.split(' ').next()?;
        match first {
            "refused" => Some(&line[..line.match_indices(' ').nth(1)?.0]),
            "ready" | "none" | "reset" => Some(first),
            "bad" => Some(line),
            _ => None,
        }
    })
}

/// The accepted rates in the headers of a stream.
fn frame_rates(stream: &[u8]) -> impl Iterator<Item = u32> {
    let headers = stream.chunks_exact(40).filter(|record| record[0] == 5);
    headers
        .map(|record| u32::from_le_bytes(record[4..8].try_into().unwrap()))
        .filter(|rate| (8_000..=192_000).contains(rate))
}

/// How often each answer arises.
type Counts = BTreeMap<String, u64>;

/// Compares the streams of these seeds; gives their answers and rates.
fn compared(seeds: Seeds, stream: fn(u64) -> Vec<u8>) -> (Counts, BTreeSet<u32>) {
    let (mut counts, mut rates) = (Counts::new(), BTreeSet::new());
    for seed in seeds {
        let stream = stream(seed);
        rates.extend(frame_rates(&stream));
        let expected = streams::played(&stream);
        let found = run(&stream);
        assert!(found == expected, "{}", difference(&found, &expected));
        for answer in answers(&expected) {
            *counts.entry(answer.to_string()).or_insert(0) += 1;
        }
    }
    (counts, rates)
}

#[test]
#[cfg_attr(no_sources, ignore = "Rust sources not at hand")]
fn prints_what_the_oracle_has_it_print() {
    assert!(
        Path::new(PROGRAM).exists(),
        "run `rt run` in crates/hallrender first"
    );
    let [even, odd] = seeds!(0..STREAMS).halves();
    let halves = thread::scope(|scope| {
        let other = scope.spawn(|| compared(odd, streams::stream));
        [compared(even, streams::stream), other.join().unwrap()]
    });
    let kinds: BTreeSet<&String> = halves.iter().flat_map(|half| half.0.keys()).collect();
    let rates: BTreeSet<&u32> = halves.iter().flat_map(|half| &half.1).collect();
    println!("{:?} {:?}, {} rates", halves[0].0, halves[1].0, rates.len());
    if seeds::all() {
        assert!(rates.len() > 8_000, "{} rates", rates.len());
        // ready, none, reset, bad record, and 2 to 14 but 7 and 4, which no stream is long enough for
        assert_eq!(kinds.len(), 4 + 11, "{kinds:?}");
    }
}

/// Whether an object record of the stream has a send.
fn says_a_send(stream: &[u8]) -> bool {
    stream
        .chunks(40)
        .any(|record| record[0] == 4 && record[36..40].iter().any(|&byte| byte != 0))
}

#[test]
#[cfg_attr(no_sources, ignore = "Rust sources not at hand")]
fn prints_what_is_sent_to_the_bass_feed() {
    let [even, odd] = seeds!(0..STREAMS).halves();
    let halves = thread::scope(|scope| {
        let other = scope.spawn(|| compared(odd, streams::sending));
        [compared(even, streams::sending), other.join().unwrap()]
    });
    let ready: u64 = halves.iter().map(|half| half.0["ready"]).sum();
    let sending = (0..STREAMS).filter(|&seed| says_a_send(&streams::sending(seed)));
    println!("{ready} frames with samples");
    assert!(!seeds::all() || ready > 50_000);
    assert!(!seeds::all() || sending.count() > 9_000);
}

/// Document 01's example, as the document has it and as the oracle has it.
#[test]
fn a_frame_without_metadata_then_flush() {
    let mut stream = vec![0; 120];
    stream[..15].copy_from_slice(&[5, 0, 0, 0, 0x80, 0xbb, 0, 0, 1, 0, 1, 0, 0, 0, 2]);
    stream[40] = 6;
    stream[44..48].copy_from_slice(&1f32.to_le_bytes());
    stream[80] = 7;
    assert_eq!(run(&stream), "refused 10 0 0\nnone\n");
    if !cfg!(no_sources) {
        assert_eq!(streams::played(&stream), run(&stream));
    }
}

/// Each count of a header at its limit, and one past it.
#[test]
#[cfg_attr(no_sources, ignore = "Rust sources not at hand")]
fn limits_of_a_frame() {
    for (samples, beds, objects, records) in [
        (256, 1, 0, 0),
        (257, 1, 0, 0),
        (4, 18, 0, 0),
        (4, 19, 0, 0),
        (4, 0, 16, 0),
        (4, 0, 17, 0),
        (0, 0, 0, 1_200),
        (0, 0, 0, 1_201),
    ] {
        let call = Call {
            rate: 48_000,
            samples,
            codes: vec![2; beds as usize],
            objects,
            meta: vec![0; 40 * records],
            pcm: vec![0; 4 * (samples * (beds + objects)) as usize],
        };
        let mut stream = Vec::new();
        streams::append(&mut stream, &Step::Push(call));
        streams::append(&mut stream, &Step::Flush);
        let past = samples > 256 || beds > 18 || objects > 16 || records > 1_200;
        let found = run(&stream);
        assert_eq!(found, streams::played(&stream));
        assert_eq!(found == "bad record\n", past, "{found}");
    }
}

/// The recorded list is what the program `record` writes now, and the compiled program prints it.
#[test]
#[cfg_attr(no_sources, ignore = "Rust sources not at hand")]
fn the_recorded_list_is_the_oracles() {
    let stdin = recorded::stdin();
    let stdout = recorded::stdout(&stdin);
    let written = |name: &str| fs::read(recorded::folder().join(name)).unwrap();
    assert!(
        written("stdin") == stdin && written("stdout") == stdout.as_bytes(),
        "run `cargo run --release --bin record`"
    );
    let found = run(&stdin);
    assert!(found == stdout, "{}", difference(&found, &stdout));
}
