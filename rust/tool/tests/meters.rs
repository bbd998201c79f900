// SPDX-License-Identifier: Apache-2.0
//! `--meters`: its columns beside the samples of the same run, what is said, and where it goes.
mod common;
use common::{FLUSH, Folder, TOOL, feed, frame, pipe, programme, run, update};
use std::fs;
use std::process::Command;
use std::time::Instant;
use voqlisna::{Bed, Layout};

const COLUMNS: &str = "time_s\tpeak\tgain\tpeak_db\treduction_db";

/// A line of the columns.
#[derive(Debug)]
struct Line {
    time: f64,
    peak: f32,
    gain: f32,
    peak_db: f64,
    reduction_db: f64,
}

fn lines(text: &str) -> Vec<Line> {
    let (head, rows) = text.split_once('\n').unwrap();
    assert_eq!(head, COLUMNS);
    let line = |row: &str| {
        let words: Vec<&str> = row.split('\t').collect();
        assert_eq!(words.len(), 5, "{row}");
        Line {
            time: words[0].parse().unwrap(),
            peak: words[1].parse().unwrap(),
            gain: words[2].parse().unwrap(),
            peak_db: words[3].parse().unwrap(),
            reduction_db: words[4].parse().unwrap(),
        }
    };
    rows.lines().map(line).collect()
}

/// The largest size of all channels' samples.
fn largest(rows: &[u8]) -> f32 {
    let words = rows.chunks_exact(4);
    let sizes = words.map(|word| f32::from_le_bytes(word.try_into().unwrap()).abs());
    sizes.fold(0.0, f32::max)
}

/// In frames of up to 64 samples a call gives out one block at most, so each line is a block's. In a smaller layout the
/// peak is that of its channels.
#[test]
fn each_line_is_its_block() {
    let folder = Folder::new("lines");
    let (to, meters) = (folder.file("out.wav"), folder.file("meters"));
    let (mut blocks, mut limited) = (0, 0);
    for seed in 0..200 {
        let bytes = programme(seed, 64);
        let layout = Layout::ALL[seed as usize % 4];
        let columns = format!("--meters={meters}");
        let asked = [
            "render",
            "-",
            "-o",
            &to,
            "--layout",
            layout.name(),
            &columns,
        ];
        let said = feed(&asked, &bytes);
        assert_eq!((said.code, said.err.as_str()), (0, ""));
        let (wav, text) = (fs::read(&to).unwrap(), fs::read_to_string(&meters).unwrap());
        let rate = u32::from_le_bytes(bytes[4..8].try_into().unwrap());
        let lines = lines(&text);
        limited += limiting(&lines, &wav[104..], 4 * layout.speakers().len(), rate);
        blocks += lines.len();
    }
    assert!(
        blocks > 400 && limited > 200,
        "{blocks} blocks, {limited} limited"
    );
}

/// Document 01: "if p × g > 1, g becomes 0.9 / p; scale; then g grows by length / rate, at most 1". How many blocks were
/// scaled by less than 1.
fn limiting(lines: &[Line], rows: &[u8], row: usize, rate: u32) -> usize {
    let start = |line: &Line| (line.time * f64::from(rate)).round() as usize;
    let (mut gain, mut at, mut limited) = (1f32, 0, 0);
    for (k, line) in lines.iter().enumerate() {
        assert_eq!(start(line), at, "{line:?}");
        at = lines.get(k + 1).map_or(rows.len() / row, start);
        let samples = at - start(line);
        assert!((1..=64).contains(&samples), "{line:?}");
        let used = match line.peak * gain > 1.0 {
            true => 0.9 / line.peak,
            false => gain,
        };
        let block = largest(&rows[row * start(line)..row * at]);
        assert_eq!((line.gain, block), (used, line.peak * used), "{line:?}");
        gain = (used + samples as f32 / rate as f32).min(1.0);
        limited += usize::from(used < 1.0);
    }
    limited
}

#[test]
fn decibels_are_those_of_the_numbers() {
    let said = run(&["demo", "-s", "4", "-o", "/dev/null", "--meters=-"]);
    let lines = lines(said.text());
    assert_eq!(lines.len(), 750);
    for line in &lines {
        let peak = 20.0 * f64::from(line.peak).log10();
        let reduction = -20.0 * f64::from(line.gain).log10();
        assert!(
            line.peak == 0.0 && line.peak_db == f64::NEG_INFINITY
                || (line.peak_db - peak).abs() < 0.0051
        );
        assert!((line.reduction_db - reduction).abs() < 0.0051, "{line:?}");
    }
    assert!(
        lines
            .iter()
            .any(|line| line.peak > 1.0 && line.reduction_db > 3.0)
    );
}

/// A bed of constant samples, at gain 0.707.
fn constant(sample: f32) -> Vec<u8> {
    let mut metadata = update(&[Bed::Center], 0, &mut common::Dice::new(1));
    metadata[7] = 0; // no element
    let bytes = frame(48_000, &[2], 0, &metadata[..40], &[sample; 480]);
    [bytes, FLUSH.to_vec()].concat()
}

/// Behind the line of the samples. Without a terminal there is no bar, and no escape code.
#[test]
fn the_end_says_what_was_met() {
    let folder = Folder::new("said");
    let to = folder.file("out.wav");
    for (sample, wanted) in [
        (0.0, "silent; never turned down"),
        (0.5, "peak -9.0 dB at 0.000 s; never turned down"),
        (
            4.0,
            "peak +9.0 dB at 0.000 s; turned down by up to 9.9 dB, for 0.010 s in all",
        ),
    ] {
        let said = feed(&["render", "-", "-o", &to, "--meters"], &constant(sample));
        let last = said.text().lines().last().unwrap();
        assert_eq!(last, format!("before the limiter: {wanted}"));
        assert_eq!(
            (said.code, said.text().lines().count(), said.err.as_str()),
            (0, 2, "")
        );
        let plain = feed(&["render", "-", "-o", &to], &constant(sample));
        assert_eq!(plain.text().lines().next(), said.text().lines().next());
        assert_eq!(plain.text().lines().count(), 1);
    }
    let said = run(&["demo", "-o", &to, "--meters"]);
    let wanted = "before the limiter: peak +12.9 dB at 14.997 s; turned down by up to 13.8 dB, for 0.800 s in all";
    assert_eq!(said.text().lines().nth(1), Some(wanted));
}

#[test]
fn columns_on_standard_output_stand_alone() {
    let folder = Folder::new("alone");
    let (to, meters) = (folder.file("out.wav"), folder.file("meters"));
    let written = feed(
        &["render", "-", "-o", &to, &format!("--meters={meters}")],
        &constant(4.0),
    );
    let said = feed(&["render", "-", "-o", &to, "--meters=-"], &constant(4.0));
    assert_eq!(said.text(), fs::read_to_string(&meters).unwrap());
    assert_eq!((said.code, said.err.as_str()), (0, written.text()));
    // Samples there, columns in a file.
    let said = feed(
        &["render", "-", "-o", "-", &format!("--meters={meters}")],
        &constant(4.0),
    );
    assert_eq!(said.out.len(), 104 + 48 * 480);
    assert_eq!(lines(&fs::read_to_string(&meters).unwrap()).len(), 2);
}

#[test]
fn what_cannot_be_written_is_told() {
    let folder = Folder::new("told");
    let (from, to) = (folder.with("in", &constant(0.5)), folder.file("out.wav"));
    for (meters, code, message) in [
        (folder.file("away/meters"), 3, "No such file or directory"),
        ("/dev/full".to_owned(), 3, "No space left on device"),
        (from.clone(), 2, "would be written over while it is read"),
    ] {
        let said = run(&["render", &from, "-o", &to, &format!("--meters={meters}")]);
        assert_eq!(said.code, code);
        assert!(
            said.err.contains(&meters) && said.err.contains(message),
            "{}",
            said.err
        );
    }
    assert!(fs::read(&from).unwrap() == constant(0.5));
}

/// One line that is written over, at most ten times a second.
#[test]
fn bars_on_a_terminal() {
    if Command::new("script").arg("--version").output().is_err() {
        println!("skipped: script is not installed");
        return;
    }
    let began = Instant::now();
    let line = format!("{TOOL} demo -s 120 -o /dev/null --meters");
    let said = pipe(
        Command::new("script").args(["-qec", &line, "/dev/null"]),
        b"",
    );
    let tenths = began.elapsed().as_millis() / 100;
    let shown: Vec<&str> = said.text().split("\r\x1b[K").skip(1).collect();
    assert_eq!(said.code, 0);
    // The last part is behind the bars.
    assert!(
        (2..=tenths as usize + 1).contains(&shown.len()),
        "{}",
        said.text()
    );
    for line in &shown[..shown.len() - 1] {
        assert!(
            line.contains(" %, peak [") && line.contains(" dB, down ["),
            "{line}"
        );
        assert!(!line.contains('\n') && line.len() < 80, "{line}");
    }
    assert!(
        shown.iter().any(|line| line.contains("|====] +1")),
        "the stroke"
    );
}
