// SPDX-License-Identifier: Apache-2.0
//! Times of the library beside the Rust's, and beside another library's where VOQLISNA_BASE_LIB
//! named one when this was built: the same frames, all sides in turn. Prints the figures of
//! docs/PERFORMANCE.md. Stops where the samples of a timed frame differ.

mod ahead;
mod case;
mod counts;
mod find;
mod fit;
mod halls;
mod holds;
mod leaves;
mod million;
mod pcm24;
mod planes;
mod sends;
mod sides;
mod slowest;
mod table;
mod threads;
mod times;

use case::Case;
use sides::{Other, assert_equal, sides};
use std::process::{Command, Stdio};
use std::time::Instant;
use std::{env, fs, process, thread};
use table::{Row, rows};

const USAGE: &str = "\
usage: measure [SECONDS] | million | sends | halls | ahead | leaves | planes | pcm24 | holds | find | counts
  SECONDS   for each case (0.8)
  million   only a million pushes of one sample
  sends     only what sends to the bass feed cost
  halls     only what a hall table of its own costs
  ahead     only what updates that wait cost
  leaves    times of single functions
  planes    times of the archive's planes, both ways
  pcm24     times of 24-bit samples, both ways
  holds     times of holds and releases
  find      times of searches for a place
  counts    only instructions, by valgrind";

/// Rounds of all cases, a line for each case and side: seconds a push.
fn sweep(seconds: f64) {
    let (mut sides, mut other) = (sides(), Other::new());
    for Row { case, .. } in rows() {
        let inputs = case.inputs();
        assert_equal(&mut sides, &inputs);
        let times = times::rounds(sides.len(), seconds, |side| {
            sides[side].time(&inputs, 1, case.cold.then_some(&mut other))
        });
        for times in times {
            let times = times.iter().map(|time| time / case.pushes() as f64);
            let line: Vec<String> = times.map(|time| time.to_string()).collect();
            println!("{}", line.join(" "));
        }
    }
}

/// The same by a process of its own: where code and memory come to lie, which is another thing in
/// each, makes up to a tenth.
fn sweep_apart<'a>(word: &str, sides: impl Iterator<Item = &'a mut Vec<f64>>, seconds: f64) {
    let program = env::current_exe().unwrap();
    let ran = Command::new(program)
        .args([word, &seconds.to_string()])
        .stderr(Stdio::inherit())
        .output()
        .unwrap();
    if !ran.status.success() {
        process::exit(1);
    }
    let text = String::from_utf8(ran.stdout).unwrap();
    for (times, line) in sides.zip(text.lines()) {
        times.extend(line.split(' ').map(|time| time.parse::<f64>().unwrap()));
    }
}

/// Those whose instructions are counted: after other data they are as many.
fn warm() -> Vec<Case> {
    let cases = rows().into_iter().map(|row| row.case);
    cases.filter(|case| !case.cold).collect()
}

fn load() -> String {
    let text = fs::read_to_string("/proc/loadavg").unwrap_or_default();
    text.split(' ').next().unwrap_or_default().into()
}

fn processor() -> String {
    let text = fs::read_to_string("/proc/cpuinfo").unwrap_or_default();
    let name = text
        .lines()
        .find_map(|line| line.strip_prefix("model name"));
    let name = name
        .unwrap_or_default()
        .trim_start_matches([' ', '\t', ':']);
    format!(
        "{name}, {} cores",
        thread::available_parallelism().map_or(1, usize::from)
    )
}

const SWEEPS: usize = 6;
/// The words on the command line for one of them.
const SWEEP: &str = "sweep";
const SWEEP_SENDS: &str = "sweep-sends";
const SWEEP_HALLS: &str = "sweep-halls";
const SWEEP_AHEAD: &str = "sweep-ahead";

/// The rows with their rounds, by processes of that word.
fn swept<R>(
    mut rows: Vec<R>,
    word: &str,
    seconds: f64,
    times: fn(&mut R) -> &mut Vec<Vec<f64>>,
) -> Vec<R> {
    for _ in 0..SWEEPS {
        let sides = rows.iter_mut().flat_map(times);
        sweep_apart(word, sides, seconds / SWEEPS as f64);
    }
    rows
}

/// What sends cost.
fn sends(seconds: f64) -> Vec<sends::Row> {
    swept(sends::rows(), SWEEP_SENDS, seconds, |row| &mut row.times)
}

/// What a hall table of its own costs.
fn halls(seconds: f64) -> Vec<halls::Row> {
    swept(halls::rows(), SWEEP_HALLS, seconds, |row| &mut row.times)
}

/// What updates that wait cost.
fn ahead(seconds: f64) -> Vec<ahead::Row> {
    swept(ahead::rows(), SWEEP_AHEAD, seconds, |row| &mut row.times)
}

fn all(seconds: f64) {
    let (start, before) = (Instant::now(), load());
    let mut rows = rows();
    for sweep in 1..=SWEEPS {
        eprintln!("sweep {sweep} of {SWEEPS}");
        let sides = rows.iter_mut().flat_map(|row| &mut row.times);
        sweep_apart(SWEEP, sides, seconds / SWEEPS as f64);
    }
    if let Some(counts) = counts::counts(&warm()) {
        let warm = rows.iter_mut().filter(|row| !row.case.cold);
        warm.zip(counts)
            .for_each(|(row, counts)| row.counts = Some(counts));
    }
    println!("## Measured");
    table::print(&rows);
    sends::print(&sends(seconds));
    halls::print(&halls(seconds));
    million::print();
    table::print_functions(&rows);
    fit::print(&rows);
    threads::print();
    slowest::print();
    let rounds = rows.iter().map(|row| row.times[0].len());
    println!(
        "\n{}; load average {before} before and {} after; {} to {} rounds a case; {} s in all.",
        processor(),
        load(),
        rounds.clone().min().unwrap(),
        rounds.max().unwrap(),
        start.elapsed().as_secs()
    );
}

fn main() {
    if cfg!(no_sources) {
        eprintln!(
            "measure: the Rust sources are not at hand: VOQLISNA_RUST_SRC names their folder"
        );
        process::exit(2);
    }
    let words: Vec<String> = env::args().skip(1).collect();
    let words: Vec<&str> = words.iter().map(String::as_str).collect();
    match words.as_slice() {
        [] => all(0.8),
        ["leaves"] => leaves::print(),
        ["planes"] => planes::print(),
        ["pcm24"] => pcm24::print(),
        ["holds"] => holds::print(),
        ["find"] => find::print(),
        ["counts"] => counts::print(&warm()),
        ["million"] => million::print(),
        ["sends"] => sends::print(&sends(0.8)),
        ["halls"] => halls::print(&halls(0.8)),
        ["ahead"] => ahead::print(&ahead(0.8)),
        [SWEEP_HALLS, seconds] => halls::sweep(seconds.parse().unwrap()),
        [SWEEP_AHEAD, seconds] => ahead::sweep(seconds.parse().unwrap()),
        [SWEEP_SENDS, seconds] => sends::sweep(seconds.parse().unwrap()),
        [SWEEP, seconds] => sweep(seconds.parse().unwrap()),
        [counts::COUNTED] => counts::counted(&warm()),
        [seconds] if seconds.parse::<f64>().is_ok() => all(seconds.parse().unwrap()),
        _ => {
            eprintln!("{USAGE}");
            process::exit(2);
        }
    }
}
