// SPDX-License-Identifier: Apache-2.0
//! Random and damaged programmes through the entries and the oracle, on several threads, and what
//! they reach. `--seed S --runs 1` repeats the run of seed S. Exit status 1: a run differs.

use compare::scale::{self, Reached};
use std::sync::Mutex;
use std::sync::atomic::{AtomicU64, Ordering};
use std::time::{Duration, Instant};
use std::{env, panic, process, thread};

const USAGE: &str = "\
usage: scale [--minutes M | --runs N] [--layout L] [--seed S] [--threads T]
  --minutes M   runs for M minutes
  --runs N      N runs (1000, where no time is given)
  --layout L    of the renderer at a run's start, by its code (0)
  --seed S      the first run's seed, the others follow it (0)
  --threads T   at once (as many as the machine has)";

/// Finds that are told; then it ends.
const FINDS: usize = 10;

struct Options {
    minutes: Option<u64>,
    runs: Option<u64>,
    layout: u32,
    seed: u64,
    threads: usize,
}

fn options() -> Option<Options> {
    let mut options = Options {
        minutes: None,
        runs: None,
        layout: 0,
        seed: 0,
        threads: thread::available_parallelism().map_or(1, usize::from),
    };
    let mut words = env::args().skip(1);
    while let Some(word) = words.next() {
        let number: u64 = words.next()?.parse().ok()?;
        match word.as_str() {
            "--minutes" => options.minutes = Some(number),
            "--runs" => options.runs = Some(number),
            "--layout" => options.layout = u32::try_from(number).ok().filter(|&code| code < 4)?,
            "--seed" => options.seed = number,
            "--threads" => options.threads = number.max(1) as usize,
            _ => return None,
        }
    }
    if options.minutes.is_none() {
        options.runs = options.runs.or(Some(1_000));
    }
    Some(options)
}

/// What the threads share.
struct Work {
    options: Options,
    began: Instant,
    /// Runs that were taken.
    taken: AtomicU64,
    reached: Mutex<Reached>,
    /// Seeds of runs that differ.
    finds: Mutex<Vec<u64>>,
}

impl Work {
    fn done(&self, run: u64) -> bool {
        let Options { minutes, runs, .. } = self.options;
        let elapsed = self.began.elapsed();
        runs.is_some_and(|runs| run >= runs)
            || minutes.is_some_and(|m| elapsed >= Duration::from_secs(m.saturating_mul(60)))
            || self.finds.lock().unwrap().len() >= FINDS
    }

    fn work(&self) {
        let mut reached = Reached::default();
        loop {
            let run = self.taken.fetch_add(1, Ordering::Relaxed);
            if self.done(run) {
                break;
            }
            let seed = self.options.seed.wrapping_add(run);
            let compared = panic::catch_unwind(|| {
                let mut reached = Reached::default();
                scale::run(seed, self.options.layout, &mut reached);
                reached
            });
            match compared {
                Ok(of_run) => reached.join(&of_run),
                Err(_) => self.found(seed),
            }
            if (run + 1).is_multiple_of(100_000) {
                eprintln!("{} runs, {} s", run + 1, self.began.elapsed().as_secs());
            }
        }
        self.reached.lock().unwrap().join(&reached);
    }

    fn found(&self, seed: u64) {
        let again = command(seed, self.options.layout);
        eprintln!("seed {seed}: a difference; again: {again}");
        self.finds.lock().unwrap().push(seed);
    }
}

/// The command that repeats one run.
fn command(seed: u64, layout: u32) -> String {
    let scale = "cargo run --release --offline -p compare --bin scale --";
    format!("{scale} --runs 1 --layout {layout} --seed {seed}")
}

fn main() {
    let Some(options) = options() else {
        eprintln!("{USAGE}");
        process::exit(2);
    };
    if cfg!(no_sources) {
        eprintln!("scale: the Rust sources are not at hand: VOQLISNA_RUST_SRC names their folder");
        process::exit(2);
    }
    let work = Work {
        options,
        began: Instant::now(),
        taken: AtomicU64::new(0),
        reached: Mutex::default(),
        finds: Mutex::default(),
    };
    thread::scope(|scope| {
        for _ in 0..work.options.threads {
            scope.spawn(|| work.work());
        }
    });
    let Options {
        layout,
        seed,
        threads,
        ..
    } = work.options;
    let (seconds, finds) = (
        work.began.elapsed().as_secs(),
        work.finds.into_inner().unwrap(),
    );
    println!("{}", work.reached.into_inner().unwrap());
    println!("layout {layout}, seeds from {seed}, threads {threads}, seconds {seconds}");
    for &seed in &finds {
        println!("differs: {}", command(seed, layout));
    }
    println!("runs that differ: {}", finds.len());
    process::exit(i32::from(!finds.is_empty()));
}
