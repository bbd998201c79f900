//! The seeds of the drawn tests. `VOQLISNA_SEED=17` runs a test on seed 17 alone. A test that fails
//! tells its seed and the command line that runs it again.

use crate::Generator;
use std::env;
use std::ops::{Deref, DerefMut, Range};
use std::thread;

/// The seeds of a range in turn, or the one that the command line names.
#[macro_export]
macro_rules! seeds {
    ($seeds:expr) => {{
        fn here() {}
        $crate::seeds::Seeds::new($seeds, std::any::type_name_of_val(&here))
    }};
}

/// A generator from a seed, or from the one that the command line names.
#[macro_export]
macro_rules! drawn {
    ($seed:expr) => {{
        fn here() {}
        $crate::seeds::Drawn::new($seed, std::any::type_name_of_val(&here))
    }};
}

/// The seed that the command line names.
fn named() -> Option<u64> {
    let seed = env::var("VOQLISNA_SEED").ok()?;
    let number = seed.parse();
    Some(number.unwrap_or_else(|_| panic!("VOQLISNA_SEED={seed} is no number")))
}

/// No seed is named: what must arise among all seeds can be asked for.
pub fn all() -> bool {
    named().is_none()
}

/// The seed at work. Dropped by a failing test, it tells how to run that again.
struct Seed {
    number: u64,
    /// The path of a function inside the test.
    here: &'static str,
}

impl Seed {
    fn command(&self) -> String {
        let path = self.here.trim_end_matches("::here");
        let path = path.replace("::{{closure}}", "");
        let (binary, test) = path.split_once("::").unwrap_or(("", &path));
        format!(
            "VOQLISNA_SEED={} cargo test --release --offline -p compare --test {binary} -- --exact {test}",
            self.number
        )
    }
}

impl Drop for Seed {
    fn drop(&mut self) {
        if thread::panicking() {
            eprintln!("seed {}, run again: {}", self.number, self.command());
        }
    }
}

pub struct Seeds {
    rest: Vec<u64>,
    here: &'static str,
    /// The last one given out.
    at_work: Option<Seed>,
}

impl Seeds {
    pub fn new(seeds: Range<u64>, here: &'static str) -> Self {
        let rest = named().map_or_else(|| seeds.rev().collect(), |seed| vec![seed]);
        Seeds::of(rest, here)
    }

    fn of(rest: Vec<u64>, here: &'static str) -> Self {
        Seeds {
            rest,
            here,
            at_work: None,
        }
    }

    /// For two threads: the even ones and the odd ones.
    pub fn halves(self) -> [Self; 2] {
        let (even, odd) = self.rest.iter().partition(|&seed| seed % 2 == 0);
        [even, odd].map(|rest| Seeds::of(rest, self.here))
    }
}

impl Iterator for Seeds {
    type Item = u64;

    fn next(&mut self) -> Option<u64> {
        let here = self.here;
        self.at_work = self.rest.pop().map(|number| Seed { number, here });
        self.at_work.as_ref().map(|seed| seed.number)
    }
}

/// A generator that tells its seed.
pub struct Drawn {
    inputs: Generator,
    _seed: Seed,
}

impl Drawn {
    pub fn new(seed: u64, here: &'static str) -> Self {
        let number = named().unwrap_or(seed);
        Drawn {
            inputs: Generator::new(number),
            _seed: Seed { number, here },
        }
    }
}

impl Deref for Drawn {
    type Target = Generator;

    fn deref(&self) -> &Generator {
        &self.inputs
    }
}

impl DerefMut for Drawn {
    fn deref_mut(&mut self) -> &mut Generator {
        &mut self.inputs
    }
}
