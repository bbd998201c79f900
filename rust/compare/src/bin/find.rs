// SPDX-License-Identifier: Apache-2.0
//! Where to put a sound (document 02, R-13): every mask of twelve bits and some above, in the four
//! layouts with the built-in table and in halls with tables of their own, against a search of the whole
//! grid by two readings (`compare::model::find`). Exit status 1: a search differs.

use compare::entry;
use compare::model::find::Found;
use compare::setup::Setup;
use compare::{Generator, tables};
use std::collections::BTreeSet;
use std::ops::AddAssign;
use std::sync::Mutex;
use std::sync::atomic::{AtomicU64, Ordering};
use std::time::Instant;
use std::{env, process, thread};

const USAGE: &str = "\
usage: find [--tables N] [--threads T]
  --tables N    halls with tables of their own (200)
  --threads T   at once (1)";

/// What halls come to.
#[derive(Default)]
struct Tally {
    halls: u64,
    searches: u64,
    /// Searches that have a place.
    found: u64,
    /// Different masks among these.
    masks: BTreeSet<u32>,
    /// Searches that differ.
    differ: Vec<String>,
}

impl AddAssign for Tally {
    fn add_assign(&mut self, other: Self) {
        self.halls += other.halls;
        self.searches += other.searches;
        self.found += other.found;
        self.masks.extend(other.masks);
        self.differ.extend(other.differ);
    }
}

/// All masks of twelve bits, and 32 above.
fn masks(inputs: &mut Generator) -> impl Iterator<Item = u32> {
    let above = [4_096, 4_097, 8_191, 65_536, 1 << 31, u32::MAX];
    let drawn = (0..26).map(|_| inputs.bits() as u32 | 1 << 12);
    (0..4_096).chain(above).chain(drawn.collect::<Vec<_>>())
}

fn hall(setup: &Setup, inputs: &mut Generator) -> Tally {
    let mut tally = Tally {
        halls: 1,
        ..Tally::default()
    };
    let (block, found) = (setup.fresh(), Found::new(&setup.hall()));
    for mask in masks(inputs) {
        let answer = entry::find(&block, mask);
        tally.searches += 1;
        if !found.is(mask, answer) {
            let differs = format!("{setup:?}, mask {mask:x}: {answer:?}");
            tally.differ.push(differs);
        }
        if found.place(mask).is_some() {
            tally.found += 1;
            tally.masks.insert(mask);
        }
    }
    tally
}

/// The hall of that number: the layouts in turn, each first with the built-in table.
fn setup(number: u64, inputs: &mut Generator) -> Setup {
    let layout = number as u32 % 4;
    match number {
        0..4 => Setup::built_in(layout),
        _ => Setup {
            layout,
            table: tables::accepted(inputs),
        },
    }
}

fn print(name: &str, tally: &Tally) {
    println!(
        "{name}: {} halls, {} searches, {} with a place, of {} sets; {} differ",
        tally.halls,
        tally.searches,
        tally.found,
        tally.masks.len(),
        tally.differ.len()
    );
    tally
        .differ
        .iter()
        .take(10)
        .for_each(|differs| println!("{differs}"));
}

fn options() -> Option<(u64, u64)> {
    let (mut tables, mut threads) = (200, 1);
    let mut words = env::args().skip(1);
    while let Some(word) = words.next() {
        let number = words.next()?.parse().ok()?;
        match word.as_str() {
            "--tables" => tables = number,
            "--threads" => threads = number,
            _ => return None,
        }
    }
    Some((tables, threads))
}

fn main() {
    let Some((tables, threads)) = options() else {
        eprintln!("{USAGE}");
        process::exit(2);
    };
    let (start, next) = (Instant::now(), AtomicU64::new(0));
    // With the built-in table by layout, then with tables of their own.
    let all: Mutex<[Tally; 5]> = Mutex::default();
    let work = || loop {
        let number = next.fetch_add(1, Ordering::Relaxed);
        if number >= 4 + tables {
            break;
        }
        let inputs = &mut Generator::new(number);
        let tally = hall(&setup(number, inputs), inputs);
        let mut all = all.lock().unwrap();
        all[number.min(4) as usize] += tally;
        let own = &all[4];
        if own.halls > 0 && own.halls.is_multiple_of(20) {
            let (halls, differ) = (own.halls, own.differ.len());
            eprintln!(
                "{halls} tables, {differ} differ, {} s",
                start.elapsed().as_secs()
            );
        }
    };
    thread::scope(|scope| {
        for _ in 0..threads {
            scope.spawn(work);
        }
    });
    let all = all.into_inner().unwrap();
    for (layout, tally) in all.iter().enumerate().take(4) {
        print(&format!("layout {layout}"), tally);
    }
    print("tables of their own", &all[4]);
    println!("{} s", start.elapsed().as_secs());
    let same = all.iter().all(|tally| tally.differ.is_empty());
    process::exit(i32::from(!same));
}
