//! The cases and their Markdown.

use crate::case::{Case, Updates};
use crate::counts::Count;
use crate::sides::NAMES;
use crate::times::{Ratio, least};

const LENGTHS: [usize; 7] = [1, 64, 256, 480, 500, 1_000, 1_536];

/// A heading, and the case but for its samples.
type Column = (&'static str, Case);

pub const FULL: Case = Case {
    samples: 0,
    objects: 16,
    beds: 10,
    updates: Updates::Moving,
    cold: false,
    send: 0.0,
};
const EACH_435: Updates = each(2, 8);

const fn each(elements: usize, blocks: usize) -> Updates {
    Updates::Each { elements, blocks }
}

const fn with(updates: Updates) -> Case {
    Case { updates, ..FULL }
}

const fn of(objects: usize, beds: usize) -> Case {
    Case {
        objects,
        beds,
        ..FULL
    }
}

const GROUPS: [(&str, &[Column]); 2] = [
    (
        "16 objects, 10 beds",
        &[
            ("moving", FULL),
            ("still", with(Updates::Still)),
            ("askew by 32", with(Updates::Askew(32))),
            ("askew by 20", with(Updates::Askew(20))),
            ("29 records each", with(each(1, 1))),
            ("218 each", with(each(1, 8))),
            ("435 each", with(EACH_435)),
        ],
    ),
    (
        "Fewer objects and beds, moving; and 16 objects with 10 beds after 4 MB of other data",
        &[
            ("0 objects, 10 beds", of(0, 10)),
            ("4 objects, 0 beds", of(4, 0)),
            ("4 objects, 10 beds", of(4, 10)),
            ("16 objects, 0 beds", of(16, 0)),
            ("4 MB, moving", Case { cold: true, ..FULL }),
            (
                "4 MB, 435 each",
                Case {
                    cold: true,
                    ..with(EACH_435)
                },
            ),
        ],
    ),
];

/// What was found of a case.
pub struct Row {
    pub title: &'static str,
    pub case: Case,
    /// Seconds a push, of each side, in each round.
    pub times: Vec<Vec<f64>>,
    /// Instructions a push, of each side.
    pub counts: Option<Vec<Count>>,
}

/// All of them with nothing found yet, group by group, a group line by line.
pub fn rows() -> Vec<Row> {
    let row = |samples, &(title, case): &Column| Row {
        title,
        case: Case { samples, ..case },
        times: vec![Vec::new(); NAMES.len()],
        counts: None,
    };
    let group = |columns: &'static [Column]| {
        let line = move |samples| columns.iter().map(move |column| row(samples, column));
        LENGTHS.into_iter().flat_map(line)
    };
    GROUPS
        .into_iter()
        .flat_map(|(_, columns)| group(columns))
        .collect()
}

/// Three digits or more.
pub fn digits(x: f64) -> String {
    match x {
        ..9.995 => format!("{x:.2}"),
        ..99.95 => format!("{x:.1}"),
        _ => digits_of(x.round() as usize),
    }
}

/// With a comma before the last three.
pub fn digits_of(n: usize) -> String {
    match n {
        ..1_000 => n.to_string(),
        _ => format!("{},{:03}", n / 1_000, n % 1_000),
    }
}

fn joined(values: impl Iterator<Item = f64>) -> String {
    values.map(digits).collect::<Vec<_>>().join(" / ")
}

/// A table for each group, with a text in each cell.
fn print_groups(title: &str, mut rows: &[Row], cell: impl Fn(&Row) -> String) {
    println!("\n### {title}");
    for (name, columns) in GROUPS {
        let (of_group, rest) = rows.split_at(LENGTHS.len() * columns.len());
        rows = rest;
        let titles: Vec<&str> = columns.iter().map(|&(title, _)| title).collect();
        println!("\n{name}:\n\n| samples | {} |", titles.join(" | "));
        println!("|---|{}", "---|".repeat(columns.len()));
        for row in of_group.chunks(columns.len()) {
            let cells: Vec<String> = row.iter().map(&cell).collect();
            let samples = digits_of(row[0].case.samples);
            println!("| {samples} | {} |", cells.join(" | "));
        }
    }
}

pub fn print(rows: &[Row]) {
    let all = NAMES.join(" / ");
    for (side, name) in NAMES.iter().enumerate().skip(1) {
        let ratio = |row: &Row| Ratio::new(&row.times[0], &row.times[side]).to_string();
        print_groups(&format!("Time over that of the {name}"), rows, ratio);
    }
    print_groups(&format!("µs a push: {all}"), rows, |row| {
        joined(row.times.iter().map(|times| least(times) * 1e6))
    });
    print_groups(
        &format!("Thousands of instructions a push: {all}"),
        rows,
        |row| {
            let counts = row.counts.as_ref();
            let all = |count: &Count| count.values().sum::<f64>() / 1e3;
            counts.map_or("–".into(), |counts| joined(counts.iter().map(all)))
        },
    );
}

/// Of the cases that take longer than the Rust, and beside them of moving ones.
pub fn print_functions(rows: &[Row]) {
    println!("\n### Where the library's instructions go: moving, and every case above 1\n");
    println!("| samples | case | over the Rust | by function |\n|---|---|---|---|");
    for row in rows {
        let ratio = Ratio::new(&row.times[0], &row.times[NAMES.len() - 1]);
        let (true, Some(counts)) = (row.title == "moving" || ratio.is_above(1.0), &row.counts)
        else {
            continue;
        };
        let samples = digits_of(row.case.samples);
        let shares = shares(&counts[0]);
        println!("| {samples} | {} | {ratio} | {shares} |", row.title);
    }
}

/// The six that have most.
fn shares(count: &Count) -> String {
    let all: f64 = count.values().sum();
    let mut functions: Vec<_> = count.iter().collect();
    functions.sort_by(|a, b| b.1.total_cmp(a.1));
    let share = |(name, n): &(&String, &f64)| format!("`{name}` {:.0} %", 100.0 * *n / all);
    functions
        .iter()
        .take(6)
        .map(share)
        .collect::<Vec<_>>()
        .join(", ")
}
