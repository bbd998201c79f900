//! Instructions, by valgrind's callgrind: this program once more, under it, which counts inside the
//! pushes and writes its counters out at each call of `measure_counted`.

use crate::case::Case;
use crate::sides::{NAMES, sides};
use std::collections::BTreeMap;
use std::path::Path;
use std::process::{Command, Stdio};
use std::{env, fs, hint, process};

/// The word on the command line with which the program is the counted one.
pub const COUNTED: &str = "counted";

#[unsafe(no_mangle)]
#[inline(never)]
extern "C" fn measure_counted() {
    hint::black_box(());
}

/// For callgrind to look at.
pub fn counted(cases: &[Case]) {
    let mut sides = sides();
    for case in cases {
        let inputs = case.inputs();
        for side in &mut sides {
            side.reset();
            for (k, &frame) in inputs.order.iter().enumerate() {
                side.push(&inputs, frame);
                if k == 0 {
                    measure_counted();
                }
            }
            measure_counted();
        }
    }
}

/// Instructions of a push, by function.
pub type Count = BTreeMap<String, f64>;

/// For each case and side; none where valgrind is not there.
pub fn counts(cases: &[Case]) -> Option<Vec<Vec<Count>>> {
    let folder = env::temp_dir().join(format!("measure-{}", process::id()));
    fs::create_dir_all(&folder).ok()?;
    let out = folder.join("counts");
    let pushes = ["hall_push", "base_hall_push", "*push_alone*"];
    let ran = Command::new("valgrind")
        .args(["--tool=callgrind", "--compress-strings=no"])
        .arg("--dump-after=measure_counted")
        .args(pushes.map(|function| format!("--toggle-collect={function}")))
        .arg(format!("--callgrind-out-file={}", out.display()))
        .arg(env::current_exe().ok()?)
        .arg(COUNTED)
        .stderr(Stdio::null())
        .status();
    let counts = ran
        .is_ok_and(|status| status.success())
        .then(|| read(&out, cases));
    fs::remove_dir_all(&folder).ok()?;
    counts
}

/// The counters of the timed pushes are in every second file.
fn read(out: &Path, cases: &[Case]) -> Vec<Vec<Count>> {
    let mut file = 0;
    let mut next = |case: &Case| {
        file += 2;
        let text = fs::read_to_string(out.with_extension(file.to_string())).unwrap();
        count(&text, case.pushes() as f64)
    };
    let of_case = |case| NAMES.iter().map(|_| next(case)).collect();
    cases.iter().map(of_case).collect()
}

/// Of a file in callgrind's format: behind "fn=" stands a function, and lines of a place and its
/// cost follow; the line behind "calls=" has what the called function costs.
fn count(text: &str, pushes: f64) -> Count {
    let (mut count, mut function) = (Count::new(), "");
    let mut lines = text.lines();
    while let Some(line) = lines.next() {
        if let Some(name) = line.strip_prefix("fn=") {
            function = name;
        } else if line.starts_with("calls=") {
            lines.next();
        } else if line.starts_with(|c: char| c.is_ascii_digit() || "+-*".contains(c)) {
            let cost: f64 = line.split(' ').nth(1).unwrap().parse().unwrap();
            *count.entry(short(function)).or_default() += cost / pushes;
        }
    }
    count
}

/// Without the path, and without the processor for which the C library has it.
fn short(function: &str) -> String {
    let plain = ["memset", "memcpy", "memmove"];
    let name = plain.into_iter().find(|name| function.contains(name));
    name.or(function.rsplit("::").next()).unwrap().into()
}

/// Instructions of a push by case, of each side, and the library's over the others'.
pub fn print(cases: &[Case]) {
    let Some(counts) = counts(cases) else {
        println!("valgrind is not there");
        return;
    };
    println!("| samples | objects | beds | {} |", NAMES.join(" | "));
    println!("|---|---|---|{}", "---|".repeat(NAMES.len()));
    for (case, counts) in cases.iter().zip(&counts) {
        let sums: Vec<f64> = counts.iter().map(|count| count.values().sum()).collect();
        let cell = |sum: &f64| format!("{sum:.0} ({:.3})", sums[0] / sum);
        let cells: Vec<String> = sums.iter().map(cell).collect();
        let Case {
            samples,
            objects,
            beds,
            ..
        } = case;
        println!("| {samples} | {objects} | {beds} | {} |", cells.join(" | "));
    }
}
