//! Writes crates/hallrender/stdin and crates/hallrender/stdout: a recorded list of calls, and what
//! the oracle has `hallrender` print for it. Run from anywhere: `cargo run --release --bin record`.

use compare::recorded;
use std::fs;

fn main() {
    let stdin = recorded::stdin();
    let stdout = recorded::stdout(&stdin);
    println!("{} and {} bytes", stdin.len(), stdout.len());
    fs::write(recorded::folder().join("stdin"), stdin).unwrap();
    fs::write(recorded::folder().join("stdout"), stdout).unwrap();
}
