//! Writes crates/rows/specs/Lists.antt: lists of calls, and what the oracle has the host see of
//! each. Run from anywhere: `cargo run --release --bin rows`.

use compare::rows;
use std::fs;
use std::path::Path;

fn main() {
    let file = Path::new(env!("CARGO_MANIFEST_DIR")).join("../../crates/rows/specs/Lists.antt");
    let text = rows::text();
    println!(
        "{} rows, {} bytes",
        text.matches(" : Row\n").count(),
        text.len()
    );
    fs::write(file, text).unwrap();
}
