//! The leaves: each function that crates/probes exports, held by itself against the Rust's own or
//! against exact arithmetic.

mod angles;
mod beds;
mod ieee;
mod limiter;
mod lowpass;
mod mixing;
mod panning;
mod records;
mod roots;
mod timed;
mod vectors;
mod words;
