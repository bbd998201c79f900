//! The Rattle functions that crates/probes exports, one module a crate. A slice crosses as its
//! pointer and its length.

pub mod angles;
pub mod beds;
pub mod ieee;
pub mod limiter;
pub mod lowpass;
pub mod mixing;
pub mod panning;
pub mod records;
pub mod roots;
pub mod timed;
pub mod vectors;
pub mod words;
