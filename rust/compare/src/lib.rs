//! What the comparing tests share: the Rattle functions, generators of inputs, what document 01
//! has a call answer, and equality of floats.

pub mod block;
pub mod calls;
pub mod case;
pub mod entry;
mod frames;
mod generator;
pub mod host;
pub mod model;
pub mod probe;
pub mod ranges;
pub mod recorded;
pub mod records;
pub mod rows;
pub mod scale;
pub mod seeds;
pub mod setup;
pub mod streams;
pub mod tables;

pub use frames::{Frames, largest_frame, loudest_frame, set};
pub use generator::{EDGES, Generator};
pub use seeds::Drawn;

/// The floats of little-endian bytes.
pub fn floats(bytes: &[u8]) -> Vec<f32> {
    let words = bytes.as_chunks().0.iter();
    words.map(|&word| f32::from_le_bytes(word)).collect()
}

/// Equal bit for bit, all NaNs being equal.
pub fn same(a: f32, b: f32) -> bool {
    a.to_bits() == b.to_bits() || a.is_nan() && b.is_nan()
}

/// `same` at each place, and as many places.
pub fn all_same(a: &[f32], b: &[f32]) -> bool {
    a.len() == b.len() && a.iter().zip(b).all(|(&a, &b)| same(a, b))
}
