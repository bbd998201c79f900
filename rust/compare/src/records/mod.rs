//! Metadata records (document 01, "What a call receives"), written and read apart from the Rattle
//! code.

pub mod read;
mod write;

pub use read::read;
pub use write::{write, write_ahead};

/// A record of that kind, else zero.
pub fn record(kind: u8) -> [u8; 40] {
    let mut record = [0; 40];
    record[0] = kind;
    record
}

pub fn zero(bytes: &[u8]) -> bool {
    bytes.iter().all(|&byte| byte == 0)
}
