// SPDX-License-Identifier: Apache-2.0
//! A programme as text, a line a record, and back. For every input, what is read back is what was shown: a record is
//! shown by its fields where these read back as it, and else by its bytes.
//!
//! ```text
//! frame 48000 samples 256 beds FC,LFE objects 1
//!   update at 0 objects 3 fixed 2 beds FC,LFE elements 1
//!   update ahead at 96000 objects 3 fixed 2 beds FC,LFE elements 0 # at sample 96000
//!     element blocks 1
//!       block offset 0 ramp 256
//!         object room gain 1 at 0.5 0.25 0 valid depth 1 send 0.5
//!   pcm 3e800000 x256
//! flush
//! ```
//!
//! A line of PCM has a channel's words; xN repeats the word before it. `raw` has a record's bytes. `bad` is before a
//! record that stands where none of its kind may, and `cut` has the bytes of a last record that is not whole.
//! What follows a # is for people.
mod dump;
mod lines;
mod record;
mod undump;
mod word;

pub use dump::dump;
pub use lines::lines;
pub use undump::undump;
pub use word::float;
