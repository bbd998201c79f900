//! What a call answers.

use crate::Vector;

/// What push answers.
#[derive(Clone, Debug, PartialEq)]
pub enum Pushed {
    /// The ready samples of the twelve channels.
    Ready(Vec<Vec<f32>>),
    Refused(Refusal),
    /// The Rust panicked; the renderer is as before the call.
    Panicked,
}

/// A refusal's number, 9 to 14, and its two counts.
#[derive(Clone, Copy, Debug, PartialEq, Eq)]
pub struct Refusal {
    pub number: u8,
    pub counts: [u64; 2],
}

/// `Render714TimeslotDebug`: the sources of one slot.
#[derive(Clone, Debug, PartialEq)]
pub struct Slot {
    pub sample_offset: usize,
    pub sources: Vec<SlotSource>,
}

/// `Render714SourceDebug`.
#[derive(Clone, Copy, Debug, PartialEq)]
pub struct SlotSource {
    pub object_index: usize,
    /// Code of a bed's channel.
    pub static_channel: Option<u8>,
    pub position: Vector,
    pub gain: f32,
    pub size: f32,
    pub lfe: bool,
    pub position_valid: bool,
    /// Of the amended sources; 0 else.
    pub send: f32,
}
