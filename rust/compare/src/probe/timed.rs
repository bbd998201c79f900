// The timed state crosses by value, the infos and the metadata as bytes.

use crate::block::INFO;

#[repr(C)]
#[derive(Clone, Copy, Debug, Default)]
pub struct Vec3 {
    pub x: f32,
    pub y: f32,
    pub z: f32,
}

#[repr(C)]
#[derive(Clone, Copy, Debug, Default)]
pub struct Source {
    pub gain: f32,
    pub size: f32,
    pub place: Vec3,
    pub placed: bool,
    /// A hold is asked for, and in effect.
    pub wanted: bool,
    pub held: bool,
    pub send: f32,
}

#[repr(C)]
#[derive(Clone, Copy, Debug, Default)]
pub struct Track {
    pub now: bool,
    pub future: Vec3,
}

/// Offset and ramp plus 2^20.
#[repr(C)]
#[derive(Clone, Copy, Debug, Default)]
pub struct Block {
    pub offset: u32,
    pub ramp: u32,
    pub used: bool,
}

/// The remaining ramp is plus 2^47.
#[repr(C)]
#[derive(Clone, Copy, Debug)]
pub struct Element {
    pub blocks: usize,
    pub flags: usize,
    pub remaining: u64,
    pub schedule: [Block; 8],
    pub tracks: [Track; 16],
}

#[repr(C)]
#[derive(Clone, Copy, Debug)]
pub struct State {
    pub initialized: bool,
    pub payload: u64,
    pub objects: usize,
    pub isf: usize,
    pub beds: usize,
    pub elements: usize,
    pub codes: [u8; 18],
    pub gains: [f32; 18],
    pub states: [Element; 2],
    pub sources: [Source; 16],
}

unsafe extern "C" {
    fn probe_update_timeslot(state: State, infos: *mut u8, length: usize, start: u64) -> State;
    fn probe_apply_update(
        state: State,
        infos: *mut u8,
        length: usize,
        metadata: *const u8,
        bytes: usize,
        index: usize,
        at: u64,
    ) -> State;
}

/// What a remaining ramp of 0 is.
pub const MIDDLE: u64 = 1 << 47;
/// What an offset or a ramp of 0 is.
pub const ZERO: u32 = 1 << 20;

/// The state and the infos.
pub struct Timed {
    pub state: State,
    pub infos: Vec<u8>,
}

impl Timed {
    pub fn new() -> Self {
        let block = Block {
            offset: ZERO,
            ramp: ZERO,
            used: false,
        };
        let element = Element {
            blocks: 0,
            flags: 0,
            remaining: MIDDLE,
            schedule: [block; 8],
            tracks: [Track::default(); 16],
        };
        let state = State {
            initialized: false,
            payload: 0,
            objects: 0,
            isf: 0,
            beds: 0,
            elements: 0,
            codes: [0; 18],
            gains: [0.0; 18],
            states: [element; 2],
            sources: [Source::default(); 16],
        };
        Timed {
            state,
            infos: vec![0; 512 * INFO],
        }
    }

    pub fn update_timeslot(&mut self, start: u64) {
        let infos = &mut self.infos;
        self.state =
            unsafe { probe_update_timeslot(self.state, infos.as_mut_ptr(), infos.len(), start) };
    }

    /// The update of that index.
    pub fn apply_update(&mut self, metadata: &[u8], index: usize, at: u64) {
        let infos = &mut self.infos;
        self.state = unsafe {
            probe_apply_update(
                self.state,
                infos.as_mut_ptr(),
                infos.len(),
                metadata.as_ptr(),
                metadata.len(),
                index,
                at,
            )
        };
    }

    /// A word of an info.
    pub fn word(&self, info: usize, word: usize) -> u32 {
        let at = INFO * info + 4 * word;
        u32::from_le_bytes(self.infos[at..at + 4].try_into().unwrap())
    }
}

impl Default for Timed {
    fn default() -> Self {
        Self::new()
    }
}
