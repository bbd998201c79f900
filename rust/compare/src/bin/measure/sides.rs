//! The sides: the library, the library that VOQLISNA_BASE_LIB named when this was built, the Rust.

use crate::case::Inputs;
use compare::calls::Call;
#[cfg(base)]
use compare::host::fresh;
use compare::setup::Setup;
use compare::{all_same, floats};
use oracle::{Oracle, Pushed, amended};
use std::hint::black_box;
use std::mem::MaybeUninit;
use std::time::{Duration, Instant};

const STRIDE: usize = 1_536;

/// What every version of the library answers first, and room for what later ones add.
#[repr(C)]
struct Answer {
    kind: u32,
    number: u32,
    counts: [u32; 2],
    ready: usize,
    more: MaybeUninit<[u64; 8]>,
}

type Push = unsafe extern "C" fn(
    *mut u8,
    usize,
    *const u8,
    usize,
    *const u8,
    usize,
    *mut u8,
    usize,
    *const u8,
    usize,
    u32,
    u32,
    u32,
    u32,
) -> Answer;

macro_rules! entries {
    ($module:ident, $push:literal, $reset:literal, $size:literal) => {
        mod $module {
            use super::Answer;

            unsafe extern "C" {
                #[link_name = $push]
                pub fn push(
                    state: *mut u8,
                    state_length: usize,
                    pcm: *const u8,
                    pcm_length: usize,
                    meta: *const u8,
                    meta_length: usize,
                    out: *mut u8,
                    out_length: usize,
                    codes: *const u8,
                    codes_length: usize,
                    rate: u32,
                    samples: u32,
                    objects: u32,
                    stride: u32,
                ) -> Answer;
                #[link_name = $reset]
                pub fn reset(state: *mut u8, state_length: usize) -> Answer;
                #[link_name = $size]
                #[allow(dead_code)]
                pub safe fn state_size() -> usize;
            }
        }
    };
}

entries!(hall, "hall_push", "hall_reset", "hall_state_size");
#[cfg(base)]
entries!(
    base,
    "base_hall_push",
    "base_hall_reset",
    "base_hall_state_size"
);

/// A renderer of a library, with the memory that its calls are lent.
pub struct Library {
    push: Push,
    reset: unsafe extern "C" fn(*mut u8, usize) -> Answer,
    state: Vec<u8>,
    out: Vec<u8>,
}

impl Library {
    /// In the hall that the Rust has.
    pub fn new() -> Self {
        Library::in_hall(&Setup::built_in(0))
    }

    pub fn in_hall(setup: &Setup) -> Self {
        Library {
            push: hall::push,
            reset: hall::reset,
            state: setup.fresh(),
            out: vec![0; 48 * STRIDE],
        }
    }

    /// A library from before R-12 has blocks that are the first bytes of today's, and one from before
    /// R-6 shorter ones, of which reset makes a renderer of layout 0 if they are zeros: one from
    /// before R-5 has no making call.
    #[cfg(base)]
    fn base() -> Self {
        let (new, size) = (fresh(0), base::state_size());
        Library {
            push: base::push,
            reset: base::reset,
            state: if size >= voqlisna_sys::WAITS_AT {
                new[..size].to_vec()
            } else {
                vec![0; size]
            },
            out: vec![0; 48 * STRIDE],
        }
    }

    fn reset(&mut self) {
        // SAFETY: one slice that lives through the call.
        let answer = unsafe { (self.reset)(self.state.as_mut_ptr(), self.state.len()) };
        assert_eq!(answer.kind, 3);
    }

    /// The number of ready samples.
    fn push(&mut self, call: &Call) -> usize {
        let (state, out) = (&mut self.state, &mut self.out);
        // SAFETY: five slices that live through the call; the two written ones overlap nothing.
        let answer = unsafe {
            (self.push)(
                state.as_mut_ptr(),
                state.len(),
                call.pcm.as_ptr(),
                call.pcm.len(),
                call.meta.as_ptr(),
                call.meta.len(),
                out.as_mut_ptr(),
                out.len(),
                call.codes.as_ptr(),
                call.codes.len(),
                call.rate,
                call.samples,
                call.objects,
                STRIDE as u32,
            )
        };
        assert_eq!(
            answer.kind, 0,
            "refusal {} {:?}",
            answer.number, answer.counts
        );
        answer.ready
    }

    /// The ready samples are these.
    fn gave(&self, channels: &[Vec<f32>]) -> bool {
        let rows = self.out.chunks(4 * STRIDE);
        rows.zip(channels)
            .all(|(row, channel)| all_same(&floats(&row[..4 * channel.len()]), channel))
    }
}

pub enum Side {
    Library(Library),
    Rust(Oracle),
}

/// A name for each of `sides`.
pub const NAMES: &[&str] = if cfg!(base) {
    &["library", "base", "Rust"]
} else {
    &["library", "Rust"]
};

pub fn sides() -> Vec<Side> {
    vec![
        Side::Library(Library::new()),
        #[cfg(base)]
        Side::Library(Library::base()),
        Side::Rust(Oracle::new()),
    ]
}

impl Side {
    pub fn reset(&mut self) {
        match self {
            Side::Library(library) => library.reset(),
            Side::Rust(oracle) => oracle.reset(),
        }
    }

    /// The number of ready samples.
    pub fn push(&mut self, inputs: &Inputs, frame: usize) -> usize {
        match self {
            Side::Library(library) => library.push(black_box(&inputs.calls[frame])),
            Side::Rust(oracle) => oracle.push_alone(black_box(&inputs.rust[frame])).unwrap(),
        }
    }

    /// The time of the pushes from the `first` on, those before not counted. `other` is gone
    /// through before each.
    pub fn time(&mut self, inputs: &Inputs, first: usize, other: Option<&mut Other>) -> Duration {
        let (lead, timed) = inputs.order.split_at(first);
        self.reset();
        for &frame in lead {
            self.push(inputs, frame);
        }
        let Some(other) = other else {
            let start = Instant::now();
            for &frame in timed {
                black_box(self.push(inputs, frame));
            }
            return start.elapsed();
        };
        let mut after_other = |&frame: &usize| {
            other.touch();
            let start = Instant::now();
            black_box(self.push(inputs, frame));
            start.elapsed()
        };
        timed.iter().map(&mut after_other).sum()
    }
}

/// Every push gives the same samples on each side.
pub fn assert_equal(sides: &mut [Side], inputs: &Inputs) {
    let mut oracle = Oracle::new();
    sides.iter_mut().for_each(Side::reset);
    for (k, &frame) in inputs.order.iter().enumerate() {
        let Pushed::Ready(channels) = oracle.push(&inputs.frames[frame]) else {
            panic!("the Rust refuses push {k}");
        };
        for side in &mut *sides {
            let ready = side.push(inputs, frame);
            assert_eq!(ready, channels[0].len(), "ready samples of push {k}");
            if let Side::Library(library) = side {
                assert!(library.gave(&channels), "samples of push {k}");
            }
        }
    }
}

/// Every push of the library gives the samples of the Rust with sends.
pub fn assert_sent(inputs: &Inputs) {
    assert_amended(inputs, &Setup::built_in(0));
}

/// Every push of the library gives those of the Rust with the rules of document 02, in that hall.
pub fn assert_amended(inputs: &Inputs, setup: &Setup) {
    let mut library = Library::in_hall(setup);
    let mut oracle = amended::Oracle::in_hall(&setup.hall());
    library.reset();
    for (k, &frame) in inputs.order.iter().enumerate() {
        let Pushed::Ready(channels) = oracle.push(&inputs.frames[frame]) else {
            panic!("the Rust refuses push {k}");
        };
        let ready = library.push(&inputs.calls[frame]);
        assert_eq!(ready, channels[0].len(), "ready samples of push {k}");
        assert!(library.gave(&channels), "samples of push {k}");
    }
}

/// 4 MB of data that no side reads.
pub struct Other(Vec<u64>);

impl Other {
    pub fn new() -> Self {
        Other(vec![1; 4 << 17])
    }

    /// A word of each cache line is read and written.
    fn touch(&mut self) {
        for word in self.0.iter_mut().step_by(8) {
            *word = word.wrapping_mul(3);
        }
        black_box(&self.0);
    }
}
