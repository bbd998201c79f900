//! The renderer, under the rules of document 01 that the Rust leaves to its caller: a refused
//! frame counts as never sent.

#[cfg(not(no_sources))]
use super::super::render_input::RenderInputFrame;
#[cfg(not(no_sources))]
use super::{
    MetadataRendererState, RENDER_714_CHANNELS, Render714Error, Render714Frame,
    Render714TimeslotDebug, Renderer714, convert, read, render_input_from_frame,
};
use crate::answer::{Pushed, Slot};
#[cfg(not(no_sources))]
use crate::answer::{Refusal, SlotSource};
use crate::frame::Frame;
use crate::state::State;

pub struct Oracle {
    #[cfg(not(no_sources))]
    renderer: Renderer714,
}

/// A frame as the Rust takes it.
pub struct Input {
    #[cfg(not(no_sources))]
    frame: RenderInputFrame,
}

impl Input {
    over_sources! {
        pub fn new(frame: &Frame) -> Self {
            Input { frame: convert::input_frame(frame) }
        }
    }
}

impl Oracle {
    over_sources! {
        #[expect(clippy::new_without_default)]
        pub fn new() -> Self {
            Oracle { renderer: Renderer714::new() }
        }

        /// A renderer in that state, with no rows in store.
        pub fn in_state(state: &State) -> Self {
            Oracle { renderer: read::renderer(state) }
        }

        pub fn reset(&mut self) {
            self.renderer.reset();
        }

        pub fn push(&mut self, frame: &Frame) -> Pushed {
            self.push_with_debug(frame).0
        }

        /// Also the rows of the slots whose samples are ready.
        pub fn push_with_debug(&mut self, frame: &Frame) -> (Pushed, Vec<Slot>) {
            let input = convert::input_frame(frame);
            let before = self.renderer.clone();
            let pushed = quiet::caught(|| self.renderer.push_frame_with_debug(&input));
            let refused = match pushed {
                Some(Ok((output, slots))) => {
                    return (Pushed::Ready(output.channels), slots.iter().map(slot).collect());
                }
                Some(Err(error)) => Pushed::Refused(refusal(&error)),
                None => Pushed::Panicked,
            };
            self.renderer = before;
            (refused, Vec::new())
        }

        /// The Rust's own push and nothing else: the number of ready samples, or none where it
        /// answers an error, which may leave a trace.
        pub fn push_alone(&mut self, input: &Input) -> Option<usize> {
            let output = self.renderer.push_frame(&input.frame).ok()?;
            Some(output.samples_per_channel())
        }

        /// The twelve channels of a frame that is accepted, as they come to the limiter, and the
        /// rows of its slots.
        pub fn mixed(self, frame: &Frame) -> (Vec<Vec<f32>>, Vec<Slot>) {
            let input = convert::input_frame(frame);
            let (mut beds, mut objects) = (Vec::new(), Vec::new());
            let input = render_input_from_frame(&input, &mut beds, &mut objects);
            let mut channels = vec![Vec::new(); RENDER_714_CHANNELS];
            let (mut renderer, mut slots) = (self.renderer, Vec::new());
            let mixed = renderer.push_frame_parts_impl(&input, &mut channels, &mut slots);
            assert!(mixed.is_ok(), "a frame that is refused");
            (channels, slots.iter().map(slot).collect())
        }

        /// The pending samples of the twelve channels, or none.
        pub fn flush(&mut self) -> Option<Vec<Vec<f32>>> {
            self.renderer.flush().map(|Render714Frame { channels, .. }| channels)
        }

        /// Rows in store keep leading silence from panicking; no sample depends on them.
        pub fn store_debug_rows(&mut self, rows: usize) {
            let row = Render714TimeslotDebug { sample_offset: 0, sources: Vec::new() };
            self.renderer.pending_timeslot_debug.extend(vec![row; rows]);
        }

        pub fn state(&self) -> State {
            read::state(&self.renderer)
        }
    }
}

amended_only! {
    impl Oracle {
        over_sources! {
            /// A fresh renderer in that hall; reset keeps it.
            pub fn in_hall(hall: &crate::Hall) -> Self {
                Oracle::in_hall_and_state(hall, &Oracle::new().state())
            }

            /// A renderer in that hall and state. What waits in absent channels is left out.
            pub fn in_hall_and_state(hall: &crate::Hall, state: &State) -> Self {
                let mut renderer = read::renderer(state);
                hall.leave_out(&mut renderer.limiter_pending);
                renderer.hall = hall.clone();
                Oracle { renderer }
            }

            pub fn hall(&self) -> crate::Hall {
                self.renderer.hall.clone()
            }

            /// A hold of that dynamic object is asked for, or none any more.
            pub fn want(&mut self, object: usize, wanted: bool) {
                self.renderer.metadata.dynamic_sources[object].wanted = wanted;
            }
        }
    }
}

#[cfg(not(no_sources))]
impl Clone for Renderer714 {
    fn clone(&self) -> Self {
        with_hall!(
            self.hall.clone(),
            Self {
                sample_rate: self.sample_rate,
                limiter_gain: self.limiter_gain,
                stream_sample_offset: self.stream_sample_offset,
                metadata_timeslot_phase: self.metadata_timeslot_phase,
                metadata_timeslot_stream_sample: self.metadata_timeslot_stream_sample,
                lfe_lowpass: self.lfe_lowpass.clone(),
                metadata: self.metadata.clone(),
                limiter_pending: self.limiter_pending.clone(),
                pending_timeslot_debug: self.pending_timeslot_debug.clone(),
            }
        )
    }
}

#[cfg(not(no_sources))]
impl Clone for MetadataRendererState {
    fn clone(&self) -> Self {
        Self {
            initialized: self.initialized,
            payload_stream_sample: self.payload_stream_sample,
            object_count: self.object_count,
            bed_or_isf_objects: self.bed_or_isf_objects,
            bed_channels: self.bed_channels.clone(),
            bed_sources: self.bed_sources.clone(),
            elements: self.elements.clone(),
            dynamic_sources: self.dynamic_sources.clone(),
        }
    }
}

/// Document 01, "The Rust's own".
#[cfg(not(no_sources))]
pub(super) fn refusal(error: &Render714Error) -> Refusal {
    let (number, first, second) = match *error {
        Render714Error::SampleRateChanged { expected, provided } => {
            (9, expected as usize, provided as usize)
        }
        Render714Error::MissingOamd => (10, 0, 0),
        Render714Error::ObjectCountMismatch { expected, provided } => (11, expected, provided),
        Render714Error::UnsupportedSampleCount(samples) => (12, samples, 0),
        Render714Error::BedChannelCountMismatch { expected, provided } => (13, expected, provided),
        Render714Error::UnsupportedBedChannel(channel) => {
            (14, convert::bed_code(channel).into(), 0)
        }
        Render714Error::OamdStateUninitialized => unreachable!("document 01: cannot arise"),
    };
    Refusal {
        number,
        counts: [first as u64, second as u64],
    }
}

#[cfg(not(no_sources))]
fn slot(debug: &Render714TimeslotDebug) -> Slot {
    Slot {
        sample_offset: debug.sample_offset,
        sources: debug
            .sources
            .iter()
            .map(|source| SlotSource {
                object_index: source.object_index,
                static_channel: source.static_channel.map(convert::bed_code),
                position: convert::vector(source.position),
                gain: source.gain,
                size: source.size,
                lfe: source.lfe,
                position_valid: source.position_valid,
                send: send_of!(source),
            })
            .collect(),
    }
}

/// Panics caught without the message that the hook would print.
#[cfg(not(no_sources))]
mod quiet {
    use std::cell::Cell;
    use std::panic::{self, AssertUnwindSafe};
    use std::sync::Once;

    thread_local!(static QUIET: Cell<bool> = const { Cell::new(false) });

    pub fn caught<T>(run: impl FnOnce() -> T) -> Option<T> {
        static HOOK: Once = Once::new();
        HOOK.call_once(|| {
            let hook = panic::take_hook();
            panic::set_hook(Box::new(move |info| {
                if !QUIET.get() {
                    hook(info);
                }
            }));
        });
        QUIET.set(true);
        let outcome = panic::catch_unwind(AssertUnwindSafe(run));
        QUIET.set(false);
        outcome.ok()
    }
}
