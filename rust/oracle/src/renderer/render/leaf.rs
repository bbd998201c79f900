//! The sources' private functions over plain values.

#[cfg(not(no_sources))]
use super::super::types::BedChannel;
#[cfg(not(no_sources))]
use super::convert::{bed_channel, metadata, metadata_object, vec3, vector};
#[cfg(not(no_sources))]
use super::read;
use crate::Vector;
use crate::answer::Refusal;
use crate::frame::{Object, Update};
use crate::state::{Info, Metadata, Source};

over_sources! {
    pub fn map_to_cube(v: Vector) -> Vector {
        vector(super::map_to_cube(vec3(v)))
    }

    pub fn lerp_vec3(from: Vector, to: Vector, t: f32) -> Vector {
        vector(super::lerp_vec3(vec3(from), vec3(to), t))
    }

    pub fn room_anchored_position(position: Vector, distance: Option<f32>) -> Vector {
        vector(super::room_anchored_position(vec3(position), distance))
    }

    pub fn screen_anchored_position(position: Vector, screen: f32, depth: f32) -> Vector {
        vector(super::screen_anchored_position(vec3(position), screen, depth))
    }

    pub fn vec_length(v: Vector) -> f32 {
        super::vec_length(vec3(v))
    }

    /// The positions of the twelve channels' speakers.
    pub fn speakers() -> [Vector; 12] {
        super::RENDER_714_CHANNEL_POSITIONS.map(vector)
    }

    pub fn ratio(a: f32, b: f32, x: f32) -> f32 {
        super::ratio(a, b, x)
    }

    /// Over the twelve output channels.
    pub fn render_object_timeslot_to_714(
        input: &[f32],
        output: &mut [Vec<f32>],
        output_offset: usize,
        source: &Source,
    ) {
        in_built_in_hall!(render_object_timeslot_to_714(
            input,
            output,
            output_offset,
            &read::source_state(source),
        ));
    }

    pub fn mix_add_scaled(input: &[f32], output: &mut [f32], gain: f32) {
        super::mix_add_scaled(input, output, gain);
    }

    pub fn mix_full_channel(input: &[f32], output: &mut [f32], gain: f32) {
        super::mix_full_channel(input, output, gain);
    }

    pub fn mix_segment(input: &[f32], output: &mut [f32], offset: usize, gain: f32) {
        super::mix_segment(input, output, offset, gain);
    }

    pub fn map_bed_channel_to_714(code: u8) -> Option<usize> {
        super::map_bed_channel_to_714(bed_channel(code))
    }

    pub fn bed_channel_position(code: u8) -> Vector {
        vector(super::bed_channel_position(bed_channel(code)))
    }

    /// The index among the input codes.
    pub fn find_matching_input_bed_channel(requested: u8, inputs: &[u8]) -> Option<usize> {
        // Each input's one sample is its index.
        let indices: Vec<f32> = (0..inputs.len()).map(|index| index as f32).collect();
        let channels = input_channels(inputs, &indices);
        super::find_matching_input_bed_channel(bed_channel(requested), &channels)
            .map(|channel| channel.samples[0] as usize)
    }

    pub fn bed_channel_matches_input(requested: u8, provided: u8) -> bool {
        super::bed_channel_matches_input(bed_channel(requested), bed_channel(provided))
    }

    pub fn is_low_frequency_bed(code: u8) -> bool {
        super::is_low_frequency_bed(bed_channel(code))
    }

    /// `pcm` holds the inputs' samples, channel after channel; `beds` the metadata's codes and
    /// gains; `output` the twelve channels.
    pub fn mix_bed_objects_segment_to_714(
        inputs: &[u8],
        pcm: &[f32],
        beds: &[(u8, f32)],
        output: &mut [Vec<f32>],
        output_offset: usize,
        samples: usize,
    ) -> Result<(), Refusal> {
        let (codes, sources) = bed_sources(beds);
        in_built_in_hall!(mix_bed_objects_segment_to_714(
            &input_channels(inputs, pcm),
            &codes,
            &sources,
            output,
            output_offset,
            samples,
        ))
        .map_err(|error| super::run::refusal(&error))
    }

    /// a1 a2 b0 b1 b2 x1 x2 y1 y2
    pub fn lowpass_new(rate: u32) -> [f32; 9] {
        read::lowpass(&super::BiquadLowpassState::new(rate))
    }

    pub fn lowpass_process_in_place(filter: &mut [f32; 9], samples: &mut [f32]) {
        let mut state = read::lowpass_state(*filter);
        state.process_in_place(samples);
        *filter = read::lowpass(&state);
    }

    pub fn apply_output_limiter_block(
        channels: &mut [Vec<f32>],
        last_gain: &mut f32,
        rate: u32,
        block_start: usize,
        block_end: usize,
    ) {
        super::apply_output_limiter_block(channels, last_gain, rate, block_start, block_end);
    }

    pub fn max_abs_slice(samples: &[f32]) -> f32 {
        super::max_abs_slice(samples)
    }

    pub fn scale_slice_in_place(samples: &mut [f32], gain: f32) {
        super::scale_slice_in_place(samples, gain);
    }

    pub fn apply_parsed_update(info: &mut Info, object: &Object, bed_or_isf_object: bool) {
        let mut state = read::info_state(info);
        state.apply_parsed_update(&metadata_object(object), bed_or_isf_object);
        *info = read::info(&state);
    }

    /// The target position.
    pub fn update_source_state(info: &mut Info, source: &mut Source) -> Vector {
        let (mut info_state, mut source_state) = (read::info_state(info), read::source_state(source));
        let target = info_state.update_source_state(&mut source_state);
        (*info, *source) = (read::info(&info_state), read::source(&source_state));
        vector(target)
    }
}

amended_only! {
    impl Timed {
        over_sources! {
            /// A hold of that dynamic object is asked for, or none any more.
            pub fn want(&mut self, object: usize, wanted: bool) {
                self.state.dynamic_sources[object].wanted = wanted;
            }
        }
    }
}

amended_only! { over_sources! {
    /// Over the hall's channels: of the twelve, absent ones have no samples.
    pub fn render_object_in_hall(
        hall: &crate::Hall,
        input: &[f32],
        output: &mut [Vec<f32>],
        output_offset: usize,
        source: &Source,
    ) {
        let source = read::source_state(source);
        super::render_object_timeslot_to_714(hall, input, output, output_offset, &source);
    }

    /// As `mix_bed_objects_segment_to_714`, over the hall's channels.
    pub fn mix_beds_in_hall(
        hall: &crate::Hall,
        inputs: &[u8],
        pcm: &[f32],
        beds: &[(u8, f32)],
        output: &mut [Vec<f32>],
        output_offset: usize,
        samples: usize,
    ) -> Result<(), Refusal> {
        let (codes, sources) = bed_sources(beds);
        super::mix_bed_objects_segment_to_714(
            hall,
            &input_channels(inputs, pcm),
            &codes,
            &sources,
            output,
            output_offset,
            samples,
        )
        .map_err(|error| super::run::refusal(&error))
    }
} }

/// The metadata's codes and gains as the sources have them.
#[cfg(not(no_sources))]
fn bed_sources(beds: &[(u8, f32)]) -> (Vec<BedChannel>, Vec<super::BedSourceState>) {
    beds.iter()
        .map(|&(code, gain)| (bed_channel(code), super::BedSourceState { gain }))
        .unzip()
}

#[cfg(not(no_sources))]
fn input_channels<'a>(codes: &[u8], pcm: &'a [f32]) -> Vec<super::RenderInputChannelRef<'a>> {
    let samples = pcm.len().checked_div(codes.len()).unwrap_or(0);
    codes
        .iter()
        .enumerate()
        .map(|(index, &code)| super::RenderInputChannelRef {
            channel: bed_channel(code),
            samples: &pcm[index * samples..][..samples],
        })
        .collect()
}

/// `MetadataRendererState` alone.
pub struct Timed {
    #[cfg(not(no_sources))]
    state: super::MetadataRendererState,
}

impl Timed {
    over_sources! {
        #[expect(clippy::new_without_default)]
        pub fn new() -> Self {
            Timed { state: super::MetadataRendererState::default() }
        }

        pub fn in_state(state: &Metadata) -> Self {
            Timed { state: read::metadata_state(state) }
        }

        pub fn apply_update(&mut self, update: &Update, stream_sample: i64) {
            self.state.apply_update(&metadata(update), stream_sample);
        }

        pub fn update_timeslot(&mut self, stream_sample: i64, samples: usize) {
            self.state.update_timeslot(stream_sample, samples);
        }

        pub fn state(&self) -> Metadata {
            read::metadata(&self.state)
        }
    }
}
