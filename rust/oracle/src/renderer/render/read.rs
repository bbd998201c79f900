//! The state of the sources from and to plain values.

use super::convert::{anchor, bed_channel, bed_code, object_anchor, vec3, vector};
use super::{
    BedSourceState, BiquadLowpassState, DynamicSourceState, ElementRendererState,
    MetadataRendererState, ObjectInfoBlockState, Renderer714,
};
use crate::state::{Element, Info, Metadata, Source, State};

pub fn state(renderer: &Renderer714) -> State {
    State {
        sample_rate: renderer.sample_rate,
        limiter_gain: renderer.limiter_gain,
        stream_sample_offset: renderer.stream_sample_offset,
        metadata_timeslot_phase: renderer.metadata_timeslot_phase,
        metadata_timeslot_stream_sample: renderer.metadata_timeslot_stream_sample,
        lfe_lowpass: renderer.lfe_lowpass.as_ref().map(lowpass),
        metadata: metadata(&renderer.metadata),
        limiter_pending: renderer.limiter_pending.clone(),
    }
}

pub fn renderer(state: &State) -> Renderer714 {
    Renderer714 {
        sample_rate: state.sample_rate,
        limiter_gain: state.limiter_gain,
        stream_sample_offset: state.stream_sample_offset,
        metadata_timeslot_phase: state.metadata_timeslot_phase,
        metadata_timeslot_stream_sample: state.metadata_timeslot_stream_sample,
        lfe_lowpass: state.lfe_lowpass.map(lowpass_state),
        metadata: metadata_state(&state.metadata),
        limiter_pending: state.limiter_pending.clone(),
        ..Renderer714::new()
    }
}

pub fn metadata_state(state: &Metadata) -> MetadataRendererState {
    MetadataRendererState {
        initialized: state.initialized,
        payload_stream_sample: state.payload_stream_sample,
        object_count: state.object_count,
        bed_or_isf_objects: state.bed_or_isf_objects,
        bed_channels: state
            .bed_channels
            .iter()
            .copied()
            .map(bed_channel)
            .collect(),
        bed_sources: state
            .bed_sources
            .iter()
            .map(|&gain| BedSourceState { gain })
            .collect(),
        elements: state.elements.iter().map(element_state).collect(),
        dynamic_sources: state.dynamic_sources.iter().map(source_state).collect(),
    }
}

fn element_state(element: &Element) -> ElementRendererState {
    ElementRendererState {
        min_offset: element.min_offset,
        block_used: element.block_used.clone(),
        update_last: element.update_last.clone(),
        update_now: element.update_now.clone(),
        block_offsets: element.block_offsets.clone(),
        ramp_duration: element.ramp_duration.clone(),
        info_blocks: element
            .info_blocks
            .iter()
            .map(|blocks| blocks.iter().map(info_state).collect())
            .collect(),
        future: element.future.iter().copied().map(vec3).collect(),
        future_distance: element.future_distance,
    }
}

pub fn metadata(state: &MetadataRendererState) -> Metadata {
    Metadata {
        initialized: state.initialized,
        payload_stream_sample: state.payload_stream_sample,
        object_count: state.object_count,
        bed_or_isf_objects: state.bed_or_isf_objects,
        bed_channels: state.bed_channels.iter().copied().map(bed_code).collect(),
        bed_sources: state.bed_sources.iter().map(|source| source.gain).collect(),
        elements: state.elements.iter().map(element).collect(),
        dynamic_sources: state.dynamic_sources.iter().map(source).collect(),
    }
}

fn element(state: &ElementRendererState) -> Element {
    Element {
        min_offset: state.min_offset,
        block_used: state.block_used.clone(),
        update_last: state.update_last.clone(),
        update_now: state.update_now.clone(),
        block_offsets: state.block_offsets.clone(),
        ramp_duration: state.ramp_duration.clone(),
        info_blocks: state
            .info_blocks
            .iter()
            .map(|blocks| blocks.iter().map(info).collect())
            .collect(),
        future: state.future.iter().copied().map(vector).collect(),
        future_distance: state.future_distance,
    }
}

pub fn info(state: &ObjectInfoBlockState) -> Info {
    Info {
        valid_position: state.valid_position,
        differential_position: state.differential_position,
        gain: state.gain,
        distance: state.distance,
        size: state.size,
        screen_factor: state.screen_factor,
        depth_factor: state.depth_factor,
        anchor: anchor(state.anchor),
        position: vector(state.position),
        last_precise: vector(state.last_precise),
        send: send_of!(state),
    }
}

pub fn info_state(info: &Info) -> ObjectInfoBlockState {
    with_send!(
        info.send,
        ObjectInfoBlockState {
            valid_position: info.valid_position,
            differential_position: info.differential_position,
            gain: info.gain,
            distance: info.distance,
            size: info.size,
            screen_factor: info.screen_factor,
            depth_factor: info.depth_factor,
            anchor: object_anchor(info.anchor),
            position: vec3(info.position),
            last_precise: vec3(info.last_precise),
        }
    )
}

pub fn source(state: &DynamicSourceState) -> Source {
    Source {
        gain: state.gain,
        size: state.size,
        cubical_position: vector(state.cubical_position),
        position_valid: state.position_valid,
        send: send_of!(state),
        wanted: marks_of!(state)[0],
        held: marks_of!(state)[1],
    }
}

pub fn source_state(source: &Source) -> DynamicSourceState {
    with_send_and_marks!(
        source,
        DynamicSourceState {
            gain: source.gain,
            size: source.size,
            cubical_position: vec3(source.cubical_position),
            position_valid: source.position_valid,
        }
    )
}

pub fn lowpass(f: &BiquadLowpassState) -> [f32; 9] {
    [f.a1, f.a2, f.b0, f.b1, f.b2, f.x1, f.x2, f.y1, f.y2]
}

pub fn lowpass_state([a1, a2, b0, b1, b2, x1, x2, y1, y2]: [f32; 9]) -> BiquadLowpassState {
    BiquadLowpassState {
        a1,
        a2,
        b0,
        b1,
        b2,
        x1,
        x2,
        y1,
        y2,
    }
}
