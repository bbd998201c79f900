// SPDX-License-Identifier: Apache-2.0
// Translated from libstarmine_ad render.rs; changed.

//! The renderer's state as plain values, under the source's names.

use crate::Vector;
use crate::frame::Anchor;

/// `Renderer714`, without its debug rows.
#[derive(Clone, Debug, PartialEq)]
pub struct State {
    pub sample_rate: Option<u32>,
    pub limiter_gain: f32,
    pub stream_sample_offset: i64,
    pub metadata_timeslot_phase: usize,
    pub metadata_timeslot_stream_sample: i64,
    /// a1 a2 b0 b1 b2 x1 x2 y1 y2
    pub lfe_lowpass: Option<[f32; 9]>,
    pub metadata: Metadata,
    pub limiter_pending: Vec<Vec<f32>>,
}

/// `MetadataRendererState`.
#[derive(Clone, Debug, PartialEq)]
pub struct Metadata {
    pub initialized: bool,
    pub payload_stream_sample: i64,
    pub object_count: usize,
    pub bed_or_isf_objects: usize,
    /// Codes of the bed channels.
    pub bed_channels: Vec<u8>,
    /// Gain of each bed source.
    pub bed_sources: Vec<f32>,
    pub elements: Vec<Element>,
    pub dynamic_sources: Vec<Source>,
}

/// `ElementRendererState`.
#[derive(Clone, Debug, PartialEq)]
pub struct Element {
    pub min_offset: i64,
    pub block_used: Vec<bool>,
    pub update_last: Vec<bool>,
    pub update_now: Vec<bool>,
    pub block_offsets: Vec<i64>,
    pub ramp_duration: Vec<i64>,
    /// For each object, one entry a block.
    pub info_blocks: Vec<Vec<Info>>,
    pub future: Vec<Vector>,
    pub future_distance: i64,
}

/// `ObjectInfoBlockState`.
#[derive(Clone, Copy, Debug, PartialEq)]
pub struct Info {
    pub valid_position: bool,
    pub differential_position: bool,
    pub gain: Option<f32>,
    pub distance: Option<f32>,
    pub size: Option<f32>,
    pub screen_factor: f32,
    pub depth_factor: f32,
    pub anchor: Anchor,
    pub position: Vector,
    pub last_precise: Vector,
    /// Of the amended sources; 0 else.
    pub send: f32,
}

/// `DynamicSourceState`.
#[derive(Clone, Copy, Debug, PartialEq)]
pub struct Source {
    pub gain: f32,
    pub size: f32,
    pub cubical_position: Vector,
    pub position_valid: bool,
    /// Of the amended sources; 0 else.
    pub send: f32,
    /// Of the amended sources, false else: a hold is asked for, and in effect (document 02, R-11).
    pub wanted: bool,
    pub held: bool,
}
