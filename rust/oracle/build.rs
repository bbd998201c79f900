//! Copies the three Rust sources to OUT_DIR, unchanged but for the substitutions below: those of
//! the nearest values to `unchanged`, these and those of document 02 to `amended`. They are
//! looked for under VOQLISNA_RUST_SRC, or `../shared/docs/src` where that is not set, a path from
//! the project's root; where they are not there the crate is built with the cfg `no_sources`.

use std::path::{Path, PathBuf};
use std::{env, fs};

const SOURCES: [&str; 3] = ["types.rs", "render_input.rs", "render.rs"];

/// A text that a source has exactly once unless said otherwise, and what stands in its place.
type Substitution = (&'static str, &'static str);

/// Calls of the machine's libm, each with the nearest value in its place (docs/DIFFERENCES.md).
const NEAREST: [Substitution; 3] = [
    (
        "position.y.powf(depth_factor)",
        "crate::exact::depth_power(position.y, depth_factor)",
    ),
    ("w0.cos()", "crate::exact::cos(w0)"),
    ("w0.sin()", "crate::exact::sin(w0)"),
];

/// Document 02's R-1: an element that would be kept takes the way of one whose block count has
/// changed where the dynamic objects of the update are not as many as the state's.
const LIFTED: [Substitution; 4] = [
    (
        "        self.object_count = metadata.object_count;",
        "        let last = self.object_count.saturating_sub(self.bed_or_isf_objects);
        let lifted = last != metadata.dynamic_object_count();
        self.object_count = metadata.object_count;",
    ),
    (
        "                metadata.bed_or_isf_objects,\n            );",
        "                metadata.bed_or_isf_objects,\n                lifted,\n            );",
    ),
    (
        "        bed_or_isf_objects: usize,\n    ) {",
        "        bed_or_isf_objects: usize,\n        lifted: bool,\n    ) {",
    ),
    (
        "if self.block_used.len() != block_count ||",
        "if lifted || self.block_used.len() != block_count ||",
    ),
];

/// Document 02's R-3: a record and a stored block have a send, a source starts at send 0 and takes it
/// from each block that is applied, and behind the beds each object adds sample × (gain × send) to
/// the bass feed. A slot's debug row tells the send.
const SENT: [Substitution; 11] = [
    (
        "struct DynamicSourceState {",
        "struct DynamicSourceState {\n    send: f32,",
    ),
    (
        "            gain: 0.707,\n            size: 0.0,",
        "            send: 0.0,\n            gain: 0.707,\n            size: 0.0,",
    ),
    (
        "let source = DynamicSourceState {",
        "let source = DynamicSourceState {\n        send: 0.0,",
    ),
    (
        "struct ObjectInfoBlockState {",
        "struct ObjectInfoBlockState {\n    send: f32,",
    ),
    (
        "            screen_factor: 1.0,",
        "            send: 0.0,\n            screen_factor: 1.0,",
    ),
    (
        "        self.gain = parsed.gain;",
        "        self.gain = parsed.gain;\n        self.send = parsed.send;",
    ),
    (
        "        if let Some(size) = self.size {",
        "        source.send = self.send;\n        if let Some(size) = self.size {",
    ),
    (
        "                    source,\n                );",
        "                    source,\n                );
                let bass = &mut channels[RENDER_714_LFE_INDEX][sample_offset..sample_end];
                for (sum, sample) in bass.iter_mut().zip(&object_samples[sample_offset..]) {
                    *sum += sample * (source.gain * source.send);
                }",
    ),
    (
        "pub struct Render714SourceDebug {",
        "pub struct Render714SourceDebug {\n    pub send: f32,",
    ),
    (
        "                object_index,\n",
        "                object_index,\n                send: 0.0,\n",
    ),
    (
        "                object_index: self.metadata.bed_sources.len() + dynamic_index,",
        "                object_index: self.metadata.bed_sources.len() + dynamic_index,
                send: source.send,",
    ),
];

/// R-3 in render_input.rs.
const SENT_INPUT: [Substitution; 1] = [(
    "pub struct RenderMetadataObject {",
    "pub struct RenderMetadataObject {\n    pub send: f32,",
)];

/// Document 02's R-11: of a source a hold is wanted, and in effect. While it is wanted no ramp and no
/// block moves the source; in the slot that releases it, where no ramp is left, it goes to its
/// target; what a slot leaves wanted is then in effect.
const HELD: [Substitution; 7] = [
    (
        "    cubical_position: Vec3,",
        "    wanted: bool,\n    held: bool,\n    cubical_position: Vec3,",
    ),
    (
        "            cubical_position: ZERO_VEC3,",
        "            wanted: false,\n            held: false,\n            cubical_position: ZERO_VEC3,",
    ),
    (
        "        cubical_position: bed_channel_position(channel),",
        "        wanted: false,\n        held: false,
        cubical_position: bed_channel_position(channel),",
    ),
    (
        "source.cubical_position = self.future[dynamic_index];",
        "if !source.wanted {
                        source.cubical_position = self.future[dynamic_index];
                    }",
    ),
    (
        "if self.update_last[dynamic_index] && source.position_valid {",
        "if source.wanted {
                            source.cubical_position
                        } else if self.update_last[dynamic_index] && source.position_valid {",
    ),
    (
        "        if self.future_distance > 0 {",
        "        if self.future_distance <= 0 {
            for (dynamic_index, source) in dynamic_sources.iter_mut().enumerate() {
                if self.update_now[dynamic_index] && source.held && !source.wanted {
                    source.cubical_position = self.future[dynamic_index];
                }
            }
        }
        if self.future_distance > 0 {",
    ),
    (
        "                &mut self.dynamic_sources,\n            );\n        }",
        "                &mut self.dynamic_sources,\n            );\n        }
        for source in &mut self.dynamic_sources {
            source.held = source.wanted;
        }",
    ),
];

/// Document 02's, the texts that occur once: a renderer has a hall, and hands it to the
/// functions that mix. Corners and the size term are over the hall's speakers, the divisor is the
/// number of its channels, a bed whose speaker is absent is folded, and a channel that is absent
/// has no samples.
const HALL: [Substitution; 19] = [
    (
        "pub struct Renderer714 {",
        "pub struct Renderer714 {\n    hall: crate::Hall,",
    ),
    (
        "            limiter_pending: vec![Vec::new(); RENDER_714_CHANNELS],",
        "            hall: crate::Hall::built_in(),
            limiter_pending: vec![Vec::new(); RENDER_714_CHANNELS],",
    ),
    (
        "        prepare_render_channels(channels, samples);",
        "        prepare_render_channels(channels, samples);\n        self.hall.leave_out(channels);",
    ),
    (
        "mix_bed_objects_segment_to_714(\n                frame.bed_channels",
        "mix_bed_objects_segment_to_714(\n                &self.hall,\n                frame.bed_channels",
    ),
    (
        "mix_bed_objects_segment_to_714(\n        input_bed_channels",
        "mix_bed_objects_segment_to_714(\n        &crate::Hall::built_in(),
        input_bed_channels",
    ),
    (
        "fn mix_bed_objects_segment_to_714(",
        "fn mix_bed_objects_segment_to_714(\n    hall: &crate::Hall,",
    ),
    (
        "=> mix_folded_bed_channel_to_714(",
        "=> mix_folded_bed_channel_to_714(\n                hall,",
    ),
    (
        "            _ => {\n                let output_channel",
        "            _ if map_bed_channel_to_714(bed_channel).is_some_and(|c| !hall.has(c)) => {
                mix_folded_bed_channel_to_714(
                    hall,
                    input_samples,
                    output,
                    output_offset,
                    bed_channel,
                    source.gain,
                )
            }
            _ => {\n                let output_channel",
    ),
    (
        "fn mix_folded_bed_channel_to_714(",
        "fn mix_folded_bed_channel_to_714(\n    hall: &crate::Hall,",
    ),
    (
        "render_object_timeslot_to_714(input,",
        "render_object_timeslot_to_714(hall, input,",
    ),
    (
        "render_object_timeslot_to_714(\n                    &object_samples",
        "render_object_timeslot_to_714(\n                    &self.hall,
                    &object_samples",
    ),
    (
        "fn render_object_timeslot_to_714(",
        "fn render_object_timeslot_to_714(\n    hall: &crate::Hall,",
    ),
    (
        "    let direction = source.cubical_position;",
        "    let positions = &hall.table.map(convert::vec3);
    let direction = source.cubical_position;",
    ),
    (
        "size / RENDER_714_CHANNELS as f32",
        "size / hall.channels() as f32",
    ),
    (
        "if channel_index != RENDER_714_LFE_INDEX {",
        "if hall.pans(channel_index) {",
    ),
    (
        "fn assign_lr(",
        "fn assign_lr(\n    positions: &[Vec3; RENDER_714_CHANNELS],",
    ),
    (
        "let remainder = pending.split_off(ready_samples);",
        "let absent = pending.is_empty();
            let remainder = pending.split_off(if absent { 0 } else { ready_samples });",
    ),
    (
        "for channel in channels.iter() {\n        max",
        "for channel in channels.iter().filter(|c| !c.is_empty()) {\n        max",
    ),
    (
        "for channel in channels.iter_mut() {\n            scale",
        "for channel in channels.iter_mut().filter(|c| !c.is_empty()) {\n            scale",
    ),
];

/// The texts of the same that occur more than once, and how often: the built-in table's places, its
/// channels that are passed over, and the calls that are handed the positions.
const HALL_PLACES: [(usize, Substitution); 4] = [
    (16, ("RENDER_714_CHANNEL_POSITIONS[", "positions[")),
    (
        2,
        (
            "in RENDER_714_CHANNEL_POSITIONS.iter()",
            "in positions.iter()",
        ),
    ),
    (
        2,
        (
            "if channel_index == RENDER_714_LFE_INDEX {",
            "if !hall.pans(channel_index) {",
        ),
    ),
    (
        4,
        (
            "assign_lr(\n                    channel_index,",
            "assign_lr(\n                    positions,\n                    channel_index,",
        ),
    ),
];

fn main() {
    println!("cargo::rustc-check-cfg=cfg(no_sources)");
    println!("cargo::rerun-if-env-changed=VOQLISNA_RUST_SRC");
    let root = PathBuf::from(env::var("CARGO_MANIFEST_DIR").unwrap()).join("../..");
    let folder = env::var_os("VOQLISNA_RUST_SRC").unwrap_or("../shared/docs/src".into());
    let folder = root.join(folder);
    println!("cargo::rerun-if-changed={}", folder.display());
    let found = SOURCES.map(|name| find(&folder, name));
    if found.iter().all(Vec::is_empty) {
        println!("cargo::warning=no Rust sources under {}", folder.display());
        println!("cargo::rustc-cfg=no_sources");
        println!("cargo::metadata=no_sources=1");
        return;
    }
    let out = PathBuf::from(env::var("OUT_DIR").unwrap());
    let copies = ["unchanged", "amended"].map(|name| out.join(name));
    copies
        .iter()
        .for_each(|copy| fs::create_dir_all(copy).unwrap());
    for (name, paths) in SOURCES.iter().zip(&found) {
        let [path] = paths.as_slice() else {
            panic!(
                "{name} is to be found once under {}: {paths:?}",
                folder.display()
            );
        };
        println!("cargo::rerun-if-changed={}", path.display());
        let text = fs::read_to_string(path).unwrap();
        let unchanged = match *name {
            "render.rs" => substituted(name, text, &NEAREST),
            _ => text,
        };
        let amended = match *name {
            "render.rs" => {
                let lifted = substituted(name, unchanged.clone(), &LIFTED);
                let sent = substituted(name, lifted, &SENT);
                let held = substituted(name, sent, &HELD);
                let hall = substituted(name, held, &HALL);
                HALL_PLACES.iter().fold(hall, |text, &(times, pair)| {
                    replaced(name, text, times, pair)
                })
            }
            "render_input.rs" => substituted(name, unchanged.clone(), &SENT_INPUT),
            _ => unchanged.clone(),
        };
        for (copy, text) in copies.iter().zip([unchanged, amended]) {
            fs::write(copy.join(name), text).unwrap();
        }
    }
}

/// The files of that name under `folder`.
fn find(folder: &Path, name: &str) -> Vec<PathBuf> {
    let Ok(entries) = fs::read_dir(folder) else {
        return Vec::new();
    };
    let mut found = Vec::new();
    for path in entries.map(|entry| entry.unwrap().path()) {
        if path.is_dir() {
            found.extend(find(&path, name));
        } else if path.file_name().is_some_and(|n| n == name) {
            found.push(path);
        }
    }
    found
}

fn substituted(name: &str, text: String, substitutions: &[Substitution]) -> String {
    substitutions
        .iter()
        .fold(text, |text, &pair| replaced(name, text, 1, pair))
}

fn replaced(name: &str, text: String, times: usize, (from, to): Substitution) -> String {
    let count = text.matches(from).count();
    assert_eq!(
        count, times,
        "{name} has `{from}` {count} times, not {times}"
    );
    text.replace(from, to)
}
