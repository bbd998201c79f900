// SPDX-License-Identifier: Apache-2.0
//! Samples of a layout's channels in 24 bits, through the library's two calls, which take all twelve.
use crate::wave::Format;
use std::io;
use voqlisna::{Layout, Rendered, Speaker, read_24};

/// Bytes of a sample on all twelve channels.
const ROW: usize = 3 * Speaker::ALL.len();

/// Puts what is ready behind `to`: three bytes for each channel of the layout.
pub fn put(sound: &Rendered<'_>, to: &mut Vec<u8>) -> io::Result<()> {
    let mut pcm = vec![0; ROW * sound.ready()];
    sound.pcm_24_into(&mut pcm).map_err(io::Error::other)?;
    for row in pcm.chunks(ROW) {
        for speaker in sound.layout().speakers() {
            let at = 3 * speaker.channel();
            to.extend_from_slice(&row[at..at + 3]);
        }
    }
    Ok(())
}

/// The samples of such rows in f32, sample after sample.
pub fn floats(rows: &[u8], layout: Layout) -> io::Result<Vec<u8>> {
    let speakers = layout.speakers();
    let mut pcm = Vec::new();
    for row in rows.chunks(3 * speakers.len()) {
        let mut whole = [0; ROW];
        for (speaker, bytes) in speakers.iter().zip(row.chunks(3)) {
            whole[3 * speaker.channel()..][..3].copy_from_slice(bytes);
        }
        pcm.extend(whole);
    }
    let mut sound = vec![0.0; pcm.len() / 3];
    let count = read_24(&pcm, &mut sound).map_err(io::Error::other)?;
    let place = |i: usize| speakers.iter().map(move |s| s.channel() * count + i);
    let samples = (0..count).flat_map(place).map(|k| sound[k].to_le_bytes());
    Ok(samples.flatten().collect())
}

/// The format of what `floats` makes.
pub fn widened(format: Format) -> Format {
    let sample = crate::wave::Sample::Float;
    Format { sample, ..format }
}
