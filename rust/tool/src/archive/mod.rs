// SPDX-License-Identifier: Apache-2.0
//! The show archive: what was rendered, as planes, which a general compressor makes smaller than the samples.
//!
//! Numbers are u32, little-endian: `HALLSHOW`, the version, the rate, and in version 2 the code of the layout, which in
//! version 1 is 7.1.4; then frames, each a count N from 1 to 1,536 and the 48 x N bytes of its planes, where a channel
//! that the layout lacks is zero; behind the last one a count of 0, and no more. A 7.1.4 show is written in version 1.
mod read;
mod write;

pub use read::Reader;
pub use write::Writer;

use crate::wave::Format;
use voqlisna::Speaker;

const MAGIC: [u8; 8] = *b"HALLSHOW";
/// Without a layout's code, and with it.
const PLAIN: u32 = 1;
const WITH_LAYOUT: u32 = 2;
/// Bytes of the plain head.
const HEAD: usize = 16;

/// Samples of a frame, at most.
pub const MOST: usize = 1_536;
/// Bytes of a sample on twelve channels.
pub const ROW: usize = 4 * Speaker::ALL.len();

/// Sample after sample of a layout's channels to twelve channels one after the other, as bytes. What the layout lacks
/// is zero.
pub fn by_channel(rows: &[u8], format: Format, sound: &mut [u8]) {
    let bytes = 4 * (rows.len() / format.row());
    sound.fill(0);
    for (k, speaker) in format.layout.speakers().iter().enumerate() {
        let channel = &mut sound[speaker.channel() * bytes..][..bytes];
        let rows = rows.chunks_exact(format.row());
        for (place, row) in channel.chunks_exact_mut(4).zip(rows) {
            place.copy_from_slice(&row[4 * k..4 * k + 4]);
        }
    }
}

/// And back.
pub fn by_sample(sound: &[u8], format: Format, rows: &mut [u8]) {
    let bytes = 4 * (sound.len() / ROW);
    for (k, speaker) in format.layout.speakers().iter().enumerate() {
        let channel = &sound[speaker.channel() * bytes..][..bytes];
        let rows = rows.chunks_exact_mut(format.row());
        for (word, row) in channel.chunks_exact(4).zip(rows) {
            row[4 * k..4 * k + 4].copy_from_slice(word);
        }
    }
}

#[cfg(test)]
mod tests {
    use super::*;
    use crate::wave::Sample;
    use voqlisna::{Layout, Speaker};

    #[test]
    fn channels_are_brought_apart_and_together() {
        for (layout, samples) in Layout::ALL
            .into_iter()
            .flat_map(|l| [0, 1, 2, 3].map(|n| (l, n)))
        {
            let format = Format {
                rate: 48_000,
                layout,
                sample: Sample::Float,
            };
            let row = format.row();
            let rows: Vec<u8> = (0..row * samples).map(|i| i as u8 | 1).collect();
            let (mut sound, mut back) = (vec![7; ROW * samples], vec![0; rows.len()]);
            by_channel(&rows, format, &mut sound);
            let speakers = layout.speakers();
            for (k, word) in sound.chunks(4).enumerate() {
                let (channel, sample) = (k / samples, k % samples);
                let place = speakers.iter().position(|s| s.channel() == channel);
                let wanted = place.map(|place| &rows[row * sample + 4 * place..][..4]);
                assert_eq!(
                    word,
                    wanted.unwrap_or(&[0; 4]),
                    "{layout}: {}",
                    Speaker::ALL[channel]
                );
            }
            by_sample(&sound, format, &mut back);
            assert_eq!(back, rows);
        }
    }
}
