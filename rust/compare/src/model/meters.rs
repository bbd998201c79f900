// SPDX-License-Identifier: Apache-2.0
//! Document 02's R-2, read apart from the Rattle code: the limiter's rule (document 01, item 6) over
//! the blocks as it meets them, and what a call hands on of them.

/// "the greatest peak and the least gain of the call"
#[derive(Clone, Copy, Debug, PartialEq)]
pub struct Meters {
    pub peak: f32,
    pub gain: f32,
}

/// A block that was given out: "its peak before scaling and the gain that was used".
#[derive(Clone, Copy, Debug)]
struct Block {
    peak: f32,
    gain: f32,
}

impl Meters {
    /// "with no other, or with no block ready, they are 0 and 1"
    pub const NONE: Self = Meters {
        peak: 0.0,
        gain: 1.0,
    };

    /// No peak is NaN, and the order of sizes is that of their bits. "A NaN from a handed-in block
    /// is passed over"; of equal gains (the two zeros) the first is the least.
    fn of(blocks: &[Block]) -> Self {
        let peak = blocks.iter().map(|block| block.peak.to_bits()).max();
        let gains = blocks
            .iter()
            .map(|block| block.gain)
            .filter(|x| !x.is_nan());
        let least = gains.min_by(|a, b| a.partial_cmp(b).unwrap());
        Meters {
            peak: peak.map_or(Self::NONE.peak, f32::from_bits),
            gain: least.unwrap_or(Self::NONE.gain),
        }
    }
}

/// What the limiter makes of twelve channels, in blocks of 64 and a shorter last one. One that the
/// layout lacks has no samples.
pub struct Limited {
    pub meters: Meters,
    pub channels: Vec<Vec<f32>>,
    /// The gain that it leaves.
    pub next: f32,
}

impl Limited {
    pub fn of(mut channels: Vec<Vec<f32>>, gain: f32, rate: u32) -> Self {
        let (samples, mut next, mut blocks) = (channels[0].len(), gain, Vec::new());
        for start in (0..samples).step_by(64) {
            let block = start..samples.min(start + 64);
            let of_block = channels
                .iter()
                .filter_map(|channel| channel.get(block.clone()));
            let peak = peak(of_block);
            // "if p × g > 1, g becomes 0.9 / p; scale; then g grows by length / rate, at most 1"
            let gain = if peak * next > 1.0 { 0.9 / peak } else { next };
            let of_block = channels.iter_mut().filter_map(|c| c.get_mut(block.clone()));
            of_block.flatten().for_each(|x| *x *= gain);
            let grown = gain + block.len() as f32 / rate as f32;
            next = if grown > 1.0 { 1.0 } else { grown };
            blocks.push(Block { peak, gain });
        }
        Limited {
            meters: Meters::of(&blocks),
            channels,
            next,
        }
    }
}

/// The largest size of a sample that is no NaN; +0 where there is none.
fn peak<'a>(channels: impl Iterator<Item = &'a [f32]>) -> f32 {
    let sizes = channels.flatten().map(|x| x.abs());
    let bits = sizes.filter(|x| !x.is_nan()).map(f32::to_bits);
    bits.max().map_or(0.0, f32::from_bits)
}
