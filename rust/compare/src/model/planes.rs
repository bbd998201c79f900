//! R-10's planes, read from document 02: "channel after channel, write first the least significant
//! byte of every sample, channel by channel, then the next byte of each, to the most significant".
//! The samples are words here; the Rattle code knows bytes only.

const CHANNELS: usize = 12;

/// The samples of twelve channels, each as the word of its bits.
pub fn channels(sound: &[u8], samples: usize) -> Vec<Vec<u32>> {
    let mut words = sound.as_chunks().0.iter().copied().map(u32::from_le_bytes);
    let mut channel = || words.by_ref().take(samples).collect();
    (0..CHANNELS).map(|_| channel()).collect()
}

/// The planes of such samples.
pub fn planes(channels: &[Vec<u32>]) -> Vec<u8> {
    let mut planes = Vec::new();
    for significance in 0..4 {
        for channel in channels {
            for sample in channel {
                planes.push((sample >> (8 * significance)) as u8);
            }
        }
    }
    planes
}

/// The samples whose planes these are.
pub fn samples(planes: &[u8], samples: usize) -> Vec<Vec<u32>> {
    let mut channels = vec![vec![0; samples]; CHANNELS];
    let mut bytes = planes.iter();
    for significance in 0..4 {
        for sample in channels.iter_mut().flatten() {
            *sample |= u32::from(*bytes.next().unwrap()) << (8 * significance);
        }
    }
    channels
}

/// As they lie in memory.
pub fn sound(channels: &[Vec<u32>]) -> Vec<u8> {
    let samples = channels.iter().flatten();
    samples.flat_map(|sample| sample.to_le_bytes()).collect()
}

/// The refusal of lengths and a count, 0 where there is none: "22 for N above 1,536, 23 for a source
/// not of the exact length or a destination too short, in that order".
pub fn refusal(source: usize, samples: u32, dest: usize) -> u32 {
    let exact = 48 * samples as usize;
    match () {
        () if samples > 1_536 => 22,
        () if source != exact || dest < exact => 23,
        () => 0,
    }
}
