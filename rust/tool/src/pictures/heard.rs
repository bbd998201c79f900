// SPDX-License-Identifier: Apache-2.0
//! One channel through a new renderer.
use super::Unheard;
use voqlisna::{
    Bed, Block, Frame, Metadata, MetadataWriter, Object, Output, Pcm, Rate, Renderer, Room,
    Speaker, Stride, Update,
};

/// Samples before the gain or place that was asked for holds: the first slot is as a new renderer has it.
pub const LEAD: usize = 64;

/// What a speaker gives of a bed at gain 1, `LEAD` samples of silence before it.
pub fn bed(
    mut renderer: Renderer,
    rate: Rate,
    bed: Bed,
    from: Speaker,
    samples: &[f32],
) -> Result<Vec<f32>, Unheard> {
    let beds = [bed];
    let mut memory = [0; MetadataWriter::bytes_for(1, &[1])];
    let mut writer = MetadataWriter::new(&mut memory);
    writer
        .update(Update {
            at: 0,
            objects: 1,
            fixed: 1,
            beds: &beds,
        })?
        .element(&[Block::default()], |_, _| Object::KEEP.gain(1.0))?;
    let mut fed = vec![0.0; LEAD];
    fed.extend_from_slice(samples);
    let (mut out, mut heard) = (Output::new(Stride::MAX), Vec::new());
    for (k, part) in fed.chunks(Stride::MAX.samples()).enumerate() {
        let metadata = if k == 0 {
            writer.metadata()
        } else {
            Metadata::NONE
        };
        let frame = Frame::new(rate, &beds, Pcm::packed(part, 1)?, metadata)?;
        heard.extend_from_slice(renderer.push(&frame, &mut out)?.channel(from));
    }
    if let Some(rest) = renderer.flush(&mut out) {
        heard.extend_from_slice(rest.channel(from));
    }
    heard.drain(..LEAD);
    Ok(heard)
}

/// What the low-pass gives where all that may be fed to it is: 16 objects sent and 18 beds of bass at gain 8, each
/// with these samples. Behind `LEAD` samples of silence the output goes block by block, over the gain that the limiter
/// answers.
pub fn low_pass(mut renderer: Renderer, rate: Rate, samples: &[f32]) -> Result<Vec<f64>, Unheard> {
    let beds = [[Bed::Bass, Bed::Bass2]; 9];
    let mut memory = [0; MetadataWriter::bytes_for(32, &[1])];
    let mut writer = MetadataWriter::new(&mut memory);
    writer
        .update(Update {
            at: 0,
            objects: 32,
            fixed: 16,
            beds: beds.as_flattened(),
        })?
        .element(&[Block::default()], |_, _| {
            Object::at(Room::CENTER).gain(8.0).send(1.0)
        })?;
    let mut metadata = writer.finish();
    let mut fed = vec![0.0; LEAD];
    fed.extend_from_slice(samples);
    let (mut out, mut heard) = (Output::new(Stride::MIN), Vec::new());
    for block in fed.chunks(Stride::MIN.samples()) {
        let pcm = block.repeat(34);
        let frame = Frame::new(rate, beds.as_flattened(), Pcm::packed(&pcm, 34)?, metadata)?;
        let sound = renderer.push(&frame, &mut out)?;
        let before = |x: &f32| f64::from(*x) / f64::from(sound.gain());
        heard.extend(sound.channel(Speaker::Bass).iter().map(before));
        metadata = Metadata::NONE;
    }
    heard.drain(..LEAD);
    Ok(heard)
}

/// What each speaker gives of an object of gain 1 at a place.
pub struct Placed {
    renderer: Renderer,
    out: Output,
    memory: Vec<u8>,
    pub squares: Squares,
}

/// Of all places asked for: how many they are, and the least and the greatest sum of squares.
pub struct Squares {
    pub places: u64,
    pub least: f64,
    pub most: f64,
}

impl Squares {
    fn add(&mut self, levels: &[f32; 12]) {
        let sum = levels.iter().map(|x| f64::from(*x).powi(2)).sum();
        (self.least, self.most) = (self.least.min(sum), self.most.max(sum));
        self.places += 1;
    }
}

impl Placed {
    pub fn new(renderer: Renderer) -> Result<Self, Unheard> {
        let stride = Stride::for_frames_of(2 * LEAD as u32).unwrap_or(Stride::MAX);
        Ok(Self {
            renderer,
            out: Output::new(stride),
            memory: vec![0; MetadataWriter::bytes_for(1, &[1])],
            squares: Squares {
                places: 0,
                least: f64::MAX,
                most: 0.0,
            },
        })
    }

    /// A push of two slots of 1.0: the second is panned at the place, and the limiter lets 1 pass. Nothing comes from
    /// a speaker that the layout lacks.
    pub fn at(&mut self, place: Room) -> Result<[f32; 12], Unheard> {
        let mut writer = MetadataWriter::new(&mut self.memory);
        writer
            .update(Update {
                at: 0,
                objects: 1,
                fixed: 0,
                beds: &[],
            })?
            .element(&[Block::default()], |_, _| Object::at(place).gain(1.0))?;
        let pcm = [1.0; 2 * LEAD];
        let frame = Frame::new(Rate::HZ_48000, &[], Pcm::packed(&pcm, 1)?, writer.finish())?;
        self.renderer.reset();
        let sound = self.renderer.push(&frame, &mut self.out)?;
        let levels = Speaker::ALL.map(|s| sound.channel(s).get(LEAD).copied().unwrap_or(0.0));
        self.squares.add(&levels);
        Ok(levels)
    }
}
