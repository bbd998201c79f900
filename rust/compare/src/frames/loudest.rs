//! The loudest frame that passes.

use oracle::frame::{Block, Element, Frame, Object, Update};

/// An element whose objects are set at once: its block is due at timecode 0, behind a first one that
/// is due much later.
pub fn set(objects: Vec<Object>) -> Element {
    let blocks = [1_048_576, -1].map(|offset| Block { offset, ramp: 0 });
    let both = |object: Object| vec![Object::default(), object];
    Element {
        blocks: blocks.to_vec(),
        objects: objects.into_iter().map(both).collect(),
    }
}

/// 16 objects of gain 8 and send 1 beside 18 beds of bass of gain 8, each channel with these samples:
/// at 16 refusal 8 lets nothing louder pass.
pub fn loudest_frame(rate: u32, channel: &[f32]) -> Frame {
    let beds: Vec<u8> = [3, 17].repeat(9);
    let object = Object {
        position_valid: true,
        position: Some([0.5; 3]),
        gain: Some(8.0),
        size: Some(1.0),
        send: 1.0,
        ..Object::default()
    };
    Frame {
        rate,
        samples: channel.len(),
        pcm: channel.repeat(34),
        objects: 16,
        updates: vec![Update {
            offset: 0,
            objects: 32,
            bed_or_isf_objects: 16,
            beds: beds.clone(),
            elements: vec![set(vec![object; 32])],
        }],
        beds,
    }
}
