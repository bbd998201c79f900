//! Values of the sources from and to those of document 01.

use super::super::render_input::{
    RenderInputChannel, RenderInputFrame, RenderMetadata, RenderMetadataBlockUpdate,
    RenderMetadataElement, RenderMetadataObject, RenderMetadataUpdate,
};
use super::super::types::{BedChannel, ObjectAnchor, Vec3};
use crate::Vector;
use crate::frame::{Anchor, Element, Frame, Object, Update};

/// Document 01, item 3: codes 0 to 17 follow the order of `BedChannel`.
const BED_CHANNELS: [BedChannel; 18] = [
    BedChannel::FrontLeft,
    BedChannel::FrontRight,
    BedChannel::Center,
    BedChannel::LowFrequencyEffects,
    BedChannel::SurroundLeft,
    BedChannel::SurroundRight,
    BedChannel::RearCenter,
    BedChannel::RearLeft,
    BedChannel::RearRight,
    BedChannel::TopFrontLeft,
    BedChannel::TopFrontRight,
    BedChannel::TopSurroundLeft,
    BedChannel::TopSurroundRight,
    BedChannel::TopRearLeft,
    BedChannel::TopRearRight,
    BedChannel::WideLeft,
    BedChannel::WideRight,
    BedChannel::LowFrequencyEffects2,
];

pub fn bed_channel(code: u8) -> BedChannel {
    BED_CHANNELS[usize::from(code)]
}

pub fn bed_code(channel: BedChannel) -> u8 {
    channel as u8
}

pub fn vec3([x, y, z]: Vector) -> Vec3 {
    Vec3 { x, y, z }
}

pub fn vector(v: Vec3) -> Vector {
    [v.x, v.y, v.z]
}

pub fn object_anchor(anchor: Anchor) -> ObjectAnchor {
    match anchor {
        Anchor::Room => ObjectAnchor::Room,
        Anchor::Screen => ObjectAnchor::Screen,
        Anchor::Speaker => ObjectAnchor::Speaker,
    }
}

pub fn anchor(anchor: ObjectAnchor) -> Anchor {
    match anchor {
        ObjectAnchor::Room => Anchor::Room,
        ObjectAnchor::Screen => Anchor::Screen,
        ObjectAnchor::Speaker => Anchor::Speaker,
    }
}

pub fn metadata_object(object: &Object) -> RenderMetadataObject {
    with_send!(
        object.send,
        RenderMetadataObject {
            gain: object.gain,
            anchor: object_anchor(object.anchor),
            position_valid: object.position_valid,
            differential_position: object.differential,
            position: object.position.map(vec3),
            distance: object.distance,
            size: object.size,
            screen_factor: object.screen,
            depth_factor: object.depth,
        }
    )
}

fn metadata_element(element: &Element) -> RenderMetadataElement {
    RenderMetadataElement {
        block_updates: element
            .blocks
            .iter()
            .map(|block| RenderMetadataBlockUpdate {
                offset: block.offset,
                ramp_duration: block.ramp,
            })
            .collect(),
        object_blocks: element
            .objects
            .iter()
            .map(|blocks| blocks.iter().map(metadata_object).collect())
            .collect(),
    }
}

pub fn metadata(update: &Update) -> RenderMetadata {
    RenderMetadata {
        object_count: usize::from(update.objects),
        bed_or_isf_objects: usize::from(update.bed_or_isf_objects),
        bed_channels: update.beds.iter().copied().map(bed_channel).collect(),
        elements: update.elements.iter().map(metadata_element).collect(),
    }
}

pub fn input_frame(frame: &Frame) -> RenderInputFrame {
    let beds = frame.beds.len();
    assert_eq!(frame.pcm.len(), (beds + frame.objects) * frame.samples);
    RenderInputFrame {
        sample_rate: frame.rate,
        bed_channels: (0..beds)
            .map(|bed| RenderInputChannel {
                channel: bed_channel(frame.beds[bed]),
                samples: frame.channel(bed).to_vec(),
            })
            .collect(),
        object_channels: (0..frame.objects)
            .map(|object| frame.channel(beds + object).to_vec())
            .collect(),
        metadata_updates: frame
            .updates
            .iter()
            .map(|update| RenderMetadataUpdate {
                sample_offset: update.offset,
                metadata: metadata(update),
            })
            .collect(),
    }
}
