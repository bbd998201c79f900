//! Updates as records.

use oracle::frame::{Block, Element, Object, Update};
use std::slice;

type Record = [u8; 40];

/// The records of these updates.
pub fn write(updates: &[Update]) -> Vec<u8> {
    updates.iter().flat_map(update).flatten().collect()
}

/// Those of an update so many samples ahead, its own offset unread: kind 9 "is kind 1 with the offset
/// in bytes 28 to 31, unsigned 32-bit, bytes 2 and 3 zero" (document 02, R-12).
pub fn write_ahead(update: &Update, offset: u32) -> Vec<u8> {
    let mut bytes = write(slice::from_ref(update));
    bytes[0] = 9;
    bytes[2..4].fill(0);
    bytes[28..32].copy_from_slice(&offset.to_le_bytes());
    bytes
}

fn update(update: &Update) -> Vec<Record> {
    let mut record = super::record(1);
    record[2..4].copy_from_slice(&update.offset.to_le_bytes());
    record[4] = update.objects;
    record[5] = update.bed_or_isf_objects;
    record[6] = update.beds.len() as u8;
    record[7] = update.elements.len() as u8;
    record[8..][..update.beds.len()].copy_from_slice(&update.beds);
    let elements = update.elements.iter().flat_map(element);
    [record].into_iter().chain(elements).collect()
}

fn element(element: &Element) -> Vec<Record> {
    let mut record = super::record(2);
    record[1] = element.blocks.len() as u8;
    let blocks = element.blocks.iter().map(block);
    let objects = element.objects.iter().flatten().map(object);
    [record].into_iter().chain(blocks).chain(objects).collect()
}

fn block(block: &Block) -> Record {
    let mut record = super::record(3);
    record[8..16].copy_from_slice(&block.offset.to_le_bytes());
    record[16..24].copy_from_slice(&block.ramp.to_le_bytes());
    record
}

fn object(object: &Object) -> Record {
    let mut record = super::record(4);
    record[1] = object.anchor as u8;
    for (flag, place) in object.flags().into_iter().zip(0..) {
        record[2] |= u8::from(flag) << place;
    }
    let [x, y, z] = object.position.unwrap_or_default();
    let floats = [
        object.gain.unwrap_or_default(),
        x,
        y,
        z,
        object.distance.unwrap_or_default(),
        object.size.unwrap_or_default(),
        object.screen,
        object.depth,
        object.send,
    ];
    for (place, float) in record[4..].chunks_exact_mut(4).zip(floats) {
        place.copy_from_slice(&float.to_le_bytes());
    }
    record
}
