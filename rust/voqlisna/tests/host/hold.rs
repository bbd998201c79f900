// SPDX-License-Identifier: Apache-2.0
//! Document 02, R-11: objects that are held while they move, by their places in the block.

use crate::raw;
use voqlisna::*;

/// Two objects in frames of 64 samples: in the first, object 0 is at the left wall and object 1 at the
/// right one.
struct Rehearsal {
    renderer: Renderer,
    out: Output,
}

const LEFT: Room = Room {
    x: 0.0,
    y: 0.0,
    z: 0.0,
};
const RIGHT: Room = Room { x: 1.0, ..LEFT };

fn metadata(places: &[Room], ramp: i64) -> Vec<u8> {
    let count = places.len();
    let mut memory = vec![0; MetadataWriter::bytes_for(count, &[1])];
    let update = Update {
        at: 0,
        objects: count as u8,
        fixed: 0,
        beds: &[],
    };
    MetadataWriter::new(&mut memory)
        .update(update)
        .unwrap()
        .element(&[Block { offset: 0, ramp }], |o, _| {
            Object::at(places[o]).gain(1.0)
        })
        .unwrap();
    memory
}

impl Rehearsal {
    fn new() -> Self {
        let mut it = Self {
            renderer: Renderer::new(Layout::Hall714).unwrap(),
            out: Output::new(Stride::MIN),
        };
        it.slot(&metadata(&[LEFT, RIGHT], 0), 2);
        it.slots(2);
        assert_eq!((it.x(0), it.x(1)), (-1.0, 1.0));
        it
    }

    /// A frame of 64 samples, which is a slot.
    fn slot(&mut self, metadata: &[u8], objects: usize) {
        let pcm = vec![0.25; 64 * objects];
        let pcm = Pcm::packed(&pcm, objects).unwrap();
        let metadata = Metadata::from_records(metadata);
        let frame = Frame::new(Rate::HZ_48000, &[], pcm, metadata).unwrap();
        assert!(self.renderer.push(&frame, &mut self.out).is_ok());
    }

    fn slots(&mut self, count: usize) {
        (0..count).for_each(|_| self.slot(&[], 2));
    }

    /// Both change sides, in ten slots: from the second slot of this call's ten on.
    fn cross(&mut self) {
        self.slot(&metadata(&[RIGHT, LEFT], 640), 2);
    }

    /// Where an object is panned.
    fn x(&self, object: usize) -> f32 {
        let at = sys::SOURCES_AT + sys::SOURCE_SIZE * object + 8;
        let word = self.renderer.block()[at..at + 4].try_into().unwrap();
        f32::from_le_bytes(word)
    }
}

#[test]
fn a_held_object_stays_and_the_other_goes_on() {
    let (mut it, mut free) = (Rehearsal::new(), Rehearsal::new());
    it.cross();
    free.cross();
    it.slots(3);
    free.slots(3);
    let held = it.x(0);
    assert!(-1.0 < held && held < 0.0);
    it.renderer.hold(0).unwrap();
    assert_eq!(it.x(0), held, "nothing moves before the next slot");
    for _ in 0..12 {
        it.slots(1);
        free.slots(1);
        assert_eq!((it.x(0), it.x(1)), (held, free.x(1)));
        assert!(free.x(0) > held);
    }
    assert_eq!((free.x(0), it.x(1)), (1.0, -1.0));
}

/// "an unfinished ramp goes on from the held position with what remains": it ends when it would have.
#[test]
fn released_it_goes_on_with_what_is_left() {
    let (mut it, mut free) = (Rehearsal::new(), Rehearsal::new());
    it.cross();
    free.cross();
    it.slots(3);
    free.slots(3);
    let held = it.x(0);
    it.renderer.hold(0).unwrap();
    it.slots(3);
    free.slots(3);
    it.renderer.release(0).unwrap();
    assert_eq!(it.x(0), held);
    while free.x(0) < 1.0 {
        let before = it.x(0);
        it.slots(1);
        free.slots(1);
        assert!(it.x(0) > before && it.x(0) <= free.x(0));
        assert_eq!(it.x(0) < 1.0, free.x(0) < 1.0, "both arrive in one slot");
    }
}

/// "a finished one puts the object at its target"
#[test]
fn released_behind_its_ramp_it_jumps() {
    let mut it = Rehearsal::new();
    it.cross();
    it.slots(3);
    let held = it.x(0);
    it.renderer.hold(0).unwrap();
    it.slots(20);
    assert_eq!(it.x(0), held);
    it.renderer.release(0).unwrap();
    it.slots(1);
    assert_eq!(it.x(0), 1.0);
}

/// "Of a hold and a release before the same slot, the later undoes the earlier. A second hold, or a
/// release without one, changes nothing."
#[test]
fn the_later_undoes_the_earlier_and_a_second_changes_nothing() {
    let (mut it, mut free) = (Rehearsal::new(), Rehearsal::new());
    it.cross();
    free.cross();
    let kept = it.renderer.block().to_vec();
    it.renderer.release(0).unwrap();
    assert!(it.renderer.block() == kept);
    it.renderer.hold(0).unwrap();
    let held = it.renderer.block().to_vec();
    assert!(held != kept && it.renderer.is_held(0) && !it.renderer.is_held(1));
    it.renderer.hold(0).unwrap();
    assert!(it.renderer.block() == held);
    it.renderer.release(0).unwrap();
    assert!(it.renderer.block() == kept);
    it.slots(2);
    free.slots(2);
    assert!(it.renderer.block() == free.renderer.block());
    // And the other way: still held, without a jump.
    it.renderer.hold(0).unwrap();
    it.slots(1);
    let (place, held) = (it.x(0), it.renderer.block().to_vec());
    it.renderer.release(0).unwrap();
    it.renderer.hold(0).unwrap();
    assert!(it.renderer.block() == held);
    it.slots(5);
    assert_eq!(it.x(0), place);
}

/// "A change in the number of objects, and reset, end all holds, also those not yet in effect."
#[test]
fn another_number_of_objects_and_reset_end_all_holds() {
    for wait in [0, 2] {
        let mut it = Rehearsal::new();
        it.renderer.hold(0).unwrap();
        it.renderer.hold(1).unwrap();
        it.slots(wait);
        // As many objects: both stay held.
        it.slot(&metadata(&[RIGHT, LEFT], 0), 2);
        assert!(it.renderer.is_held(0) && it.renderer.is_held(1));
        it.slot(&metadata(&[RIGHT], 0), 1);
        assert!(!it.renderer.is_held(0) && !it.renderer.is_held(1));
        it.slot(&[], 1);
        assert_eq!(it.x(0), 1.0);
        assert_eq!(it.renderer.hold(1), Err(Refusal::ObjectNumber));

        let mut it = Rehearsal::new();
        it.renderer.hold(1).unwrap();
        it.slots(wait);
        it.renderer.reset();
        assert!(it.renderer.block() == raw::fresh(Layout::Hall714));
        assert_eq!(it.renderer.hold(1), Err(Refusal::ObjectNumber));
    }
}

/// "Refused: 24, an object number not below the last applied update's count, 0 without one."
#[test]
fn a_number_that_is_not_below_the_count_is_24() {
    let mut fresh = Renderer::new(Layout::Hall510).unwrap();
    let before = fresh.block().to_vec();
    for object in [0, 1, 15, 16, u32::MAX] {
        assert_eq!(fresh.hold(object), Err(Refusal::ObjectNumber));
        assert_eq!(fresh.release(object), Err(Refusal::ObjectNumber));
        assert!(!fresh.is_held(object));
    }
    assert!(fresh.block() == before);
    let mut it = Rehearsal::new();
    for object in 0..40 {
        let before = it.renderer.block().to_vec();
        let wanted = if object < 2 {
            Ok(())
        } else {
            Err(Refusal::ObjectNumber)
        };
        assert_eq!(it.renderer.hold(object), wanted);
        assert_eq!(it.renderer.block() != before, object < 2);
        assert_eq!(it.renderer.is_held(object), object < 2);
    }
    let mut short = vec![0; sys::STATE_SIZE - 1];
    let mut damaged = it.renderer.block().to_vec();
    damaged[sys::SOURCES_AT + 20] = 8;
    for block in [&mut short, &mut damaged] {
        let before = block.clone();
        for answer in [raw::hold(block, 77), raw::release(block, 0)] {
            assert_eq!(Refusal::from_answer(answer), Some(Refusal::Memory));
        }
        assert!(*block == before);
    }
}
