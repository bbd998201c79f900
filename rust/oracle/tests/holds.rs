// SPDX-License-Identifier: Apache-2.0
//! Document 02's R-11 in the amended sources: each of its sentences on one object that goes from the
//! middle of the room to its right side in four slots. A push of 64 samples is a slot.

use oracle::amended::Oracle;
use oracle::frame::{Anchor, Block, Element, Frame, Object, Update};
use oracle::{Pushed, leaf};

fn frame(samples: usize, objects: usize, updates: Vec<Update>) -> Frame {
    Frame {
        rate: 48_000,
        samples,
        beds: Vec::new(),
        objects,
        pcm: vec![0.5; objects * samples],
        updates,
    }
}

fn at(x: f32) -> Object {
    Object {
        position_valid: true,
        position: Some([x, 0.5, 0.0]),
        ..Object::default()
    }
}

/// Objects at offset 0, in a block that is due at the slot after this one, `ramp` before its target.
fn update(ramp: i64, objects: &[Object]) -> Update {
    Update {
        objects: objects.len() as u8,
        elements: vec![Element {
            blocks: vec![Block { offset: 0, ramp }],
            objects: objects.iter().map(|&object| vec![object]).collect(),
        }],
        ..Update::default()
    }
}

/// The last object's path along x, one place a slot.
struct Path(Oracle);

impl Path {
    /// In the middle: two slots behind the first update.
    fn new() -> Self {
        let mut path = Path(Oracle::new());
        path.push(vec![update(0, &[at(0.5)])]);
        assert_eq!(path.slots(1), [0.0]);
        path
    }

    /// It has a ramp of four slots to the right, and the slot before these is over.
    fn ramping() -> Self {
        let mut path = Path::new();
        path.push(vec![update(5 * 64, &[at(1.0)])]);
        path
    }

    fn push(&mut self, updates: Vec<Update>) {
        let objects = updates.first().map_or(1, |update| update.objects.into());
        let pushed = self.0.push(&frame(64, objects, updates));
        assert!(matches!(pushed, Pushed::Ready(_)), "{pushed:?}");
    }

    fn x(&self) -> f32 {
        let sources = self.0.state().metadata.dynamic_sources;
        sources.last().unwrap().cubical_position[0]
    }

    fn slots(&mut self, count: usize) -> Vec<f32> {
        let mut slot = || {
            self.push(vec![]);
            self.x()
        };
        (0..count).map(|_| slot()).collect()
    }

    fn hold(&mut self) {
        self.0.want(0, true);
    }

    fn release(&mut self) {
        self.0.want(0, false);
    }

    /// A hold is asked for, and in effect.
    fn marks(&self) -> [bool; 2] {
        let source = self.0.state().metadata.dynamic_sources[0];
        [source.wanted, source.held]
    }

    fn left(&self) -> i64 {
        self.0.state().metadata.elements[0].future_distance
    }
}

/// Within two steps of an f32 of size 1.
fn near(found: &[f32], expected: &[f32]) {
    let is_near = found.len() == expected.len();
    let mut pairs = found.iter().zip(expected);
    assert!(
        is_near && pairs.all(|(a, b)| (a - b).abs() < 3e-7),
        "{found:?}, not {expected:?}"
    );
}

#[test]
#[cfg_attr(no_sources, ignore = "Rust sources not at hand")]
fn without_a_hold_it_moves_as_in_the_unchanged_rust() {
    let mut rust = oracle::Oracle::new();
    let mut path = Path(Oracle::new());
    let updates = [
        vec![update(0, &[at(0.5)])],
        vec![],
        vec![update(5 * 64, &[at(1.0)])],
    ];
    for updates in updates.into_iter().chain(vec![vec![]; 6]) {
        let frame = frame(64, 1, updates);
        assert_eq!(rust.push(&frame), path.0.push(&frame));
        assert_eq!(rust.state(), path.0.state());
    }
    near(&Path::ramping().slots(6), &[0.25, 0.5, 0.75, 1.0, 1.0, 1.0]);
}

/// "Hold takes effect at the next slot: the object's panned position stops, while .. the ramp's
/// countdown continue[s]." "an unfinished ramp goes on from the held position with what remains"
#[test]
#[cfg_attr(no_sources, ignore = "Rust sources not at hand")]
fn a_held_object_stops_and_goes_on_with_what_remains() {
    let mut path = Path::ramping();
    near(&path.slots(1), &[0.25]);
    path.hold();
    near(&path.slots(1), &[0.25]);
    assert_eq!((path.marks(), path.left()), ([true; 2], 2 * 64));
    path.release();
    near(&path.slots(3), &[0.25 + 0.75 / 2.0, 1.0, 1.0]);
}

/// "a finished one puts the object at its target", also where it ended while the object was held.
#[test]
#[cfg_attr(no_sources, ignore = "Rust sources not at hand")]
fn a_finished_ramp_puts_it_at_its_target() {
    let mut path = Path::ramping();
    path.hold();
    near(&path.slots(6), &[0.0; 6]);
    path.release();
    near(&path.slots(2), &[1.0, 1.0]);
    // A block without a ramp does not move it either.
    path.hold();
    path.push(vec![update(0, &[at(0.0)])]);
    near(&path.slots(2), &[1.0, 1.0]);
    path.release();
    near(&path.slots(1), &[-1.0]);
}

/// "gain, size, targets, flags and the ramp's countdown continue", and so does the send.
#[test]
#[cfg_attr(no_sources, ignore = "Rust sources not at hand")]
fn all_else_goes_on() {
    let object = Object {
        gain: Some(0.25),
        size: Some(0.5),
        send: 0.75,
        ..at(1.0)
    };
    let [held, free] = [true, false].map(|holds| {
        let mut path = Path::new();
        path.0.want(0, holds);
        path.push(vec![update(192, &[object])]);
        path.slots(2);
        path.0.state()
    });
    let mut metadata = free.metadata.clone();
    let [source, of_held] = [
        &mut metadata.dynamic_sources[0],
        &mut held.metadata.dynamic_sources[0].clone(),
    ];
    assert_eq!(
        (of_held.gain, of_held.size, of_held.send),
        (0.25, 0.5, 0.75)
    );
    assert!(source.cubical_position[0] > 0.9 && of_held.cubical_position == [0.0; 3]);
    (source.wanted, source.held) = (true, true);
    source.cubical_position = of_held.cubical_position;
    assert_eq!(held.metadata, metadata);
}

/// "Whether a slot ramps or goes straight is decided as without the hold": the slots in which it is
/// held count as those in which it was moved.
#[test]
#[cfg_attr(no_sources, ignore = "Rust sources not at hand")]
fn it_ramps_where_it_would_ramp() {
    let mut path = Path(Oracle::new());
    path.push(vec![update(5 * 64, &[at(1.0)])]);
    path.hold();
    // Without the hold it would go straight to its target here.
    near(&path.slots(1), &[0.0]);
    path.release();
    near(&path.slots(3), &[1.0 / 3.0, 2.0 / 3.0, 1.0]);
}

/// "an object not being moved there has no target and stays put"
#[test]
#[cfg_attr(no_sources, ignore = "Rust sources not at hand")]
fn without_a_target_it_stays_put() {
    let mut path = Path::ramping();
    path.hold();
    path.slots(1);
    path.push(vec![update(0, &[Object::default()])]);
    path.slots(1);
    path.release();
    near(&path.slots(2), &[0.0, 0.0]);
    assert_eq!(path.marks(), [false; 2]);
    // No element: it is held, and released, all the same.
    let mut path = Path::ramping();
    path.slots(1);
    let none = Update {
        elements: Vec::new(),
        ..update(0, &[at(0.0)])
    };
    path.hold();
    path.push(vec![none]);
    assert_eq!(path.marks(), [true; 2]);
    path.release();
    near(&path.slots(1), &[0.25]);
    assert_eq!(path.marks(), [false; 2]);
}

/// "Of a hold and a release before the same slot, the later undoes the earlier. A second hold, or a
/// release without one, changes nothing."
#[test]
#[cfg_attr(no_sources, ignore = "Rust sources not at hand")]
fn the_later_undoes_the_earlier() {
    let mut path = Path::ramping();
    path.hold();
    path.hold();
    path.release();
    near(&path.slots(1), &[0.25]);
    path.hold();
    near(&path.slots(1), &[0.25]);
    path.release();
    path.hold();
    near(&path.slots(2), &[0.25, 0.25]);
    path.release();
    path.release();
    near(&path.slots(1), &[1.0]);
}

/// "A change in the number of objects, and reset, end all holds, also those not yet in effect."
#[test]
#[cfg_attr(no_sources, ignore = "Rust sources not at hand")]
fn another_number_ends_all_holds() {
    for slots in [0, 1] {
        let mut path = Path::ramping();
        path.hold();
        path.slots(slots);
        let kept = path.marks();
        path.push(vec![update(0, &[at(1.0)])]);
        assert_eq!((path.marks(), kept), ([true; 2], [true, slots == 1]));
        path.hold();
        path.push(vec![update(0, &[at(1.0); 2])]);
        assert_eq!(path.marks(), [false; 2]);
        path.push(vec![update(0, &[at(1.0)])]);
        path.hold();
        path.0.reset();
        path.push(vec![update(0, &[at(1.0)])]);
        assert_eq!(path.marks(), [false; 2]);
    }
}

/// An object anchored to a speaker has its own place for a target: while it is held the held one.
#[test]
#[cfg_attr(no_sources, ignore = "Rust sources not at hand")]
fn its_own_place_is_the_held_one() {
    let mut path = Path::ramping();
    path.slots(1);
    path.hold();
    path.slots(1);
    let anchored = Object {
        anchor: Anchor::Speaker,
        ..at(1.0)
    };
    path.push(vec![update(0, &[anchored])]);
    path.slots(1);
    path.release();
    near(&path.slots(2), &[0.25, 0.25]);
    let future = path.0.state().metadata.elements[0].future[0];
    near(&future, &leaf::lerp_vec3([0.0; 3], [1.0, 0.0, 0.0], 0.25));
}
