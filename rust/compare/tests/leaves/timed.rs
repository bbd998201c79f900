//! Updates and slots: the whole timed state after each slot, 1,200,000 slots. Sends are held
//! against the amended Rust, and so is all of a sequence that has lifted a channel or held an
//! object; slots with holds also against the reading of R-11.

use compare::model::{Effects, holds, lifts, with_sends};
use compare::probe::timed::{self, MIDDLE, Timed, ZERO};
use compare::{Drawn, Generator, all_same, drawn, records, same};
use oracle::frame::{ANCHORS, Block, DEPTHS, Element, Object, Update};
use oracle::state::Metadata;
use oracle::{amended, leaf};

/// What stays alike from update to update, so that sources and elements are kept.
#[derive(Clone)]
struct Layout {
    beds: Vec<u8>,
    isf: u8,
    objects: u8,
    blocks: Vec<u64>,
}

fn layout(inputs: &mut Generator, most: u64) -> Layout {
    let dynamic = inputs.below(most.min(16) + 1) as u8;
    let isf = inputs.below(most.min(16) + 1) as u8;
    let objects = isf + dynamic;
    let beds = inputs.below(u64::from(objects.min(18)) + 1);
    Layout {
        beds: (0..beds).map(|_| inputs.below(18) as u8).collect(),
        isf: if inputs.chance(20) { 255 } else { isf },
        objects,
        blocks: (0..inputs.below(3))
            .map(|_| inputs.below(most.min(8) + 1))
            .collect(),
    }
}

fn span(inputs: &mut Generator) -> i64 {
    match inputs.below(24) {
        0 => 1_048_576,
        1 => -1_048_576,
        2 | 3 => -(inputs.below(200) as i64),
        4..8 => 64 * inputs.below(6) as i64,
        _ => inputs.below(400) as i64,
    }
}

fn object(inputs: &mut Generator) -> Object {
    Object {
        anchor: inputs.pick(&ANCHORS),
        position_valid: !inputs.chance(4),
        differential: inputs.chance(3),
        gain: inputs.maybe(|inputs| inputs.between(0.0, 8.0)),
        position: inputs.maybe(|inputs| {
            let any = inputs.chance(6);
            std::array::from_fn(|_| {
                if any {
                    inputs.float()
                } else {
                    inputs.between(-0.5, 1.5)
                }
            })
        }),
        distance: inputs.maybe(|inputs| {
            if inputs.chance(6) {
                inputs.float()
            } else {
                inputs.between(0.0, 3.0)
            }
        }),
        size: inputs.maybe(|inputs| inputs.between(0.0, 1.0)),
        screen: if inputs.chance(6) {
            inputs.float()
        } else {
            inputs.between(0.0, 1.0)
        },
        depth: inputs.pick(&DEPTHS),
        send: if inputs.chance(3) {
            inputs.pick(&[0.0, -0.0, 1.0, 1e-45])
        } else {
            inputs.between(0.0, 1.0)
        },
    }
}

fn update(inputs: &mut Generator, layout: &Layout) -> Update {
    Update {
        offset: inputs.below(1536) as u16,
        objects: layout.objects,
        bed_or_isf_objects: layout.isf,
        beds: layout.beds.clone(),
        elements: layout
            .blocks
            .iter()
            .map(|&blocks| Element {
                blocks: (0..blocks)
                    .map(|_| Block {
                        offset: span(inputs),
                        ramp: span(inputs),
                    })
                    .collect(),
                objects: (0..layout.objects)
                    .map(|_| (0..blocks).map(|_| object(inputs)).collect())
                    .collect(),
            })
            .collect(),
    }
}

/// The timed state of the Rust: of the unchanged one too, up to the first lifted channel or hold.
struct Theirs {
    amended: amended::leaf::Timed,
    unchanged: Option<leaf::Timed>,
}

impl Theirs {
    fn new() -> Self {
        Theirs {
            amended: amended::leaf::Timed::new(),
            unchanged: Some(leaf::Timed::new()),
        }
    }

    /// But for the sends the unchanged one's while it is there.
    fn state(&self) -> Metadata {
        let amended = self.amended.state();
        match &self.unchanged {
            Some(timed) => with_sends(timed.state(), &amended),
            None => amended,
        }
    }

    fn apply_update(&mut self, update: &Update, at: i64) {
        if lifts(&self.state(), &[update]) {
            self.unchanged = None;
        }
        self.amended.apply_update(update, at);
        if let Some(timed) = &mut self.unchanged {
            timed.apply_update(update, at);
        }
    }

    fn want(&mut self, object: usize, wanted: bool) {
        self.amended.want(object, wanted);
        if wanted {
            self.unchanged = None;
        }
    }

    /// The amended Rust leaves a slot with holds as the reading does.
    fn update_timeslot(&mut self, at: i64, effects: &mut Effects) {
        let before = self.amended.state();
        let read = holds::any(&before).then(|| holds::slot(&before, at, effects));
        self.amended.update_timeslot(at, 64);
        if let Some(read) = read {
            let after = self.amended.state();
            assert!(holds::same_sources(&read, &after), "{before:?}");
            for (read, after) in read.elements.iter().zip(&after.elements) {
                let futures = read.future.as_flattened();
                assert!(all_same(futures, after.future.as_flattened()));
            }
        }
        if let Some(timed) = &mut self.unchanged {
            timed.update_timeslot(at, 64);
        }
    }
}

fn same_vector(a: timed::Vec3, b: [f32; 3]) -> bool {
    same(a.x, b[0]) && same(a.y, b[1]) && same(a.z, b[2])
}

fn assert_same(ours: &Timed, theirs: &Metadata, step: usize) {
    let state = &ours.state;
    assert_eq!(state.initialized, theirs.initialized);
    assert_eq!(state.payload as i64, theirs.payload_stream_sample);
    assert_eq!(state.objects, theirs.object_count);
    assert_eq!(state.isf, theirs.bed_or_isf_objects);
    assert_eq!(&state.codes[..state.beds], &theirs.bed_channels[..]);
    assert_eq!(state.beds, theirs.bed_sources.len());
    for (ours, &theirs) in state.gains.iter().zip(&theirs.bed_sources) {
        assert!(same(*ours, theirs), "bed gain, step {step}");
    }
    assert_eq!(
        state.objects.saturating_sub(state.isf),
        theirs.dynamic_sources.len()
    );
    for (ours, theirs) in state.sources.iter().zip(&theirs.dynamic_sources) {
        assert!(
            same(ours.gain, theirs.gain)
                && same(ours.size, theirs.size)
                && same_vector(ours.place, theirs.cubical_position)
                && ours.placed == theirs.position_valid
                && (ours.wanted, ours.held) == (theirs.wanted, theirs.held)
                && same(ours.send, theirs.send),
            "step {step}: {ours:?} {theirs:?}"
        );
    }
    assert_eq!(state.elements, theirs.elements.len());
    for (e, theirs) in theirs.elements.iter().enumerate() {
        assert_same_element(ours, e, theirs, step);
    }
}

fn assert_same_element(ours: &Timed, e: usize, theirs: &oracle::state::Element, step: usize) {
    let element = &ours.state.states[e];
    assert_eq!(element.blocks, theirs.block_used.len());
    assert_eq!(element.flags, theirs.update_now.len());
    assert_eq!(
        element.remaining.wrapping_sub(MIDDLE) as i64,
        theirs.future_distance,
        "step {step}"
    );
    for (b, block) in element.schedule[..element.blocks].iter().enumerate() {
        assert_eq!(
            i64::from(block.offset) - i64::from(ZERO),
            theirs.block_offsets[b]
        );
        assert_eq!(
            i64::from(block.ramp) - i64::from(ZERO),
            theirs.ramp_duration[b]
        );
        assert_eq!(block.used, theirs.block_used[b], "step {step}");
    }
    for (d, track) in element.tracks[..element.flags].iter().enumerate() {
        assert_eq!(track.now, theirs.update_now[d], "step {step}");
        assert!(same_vector(track.future, theirs.future[d]), "step {step}");
    }
    for (o, blocks) in theirs.info_blocks.iter().enumerate() {
        for (b, theirs) in blocks.iter().enumerate() {
            assert_same_info(ours, e * 256 + o * 8 + b, theirs, step);
        }
    }
}

fn assert_same_info(ours: &Timed, k: usize, theirs: &oracle::state::Info, step: usize) {
    let head = ours.word(k, 0);
    let float = |word| f32::from_bits(ours.word(k, word));
    let maybe = |bit, word| (head & bit != 0).then(|| float(word));
    let fits = |ours: Option<f32>, theirs: Option<f32>| match (ours, theirs) {
        (Some(ours), Some(theirs)) => same(ours, theirs),
        (ours, theirs) => ours.is_none() && theirs.is_none(),
    };
    let vector = |word| timed::Vec3 {
        x: float(word),
        y: float(word + 1),
        z: float(word + 2),
    };
    let used = |distance: f32| {
        if distance.is_infinite() {
            100.0
        } else {
            distance
        }
    };
    assert_eq!(head & 1 != 0, theirs.valid_position);
    assert_eq!(head & 2 != 0, theirs.differential_position);
    assert!(fits(maybe(4, 1), theirs.gain), "step {step}");
    assert!(fits(maybe(32, 2), theirs.size), "step {step}");
    assert!(fits(maybe(16, 3).map(used), theirs.distance), "step {step}");
    assert!(same(float(4), theirs.screen_factor), "step {step}");
    assert_eq!(ANCHORS[(head >> 8 & 255) as usize], theirs.anchor);
    assert!(
        same(DEPTHS[(head >> 16) as usize], theirs.depth_factor),
        "step {step}"
    );
    assert!(same_vector(vector(5), theirs.position), "step {step}");
    assert!(same_vector(vector(8), theirs.last_precise), "step {step}");
    assert!(same(float(11), theirs.send), "step {step}");
}

/// Of the objects that there are: a hold or a release is asked for.
fn mark(inputs: &mut Generator, ours: &mut Timed, theirs: &mut Theirs) {
    let count = ours.state.objects.saturating_sub(ours.state.isf);
    if count > 0 {
        let (object, wanted) = (inputs.below(count as u64) as usize, inputs.chance(2));
        ours.state.sources[object].wanted = wanted;
        theirs.want(object, wanted);
    }
}

/// Sequences of updates and slots, up to `most` of everything; in every fourth objects are held.
/// `lifted` slots at least are held against the amended Rust, and as many against the unchanged one.
fn compare_slots(mut inputs: Drawn, most: u64, slots: usize, lifted: usize) {
    let (mut done, mut amended, mut held) = (0, 0, 0);
    let mut effects = Effects::default();
    while done < slots {
        let (mut ours, mut theirs) = (Timed::new(), Theirs::new());
        let mut at = inputs.below(1 << 39);
        let mut kept = layout(&mut inputs, most);
        let holding = inputs.chance(4);
        for _ in 0..1 + inputs.below(40) {
            if inputs.chance(6) {
                let old = kept;
                kept = layout(&mut inputs, most);
                if inputs.chance(2) {
                    kept = Layout {
                        isf: inputs.below(u64::from(old.objects) + 1) as u8,
                        ..old
                    };
                    kept.isf = kept.isf.max(kept.objects.saturating_sub(16));
                }
            }
            let updates: Vec<_> = (0..1 + inputs.below(2))
                .map(|_| update(&mut inputs, &kept))
                .collect();
            let records = records::write(&updates);
            for (index, update) in updates.iter().enumerate() {
                ours.apply_update(&records, index, at);
                theirs.apply_update(update, at as i64);
                assert_same(&ours, &theirs.state(), done);
            }
            if inputs.chance(3) {
                at += inputs.below(64);
            }
            for _ in 0..inputs.below(24) {
                if holding && inputs.chance(4) {
                    mark(&mut inputs, &mut ours, &mut theirs);
                }
                held += usize::from(holds::any(&theirs.amended.state()));
                ours.update_timeslot(at);
                theirs.update_timeslot(at as i64, &mut effects);
                assert_same(&ours, &theirs.state(), done);
                at += 64;
                done += 1;
                amended += usize::from(theirs.unchanged.is_none());
            }
        }
    }
    println!(
        "{done} slots, {amended} of them after a lift or a hold; {held} with a hold: {effects:?}"
    );
    let Effects {
        stopped,
        goes_on,
        jumps,
    } = effects;
    assert!(held > done / 20, "{held} of {done}");
    assert!(
        [stopped, goes_on, jumps].iter().all(|&n| n > 200),
        "{effects:?}"
    );
    assert!(
        (lifted..done - lifted).contains(&amended),
        "{amended} of {done}"
    );
}

#[test]
#[cfg_attr(no_sources, ignore = "Rust sources not at hand")]
fn slots_of_few_objects() {
    compare_slots(drawn!(31), 3, 1_000_000, 200_000);
}

#[test]
#[cfg_attr(no_sources, ignore = "Rust sources not at hand")]
fn slots_up_to_the_limits() {
    compare_slots(drawn!(32), 16, 200_000, 40_000);
}
