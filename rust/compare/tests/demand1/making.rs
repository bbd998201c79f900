// SPDX-License-Identifier: Apache-2.0
//! Document 02's R-5: "A call of its own now makes a renderer in a block, a wrong length being 1 ..
//! Reset keeps the code, and refuses by 1 a block whose code is above 3 .. Refused: 15, a layout code
//! above 3, when a renderer is made."
//! With the built-in table.

use compare::calls::bed_frame;
use compare::entry::{self, BLOCK, same_answer};
use compare::host::{Host, fresh, used_block};
use compare::model::Outcome;
use compare::setup::{Setup, built_in};
use compare::{Generator, block, ranges, seeds};

const LAYOUTS: std::ops::Range<u32> = 0..4;
const NONE: [u32; 7] = [4, 5, 7, 255, 256, 1 << 31, u32::MAX];

pub fn refused(number: u32) -> Outcome {
    Outcome::Refused([number, 0, 0])
}

fn new(layout: u32) -> Outcome {
    Outcome::New(Setup::built_in(layout))
}

/// Any bytes; zeros; a block in range; one in use.
pub fn any_block(inputs: &mut Generator, length: usize) -> Vec<u8> {
    let mut block = match inputs.below(4) {
        0 => (0..length).map(|_| inputs.bits() as u8).collect(),
        1 => vec![0; length],
        2 => ranges::drawn(inputs),
        _ => used_block(inputs.below(20)),
    };
    block.resize(length, 0x77);
    block
}

/// The call, and what it must come to: a refusal leaves the block, else it is a new renderer.
fn makes(state: &mut Vec<u8>, layout: u32, expected: &Outcome) {
    let before = state.clone();
    let answer = entry::make(state, layout);
    let name = format!("{} bytes, layout {layout}: {answer:?}", before.len());
    assert!(same_answer(answer, expected.answer()), "{name}");
    match expected {
        Outcome::New(setup) => assert!(*state == fresh(setup.layout), "{name}"),
        _ => assert!(*state == before, "{name}"),
    }
}

/// 1 for a wrong length, then 15; every code up to 3 is taken on whatever the bytes were.
#[test]
fn a_renderer_is_made() {
    for seed in seeds!(0..400) {
        let inputs = &mut Generator::new(seed);
        let length = match inputs.below(4) {
            0 => inputs.pick(&[0, 1, 29_072, BLOCK - 1, BLOCK + 1, 2 * BLOCK]),
            1 => inputs.below(60_000) as usize,
            _ => BLOCK,
        };
        for layout in LAYOUTS.chain(NONE) {
            let expected = match (length, layout) {
                (BLOCK, 0..4) => new(layout),
                (BLOCK, _) => refused(15),
                _ => refused(1),
            };
            makes(&mut any_block(inputs, length), layout, &expected);
        }
    }
}

/// Made again in a block in use, of the same layout and of others.
#[test]
fn a_renderer_is_made_again() {
    for seed in seeds!(0..40) {
        let mut state = used_block(seed);
        for layout in LAYOUTS.chain(LAYOUTS.rev()) {
            makes(&mut state, layout, &new(layout));
        }
    }
}

/// The blocks of two layouts differ in the code alone, and every one is in range.
#[test]
fn new_renderers_differ_in_the_code() {
    for layout in LAYOUTS {
        let mut state = fresh(layout);
        assert!(ranges::hold(&state) && block::layout(&state) == layout);
        ranges::layout().put(&mut state, 0);
        assert!(state == fresh(0), "{layout}");
    }
}

/// Reset looks at the length, at the code and at the table: any bytes else, also out of their ranges.
#[test]
fn reset_keeps_the_layout() {
    for seed in seeds!(0..400) {
        let inputs = &mut Generator::new(seed);
        for layout in LAYOUTS.chain(NONE) {
            let mut host = Host::new(64);
            host.state = any_block(inputs, BLOCK);
            ranges::layout().put(&mut host.state, layout.into());
            ranges::put_table(&mut host.state, &built_in());
            let expected = match layout {
                0..4 => new(layout),
                _ => refused(1),
            };
            let name = format!("layout {layout}");
            host.calls(&expected, |s, _, _| entry::reset(s), &name);
            assert!(layout > 3 || host.state == fresh(layout), "{name}");
        }
    }
}

/// A block that is valid but for its code is 1 for push and flush too, whatever else is wrong with
/// the call.
#[test]
fn a_code_above_3_is_out_of_range() {
    for seed in seeds!(0..40) {
        for layout in NONE {
            let mut host = Host::new(64);
            host.state = used_block(seed);
            assert!(ranges::hold(&host.state));
            ranges::layout().put(&mut host.state, layout.into());
            let name = format!("layout {layout}");
            for samples in [0, 10, 1_600] {
                let call = bed_frame(samples);
                host.calls(&refused(1), |s, o, n| entry::push(s, &call, o, n), &name);
            }
            host.calls(&refused(1), entry::flush, &name);
            host.calls(&refused(1), |s, _, _| entry::reset(s), &name);
        }
    }
}

/// A host that forgets to make a renderer is told so: zeros are no renderer, since all speakers would
/// be at one place.
#[test]
fn zeros_are_no_renderer() {
    let (mut host, call) = (Host::new(64), bed_frame(10));
    host.state.fill(0);
    host.calls(&refused(1), |s, o, n| entry::push(s, &call, o, n), "push");
    host.calls(&refused(1), entry::flush, "flush");
    host.calls(&refused(1), |s, _, _| entry::reset(s), "reset");
}
