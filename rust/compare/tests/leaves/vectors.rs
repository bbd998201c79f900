//! Vectors and anchors against the Rust's own functions. Each function runs on all triples of 30
//! special values (with further arguments drawn), and on drawn inputs up to 10,000,000 in all.

use compare::probe::vectors::{self, BlockPosition, DEPTHS, Placed};
use compare::{Drawn, all_same, drawn, same};
use oracle::Vector;
use oracle::frame::{Anchor, Object};
use oracle::leaf;
use oracle::reading::source;
use oracle::state::Info;

const INPUTS: usize = 10_000_000;

/// Zeros, subnormals, extremes, infinities, a NaN, and values around those of the formulas.
const SPECIAL: [f32; 30] = [
    0.0,
    -0.0,
    f32::from_bits(1),
    -f32::from_bits(1),
    f32::from_bits(0x7f_ffff),
    f32::MIN_POSITIVE,
    -f32::MIN_POSITIVE,
    1e-30,
    1e-20,
    -1e-10,
    0.25,
    0.486,
    0.5,
    -0.5,
    0.9,
    f32::from_bits(0x3f7f_ffff),
    1.0,
    f32::from_bits(0x3f80_0001),
    -1.0,
    2.0,
    -2.0,
    3.0,
    100.0,
    1e10,
    -1e20,
    f32::MAX,
    f32::MIN,
    f32::INFINITY,
    f32::NEG_INFINITY,
    f32::NAN,
];

struct Inputs {
    drawn: Drawn,
    given: usize,
}

impl Inputs {
    fn new(drawn: Drawn) -> Self {
        Inputs { drawn, given: 0 }
    }

    fn special(&mut self) -> f32 {
        SPECIAL[self.drawn.below(SPECIAL.len() as u64) as usize]
    }

    /// A special value, a value about the room's range, or any float.
    fn float(&mut self) -> f32 {
        match self.drawn.below(4) {
            0 => self.special(),
            1 => self.drawn.float(),
            _ => self.drawn.between(-0.5, 1.5),
        }
    }

    fn vector(&mut self) -> Vector {
        [(); 3].map(|()| self.float())
    }

    /// First all triples of special values, then drawn vectors.
    fn next(&mut self) -> Vector {
        let n = SPECIAL.len();
        let index = self.given;
        self.given += 1;
        if index < n * n * n {
            [index / (n * n), index / n % n, index % n].map(|i| SPECIAL[i])
        } else {
            self.vector()
        }
    }

    fn maybe(&mut self) -> Option<f32> {
        (!self.drawn.chance(4)).then(|| self.float())
    }

    fn depth(&mut self) -> u8 {
        self.drawn.below(4) as u8
    }
}

fn componentwise(a: Vector, b: Vector, op: impl Fn(f32, f32) -> f32) -> Vector {
    std::array::from_fn(|i| op(a[i], b[i]))
}

#[test]
fn operations_by_component() {
    let mut inputs = Inputs::new(drawn!(21));
    for _ in 0..INPUTS {
        let (a, b) = (inputs.next(), inputs.vector());
        let sum = vectors::vec_add(a, b);
        assert!(
            all_same(&sum, &componentwise(a, b, |a, b| a + b)),
            "{a:?} {b:?}"
        );
        let difference = vectors::vec_sub(a, b);
        assert!(
            all_same(&difference, &componentwise(a, b, |a, b| a - b)),
            "{a:?} {b:?}"
        );
        let product = vectors::vec_mul_components(a, b);
        assert!(
            all_same(&product, &componentwise(a, b, |a, b| a * b)),
            "{a:?} {b:?}"
        );
        let scaled = vectors::vec_mul_scalar(a, b[0]);
        assert!(all_same(&scaled, &a.map(|a| a * b[0])), "{a:?} {b:?}");
    }
}

#[test]
#[cfg_attr(no_sources, ignore = "Rust sources not at hand")]
fn length() {
    let mut inputs = Inputs::new(drawn!(22));
    for _ in 0..INPUTS {
        let v = inputs.next();
        assert!(same(vectors::vec_length(v), leaf::vec_length(v)), "{v:?}");
    }
}

#[test]
#[cfg_attr(no_sources, ignore = "Rust sources not at hand")]
fn cube() {
    let mut inputs = Inputs::new(drawn!(23));
    for _ in 0..INPUTS {
        let v = inputs.next();
        assert!(
            all_same(&vectors::map_to_cube(v), &leaf::map_to_cube(v)),
            "{v:?}"
        );
    }
}

#[test]
#[cfg_attr(no_sources, ignore = "Rust sources not at hand")]
fn lerp() {
    let mut inputs = Inputs::new(drawn!(24));
    for _ in 0..INPUTS {
        // All triples of from, to and t stand in the first component.
        let [from, to, t] = inputs.next();
        let (mut a, mut b) = (inputs.vector(), inputs.vector());
        (a[0], b[0]) = (from, to);
        let (ours, theirs) = (vectors::lerp_vec3(a, b, t), leaf::lerp_vec3(a, b, t));
        assert!(all_same(&ours, &theirs), "{a:?} {b:?} {t}");
    }
}

#[test]
#[cfg_attr(no_sources, ignore = "Rust sources not at hand")]
fn room() {
    let mut inputs = Inputs::new(drawn!(25));
    for _ in 0..INPUTS {
        let (p, distance) = (inputs.next(), inputs.maybe());
        let ours = vectors::room_anchored_position(p, distance);
        let theirs = leaf::room_anchored_position(p, distance);
        assert!(all_same(&ours, &theirs), "{p:?} {distance:?}");
    }
}

#[test]
#[cfg_attr(no_sources, ignore = "Rust sources not at hand")]
fn screen() {
    let mut inputs = Inputs::new(drawn!(26));
    for _ in 0..INPUTS {
        let (p, factor, depth) = (inputs.next(), inputs.float(), inputs.depth());
        let ours = vectors::screen_anchored_position(p, factor, depth);
        let theirs = leaf::screen_anchored_position(p, factor, DEPTHS[usize::from(depth)]);
        assert!(all_same(&ours, &theirs), "{p:?} {factor} {depth}");
    }
}

fn drawn_block(inputs: &mut Inputs) -> BlockPosition {
    BlockPosition {
        valid: !inputs.drawn.chance(8),
        differential: inputs.drawn.chance(2),
        anchor: match inputs.drawn.below(8) {
            0 => Anchor::Speaker,
            1..4 => Anchor::Screen,
            _ => Anchor::Room,
        },
        position: inputs.next(),
        last: inputs.vector(),
        distance: inputs.maybe(),
        screen: inputs.float(),
        depth: inputs.depth(),
    }
}

/// The block as the Rust holds it once a record has been parsed into it.
fn parsed(block: &BlockPosition) -> Info {
    let mut info = Info {
        valid_position: false,
        differential_position: false,
        gain: None,
        distance: None,
        size: None,
        screen_factor: 1.0,
        depth_factor: 1.0,
        anchor: Anchor::Room,
        position: [0.0; 3],
        last_precise: block.last,
        send: 0.0,
    };
    let object = Object {
        anchor: block.anchor,
        position_valid: block.valid,
        differential: block.differential,
        position: Some(block.position),
        distance: block.distance,
        screen: block.screen,
        depth: DEPTHS[usize::from(block.depth)],
        ..Object::default()
    };
    leaf::apply_parsed_update(&mut info, &object, false);
    info
}

fn same_placed(ours: &Placed, target: Vector, info: &Info) -> bool {
    all_same(&ours.target, &target)
        && all_same(&ours.position, &info.position)
        && all_same(&ours.last, &info.last_precise)
}

#[test]
#[cfg_attr(no_sources, ignore = "Rust sources not at hand")]
fn target() {
    let mut inputs = Inputs::new(drawn!(27));
    for _ in 0..INPUTS {
        let (block, here) = (drawn_block(&mut inputs), inputs.vector());
        let ours = vectors::update_source_position(&block, here);
        let mut info = parsed(&block);
        let mut source = source(here, 0.0, 0.0);
        let target = leaf::update_source_state(&mut info, &mut source);
        assert!(same_placed(&ours, target, &info), "{block:?} {here:?}");
    }
}
