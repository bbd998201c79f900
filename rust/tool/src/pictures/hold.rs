// SPDX-License-Identifier: Apache-2.0
//! An object that is held on its way, and released: where it is panned, slot by slot.
use super::Unheard;
use crate::hall::renderer;
use crate::setup::Setup;
use crate::svg::{Align, Area, Axis, BLUE, DARK, Frame, GREY, RED, Scale, Svg};
use crate::trouble::Trouble;
use voqlisna::{
    Block, Frame as Sound, Metadata, MetadataWriter, Object, Output, Panned, Pcm, Rate, Renderer,
    Stride, Update, sys,
};

/// Samples of a frame, which is a slot, and slots of a second.
const SLOT: usize = 64;
const SECOND: f64 = 750.0;
const SECONDS: f64 = 3.4;

/// Where updates send the object: when, to which x and z, and in how many seconds.
const WAYS: [(f64, f32, f32, f64); 3] = [
    (0.0, -0.8, 0.8, 0.0),
    (0.2, 0.8, 0.4, 1.6),
    (1.0, 0.6, -0.8, 1.6),
];
const HOLD: f64 = 0.8;
/// While its ramp has not ended, and when it has.
const RELEASES: [f64; 2] = [1.6, 3.0];

const ABOVE: Area = Area {
    x: 84.0,
    y: 84.0,
    width: 300.0,
    height: 300.0,
};
const TIME: Area = Area {
    x: 480.0,
    width: 470.0,
    ..ABOVE
};
const TICKS: [f64; 5] = [-1.0, -0.5, 0.0, 0.5, 1.0];
const LEFT: f64 = 30.0;

const fn side(name: &str) -> Axis<'_> {
    Axis {
        scale: Scale::Linear(-1.0, 1.0),
        ticks: &TICKS,
        name,
    }
}

/// The places of a run, one for each slot.
type Places = Vec<Panned>;

pub fn hold() -> Result<String, Trouble> {
    let free = run(None)?;
    let early = run(Some(RELEASES[0]))?;
    let late = run(Some(RELEASES[1]))?;
    let runs = [
        (
            &free,
            Style(GREY, "stroke-width=\"1.5\" stroke-dasharray=\"6 4\""),
        ),
        (&late, Style(RED, "stroke-width=\"4\"")),
        (&early, Style(BLUE, "stroke-width=\"2\"")),
    ];
    let mut svg = Svg::new(990.0, 500.0);
    svg.title((LEFT, 30.0), "An object that is held while it moves");
    above(&mut svg, &runs);
    over_time(&mut svg, &runs);
    let held = at(&early, HOLD + 0.1);
    let arrival = |places: &Places| seconds(arrival(places));
    let (free, early, late) = (arrival(&free), arrival(&early), arrival(&late));
    let (x, z) = (told(held.x), told(held.z));
    for (line, text) in [
        format!("Measured: the object's place in the state block, slot by slot. Held at {HOLD} s it stays at x {x}, z {z}; the update at {} s gives it", WAYS[2].0),
        format!("another target all the same, and the countdown goes on. It arrives at {free:.3} s without a hold, at {early:.3} s released at {} s, and at {late:.3} s", RELEASES[0]),
        format!("released at {} s, when nothing of its ramp is left.", RELEASES[1]),
    ]
    .iter()
    .enumerate()
    {
        svg.caption((LEFT, 448.0 + 19.0 * line as f64), text);
    }
    Ok(svg.finish())
}

/// A colour, and what else a curve's stroke is.
#[derive(Clone, Copy)]
struct Style(&'static str, &'static str);

impl Style {
    fn stroke(self) -> String {
        format!("stroke=\"{}\" {}", self.0, self.1)
    }
}

fn above(svg: &mut Svg, runs: &[(&Places, Style); 3]) {
    svg.label(
        (LEFT, 64.0),
        Align::Start,
        "From above, the screen at the top",
    );
    let frame = Frame::new(
        svg,
        ABOVE,
        &side("x, to the right"),
        &side("z, to the front"),
    );
    let built_in = Setup::BUILT_IN;
    for (_, place) in built_in.speakers().iter().filter(|(_, p)| p.y == 0.0) {
        let at = frame.at(place.x.into(), place.z.into());
        svg.dot(at, 3.0, &format!("fill=\"#fff\" stroke=\"{GREY}\""));
    }
    // What jumps has no path.
    for (places, style) in [runs[0], runs[2]] {
        let points: Vec<_> = places.iter().map(|p| (p.x.into(), p.z.into())).collect();
        frame.styled(svg, &turns(&points), &style.stroke());
    }
    let [(free, _), _, (early, _)] = runs;
    let mut spot = |place: Panned, colour: &str, align, (right, down), said: &str| {
        let at = frame.at(place.x.into(), place.z.into());
        svg.dot(at, 4.5, &format!("fill=\"{colour}\""));
        svg.on_white((at.0 + right, at.1 + down), align, colour, said);
    };
    spot(at(free, 0.1), DARK, Align::Middle, (0.0, -10.0), "start");
    spot(
        at(early, HOLD + 0.1),
        BLUE,
        Align::End,
        (-8.0, 16.0),
        "held",
    );
    spot(
        at(free, SECONDS - 0.1),
        DARK,
        Align::Start,
        (10.0, 4.5),
        "target",
    );
}

fn over_time(svg: &mut Svg, runs: &[(&Places, Style)]) {
    svg.label(
        (TIME.x - 54.0, 64.0),
        Align::Start,
        "To the right, over time",
    );
    let time = Axis {
        scale: Scale::Linear(0.0, SECONDS),
        ticks: &[0.0, 0.5, 1.0, 1.5, 2.0, 2.5, 3.0],
        name: "time in s",
    };
    let frame = Frame::new(svg, TIME, &time, &side("x, to the right"));
    for (at, colour, align, right, said) in [
        (HOLD, DARK, Align::Start, 5.0, "hold"),
        (RELEASES[0], BLUE, Align::Start, 5.0, "release"),
        (RELEASES[1], RED, Align::End, -5.0, "release"),
    ] {
        frame.moment(svg, at, colour);
        let (x, y) = frame.at(at, -1.0);
        svg.on_white((x + right, y - 9.0), align, colour, said);
    }
    for (places, style) in runs {
        let point = |(slot, place): (usize, &Panned)| (seconds(slot), f64::from(place.x));
        let points: Vec<_> = places.iter().enumerate().map(point).collect();
        frame.styled(svg, &turns(&points), &style.stroke());
    }
    svg.coloured(frame.at(0.85, 0.3), Align::Start, GREY, "without a hold");
}

/// The points of a curve that is straight from turn to turn, in tenths of what can be seen.
fn turns(points: &[(f64, f64)]) -> Vec<(f64, f64)> {
    let mut kept: Vec<(f64, f64)> = Vec::new();
    for (k, point) in points.iter().enumerate() {
        let straight = |next: &(f64, f64)| {
            kept.last().is_some_and(|(x, y)| {
                let (a, b) = (point.0 - x, point.1 - y);
                let (c, d) = (next.0 - point.0, next.1 - point.1);
                (a * d - b * c).abs() <= 1e-4 * (c.abs() + d.abs()) && a * c + b * d >= 0.0
            })
        };
        if !points.get(k + 1).is_some_and(straight) {
            kept.push(*point);
        }
    }
    kept
}

fn seconds(slot: usize) -> f64 {
    slot as f64 / SECOND
}

fn slot(seconds: f64) -> usize {
    (seconds * SECOND).round() as usize
}

fn at(places: &Places, seconds: f64) -> Panned {
    places.get(slot(seconds)).copied().unwrap_or_default()
}

/// The first slot in which the object is where it is at the end.
fn arrival(places: &Places) -> usize {
    let last = places.last();
    places
        .iter()
        .rposition(|p| Some(p) != last)
        .map_or(0, |k| k + 1)
}

fn told(x: f32) -> String {
    format!("{x:.2}").replace('-', "\u{2212}")
}

/// A run in which the object is released at that time, or never held.
fn run(release: Option<f64>) -> Result<Places, Trouble> {
    let mut renderer = renderer(&Setup::BUILT_IN)?;
    let (hold, release) = (release.map(|_| slot(HOLD)), release.map(slot));
    let mut out = Output::new(Stride::MIN);
    let mut places = Places::new();
    // A block is applied in the slot after its update's; before, the object is in the middle of the room.
    for way in [Some(&WAYS[0]), None] {
        push(&mut renderer, &mut out, way)?;
    }
    for k in 0..slot(SECONDS) {
        let marked = match Some(k) {
            now if now == hold => renderer.hold(0),
            now if now == release => renderer.release(0),
            _ => Ok(()),
        };
        marked.map_err(Unheard::from)?;
        let way = WAYS.iter().find(|way| slot(way.0) == k);
        places.push(push(&mut renderer, &mut out, way)?);
    }
    Ok(places)
}

/// A slot of silence, with an update where there is a new way; where the object is panned in it.
fn push(
    renderer: &mut Renderer,
    out: &mut Output,
    way: Option<&(f64, f32, f32, f64)>,
) -> Result<Panned, Unheard> {
    let mut memory = [0; MetadataWriter::bytes_for(1, &[1])];
    let mut writer = MetadataWriter::new(&mut memory);
    let mut metadata = Metadata::NONE;
    if let Some((_, x, z, seconds)) = way {
        let ramp = (seconds * SECOND) as i64 * SLOT as i64;
        let to = Panned {
            x: *x,
            y: 0.0,
            z: *z,
        };
        let update = Update {
            at: 0,
            objects: 1,
            fixed: 0,
            beds: &[],
        };
        let object = Object::at(to.room()).gain(1.0);
        let update = writer.update(update)?;
        update.element(&[Block { offset: 0, ramp }], |_, _| object)?;
        metadata = writer.finish();
    }
    let frame = Sound::new(Rate::HZ_48000, &[], Pcm::packed(&[0.0; SLOT], 1)?, metadata)?;
    renderer.push(&frame, out)?;
    Ok(place(renderer.block()))
}

/// Of the first dynamic object (docs/STATE-BLOCK.md).
fn place(block: &[u8]) -> Panned {
    let at = sys::SOURCES_AT + 8;
    let word = |k: usize| {
        let bytes = block[at + 4 * k..].first_chunk();
        f32::from_le_bytes(bytes.copied().unwrap_or_default())
    };
    Panned {
        x: word(0),
        y: word(1),
        z: word(2),
    }
}
