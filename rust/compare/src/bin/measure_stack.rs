//! The stack that each entry needs: how far below the caller's stack pointer a call writes, on a
//! thread whose stack was painted before. Prints a line for each call; claims nothing. x86-64 only.

use compare::Generator;
use compare::calls::Call;
use compare::entry::{self, Answer, BLOCK, Planes};
use compare::setup::{BUILT_IN, Table, table};
use oracle::frame::{ANCHORS, Block, Element, Frame, Object, Update};
use std::arch::asm;
use std::thread;

const STRIDE: usize = 1_536;
const BEDS: [u8; 16] = [0, 1, 2, 3, 4, 5, 7, 8, 9, 10, 11, 12, 13, 14, 15, 16];
const OBJECTS: usize = 16;
const PAINT: u8 = 0xa5;
/// Bytes painted, but for the red zone, where this function may keep values of its own.
const PAINTED: usize = 256 * 1_024;
const RED_ZONE: usize = 128;

#[inline(never)]
fn depth<T>(call: &mut dyn FnMut() -> T) -> (usize, T) {
    let top: usize;
    unsafe { asm!("mov {}, rsp", out(reg) top, options(nomem, nostack, preserves_flags)) };
    let painted = top - PAINTED..top - RED_ZONE;
    for at in painted.clone() {
        unsafe { (at as *mut u8).write_volatile(PAINT) };
    }
    let answer = call();
    let kept = painted.take_while(|&at| unsafe { (at as *const u8).read_volatile() } == PAINT);
    (PAINTED - kept.count(), answer)
}

/// The largest that there is: 32 objects, two elements of eight blocks, and due at once.
fn update(inputs: &mut Generator, offset: usize) -> Update {
    let objects = BEDS.len() + OBJECTS;
    let mut object = || Object {
        anchor: inputs.pick(&ANCHORS),
        position_valid: true,
        gain: Some(0.7),
        position: Some(std::array::from_fn(|_| inputs.between(0.0, 1.0))),
        distance: Some(2.0),
        size: Some(0.5),
        screen: 0.5,
        depth: 0.25,
        ..Object::default()
    };
    let mut element = |first| Element {
        blocks: (0..8)
            .map(|k| Block {
                offset: if k == 0 { first } else { -k },
                ramp: 512,
            })
            .collect(),
        objects: (0..objects)
            .map(|_| (0..8).map(|_| object()).collect())
            .collect(),
    };
    Update {
        offset: offset as u16,
        objects: objects as u8,
        bed_or_isf_objects: BEDS.len() as u8,
        beds: BEDS.to_vec(),
        elements: vec![element(0), element(64)],
    }
}

/// A frame with an update every 96 samples, at most 16.
fn frame(samples: usize) -> Call {
    let mut inputs = Generator::new(7);
    let channels = BEDS.len() + OBJECTS;
    Call::from(&Frame {
        rate: 48_000,
        samples,
        beds: BEDS.to_vec(),
        objects: OBJECTS,
        updates: (0..samples)
            .step_by(96)
            .map(|t| update(&mut inputs, t))
            .collect(),
        pcm: (0..channels * samples)
            .map(|_| inputs.between(-1.0, 1.0))
            .collect(),
    })
}

/// One sample with two of the largest updates, due 64 samples on.
fn far() -> Call {
    let mut far = frame(1);
    far.meta.extend_from_within(..);
    for at in [0, far.meta.len() / 2] {
        far.meta[at] = 9;
        far.meta[at + 28..at + 32].copy_from_slice(&64u32.to_le_bytes());
    }
    far
}

fn tell(what: &str, (bytes, answer): (usize, Answer)) {
    let Answer { kind, number, .. } = answer;
    println!("{what}: {bytes} bytes (kind {kind}, number {number})");
}

/// A hall table with a place of its own.
fn own_table() -> Table {
    let mut places = BUILT_IN;
    places[0][1] = 0.5;
    table(&places)
}

fn measure() {
    let (mut state, mut out) = (vec![0; BLOCK], vec![0; 48 * STRIDE]);
    tell("make", depth(&mut || entry::make(&mut state, 0)));
    calls(&mut state, &mut out);
    let table = own_table();
    let mut make = || entry::make_with(&mut state, 0, &table);
    tell("make with a table", depth(&mut make));
    calls(&mut state, &mut out);
    let source = vec![0x5a; 48 * STRIDE];
    for way in [Planes::To, Planes::From] {
        let mut planes = || entry::planes(way, &source, STRIDE as u32, &mut out);
        tell(&format!("planes, {way:?}"), depth(&mut planes));
    }
    let silence = vec![0; 48 * STRIDE];
    let mut write = || entry::write_24(&silence, STRIDE as u32, STRIDE as u32, &mut out);
    tell("24 bits, written", depth(&mut write));
    let mut read = || entry::read_24(&source[..36 * STRIDE], &mut out);
    tell("24 bits, read", depth(&mut read));
}

/// On a new renderer's block.
fn calls(state: &mut [u8], out: &mut [u8]) {
    tell("reset", depth(&mut || entry::reset(state)));
    for samples in [1, 64, 1_536] {
        let call = frame(samples);
        let mut push = || entry::push(state, &call, out, STRIDE as u32);
        tell(&format!("push of {samples} samples"), depth(&mut push));
    }
    let (mut fallen, far) = (frame(1_536), far());
    let mut push = || entry::push(state, &far, out, STRIDE as u32);
    tell("push that brings 1,062 records that wait", depth(&mut push));
    fallen.meta.clear();
    let mut push = || entry::push(state, &fallen, out, STRIDE as u32);
    tell("push in which they fall", depth(&mut push));
    for (name, wanted) in [("hold", true), ("release", false)] {
        tell(name, depth(&mut || entry::mark(state, 0, wanted)));
    }
    let (bytes, place) = depth(&mut || entry::find(state, 4_095));
    println!("find: {bytes} bytes (kind {})", place.kind);
    let mut call = frame(1_536);
    call.rate = 44_100;
    let mut push = || entry::push(state, &call, out, STRIDE as u32);
    tell("push that is refused", depth(&mut push));
    let mut flush = || entry::flush(state, out, STRIDE as u32);
    tell("flush", depth(&mut flush));
}

fn main() {
    let thread = thread::Builder::new().stack_size(4 * PAINTED);
    thread.spawn(measure).unwrap().join().unwrap();
}
