// SPDX-License-Identifier: Apache-2.0
//! The stack below a call: less than the 40 KiB that the crate and the header ask for.

use crate::draw::{Draw, Owned, Scene};
use std::arch::asm;
use voqlisna::*;

const PROMISED: usize = 40 * 1024;
const PAINT: u8 = 0xa5;
const PAINTED: usize = 256 * 1024;
/// Bytes below the stack pointer that `depth` itself may use.
const RED_ZONE: usize = 128;

/// How far below its own stack pointer `call` writes.
#[inline(never)]
fn depth(call: &mut dyn FnMut()) -> usize {
    let top: usize;
    // SAFETY: reads the stack pointer.
    unsafe { asm!("mov {}, rsp", out(reg) top, options(nomem, nostack, preserves_flags)) };
    let painted = top - PAINTED..top - RED_ZONE;
    for at in painted.clone() {
        // SAFETY: below the red zone of the one frame that is live, and within the thread's stack.
        unsafe { (at as *mut u8).write_volatile(PAINT) };
    }
    call();
    // SAFETY: as above.
    let is_kept = |at: &usize| unsafe { (*at as *const u8).read_volatile() } == PAINT;
    PAINTED - painted.take_while(is_kept).count()
}

/// A full frame: 17 beds, 15 objects, 1,536 samples, updates.
fn largest(draw: &mut Draw) -> Owned {
    let beds = Bed::ALL.into_iter().filter(|bed| *bed != Bed::RearCenter);
    let rate = Rate::HZ_48000;
    let scene = Scene {
        rate,
        beds: beds.collect(),
        objects: 15,
    };
    loop {
        let mut owned = scene.frame(draw, 1536);
        if owned.metadata.len() > 4_000 {
            owned.metadata[2..4].fill(0);
            return owned;
        }
    }
}

/// An update at the frame's start, and the longest, 531 records, at a sample ahead: of 15 dynamic
/// objects.
fn longest_ahead(at: u32) -> Vec<u8> {
    let (objects, fixed, beds) = (32, 17, &[][..]);
    let length = MetadataWriter::bytes_for(32, &[]) + MetadataWriter::bytes_for(32, &[8, 8]);
    let mut memory = vec![0; length];
    let mut writer = MetadataWriter::new(&mut memory);
    let now = Update {
        at: 0,
        objects,
        fixed,
        beds,
    };
    writer.update(now).unwrap();
    let head = Ahead {
        at,
        objects,
        fixed,
        beds,
    };
    let mut writing = writer.update_ahead(head).unwrap();
    for _ in 0..2 {
        writing = writing
            .element(&[Block::default(); 8], |_, _| Object::KEEP)
            .unwrap();
    }
    memory
}

#[test]
fn a_call_stays_within_what_is_promised() {
    let mut owned = largest(&mut Draw::new(10, 0));
    let (mut renderer, mut out) = (
        Renderer::new(Layout::Hall714).unwrap(),
        Output::new(Stride::MAX),
    );
    // With a table of its own the speakers are sorted at each push.
    let mut places = *HallTable::BUILT_IN.places();
    places[0].y = 0.5;
    let table = HallTable::new(places).unwrap();
    let mut own = Renderer::with_table(Layout::Hall714, &table).unwrap();
    let (mut concealer, mut memory) = (Concealer::new(Stride::MAX), vec![0; Snapshot::size()]);
    let mut ways = Vec::new();
    let mut told = Vec::new();
    for broken in [false, true] {
        owned.pcm[1000] = if broken { f32::NAN } else { 0.5 };
        told.push(depth(&mut || {
            let outcome = renderer.push_or_conceal(&owned.frame(), &mut out, &mut concealer);
            ways.push(outcome.unwrap().way);
        }));
    }
    assert_eq!(ways, [Way::Whole, Way::MetadataOnly]);
    owned.pcm[1000] = 0.5;
    told.push(depth(&mut || {
        assert!(own.push(&owned.frame(), &mut out).is_ok())
    }));
    let mut block = vec![0; sys::STATE_SIZE];
    told.push(depth(&mut || {
        assert!(Renderer::over_with_table(&mut block, Layout::Hall714, &table).is_ok())
    }));
    let saved = renderer.save(&mut memory).unwrap();
    let mut block = vec![0; sys::STATE_SIZE];
    told.push(depth(&mut || {
        assert!(Renderer::restore_over(saved, &mut block).is_ok())
    }));
    told.push(depth(&mut || assert!(renderer.flush(&mut out).is_none())));
    // Two of the longest updates wait, and in a third frame the first falls while another comes.
    own.reset();
    for (at, waiting) in [(2 * 1_536, 1), (3 * 1_536, 2), (3 * 1_536, 2)] {
        owned.metadata = longest_ahead(at);
        told.push(depth(&mut || {
            assert!(own.push(&owned.frame(), &mut out).is_ok());
        }));
        assert_eq!(own.waiting(), waiting);
    }
    told.push(depth(&mut || {
        assert!(own.hold(14).is_ok() && own.release(14).is_ok())
    }));
    told.push(depth(&mut || assert!(own.find(&[Speaker::Bass]).is_none())));
    // Of a hall that lacks channels the samples are packed first.
    let (mut pcm, mut sound) = (vec![0; 36 * 1_536], vec![0.0; 12 * 1_536]);
    let mut small = Renderer::new(Layout::Hall510).unwrap();
    let frame = owned.frame();
    let rendered = small.push(&frame, &mut out).unwrap();
    told.push(depth(&mut || {
        assert_eq!(rendered.pcm_24_into(&mut pcm), Ok(1_536))
    }));
    told.push(depth(&mut || {
        assert_eq!(read_24(&pcm, &mut sound), Ok(1_536))
    }));
    told.push(depth(&mut || {
        assert_eq!(write_24(&sound, 1_536, 1_536, &mut pcm), Ok(1_536))
    }));
    println!(
        "bytes of stack: push, concealed push, with a table, made with it, restore, flush, three with updates ahead, held and released, found, 24 bits of a small hall, read, written: {told:?}"
    );
    assert!(
        told.iter().all(|bytes| (1..PROMISED).contains(bytes)),
        "{told:?}"
    );
    let deep = depth(&mut || {
        std::hint::black_box([1u8; PROMISED]);
    });
    assert!(deep >= PROMISED, "the measure sees what is there: {deep}");
}
