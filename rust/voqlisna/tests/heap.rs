// SPDX-License-Identifier: Apache-2.0
//! After the constructors nothing is taken from the heap, and nothing is given back.

use std::alloc::{GlobalAlloc, Layout, System};
use std::cell::Cell;
use voqlisna::*;

struct Counting;

thread_local! {
    static CALLS: Cell<usize> = const { Cell::new(0) };
}

fn count() {
    CALLS.with(|calls| calls.set(calls.get() + 1));
}

// SAFETY: every call is handed on to `System`.
unsafe impl GlobalAlloc for Counting {
    unsafe fn alloc(&self, layout: Layout) -> *mut u8 {
        count();
        // SAFETY: the caller's promise is handed on.
        unsafe { System.alloc(layout) }
    }

    unsafe fn dealloc(&self, pointer: *mut u8, layout: Layout) {
        count();
        // SAFETY: the caller's promise is handed on.
        unsafe { System.dealloc(pointer, layout) }
    }
}

#[global_allocator]
static ALLOCATOR: Counting = Counting;

const SAMPLES: usize = 480;

/// All that a callback uses.
struct Player {
    renderer: Renderer,
    out: Output,
    steady: Steady,
    stage: Stage,
    concealer: Concealer,
    memory: [u8; MetadataWriter::bytes_for(2, &[1])],
}

impl Player {
    fn new() -> Self {
        let stride = Stride::for_frames_of(SAMPLES as u32).unwrap();
        Self {
            renderer: Renderer::new(voqlisna::Layout::Hall714).unwrap(),
            out: Output::new(stride),
            steady: Steady::fixed(SAMPLES).unwrap(),
            stage: Stage::new(stride, 2),
            concealer: Concealer::new(stride),
            memory: [0; MetadataWriter::bytes_for(2, &[1])],
        }
    }

    /// A device asks for 480 samples of twelve channels; now and then the decoder has nothing good.
    fn callback(
        &mut self,
        sound: &[f32; SAMPLES],
        x: f32,
        to: &mut [f32; 12 * SAMPLES],
    ) -> Result<Way, Refusal> {
        let mut writer = MetadataWriter::new(&mut self.memory);
        let update = Update {
            at: 0,
            objects: 2,
            fixed: 1,
            beds: &[Bed::Center],
        };
        let object = Object::at(Room { x, y: 0.5, z: 0.2 }).gain(1.0);
        let block = [Block {
            offset: 0,
            ramp: 480,
        }];
        writer
            .update(update)
            .unwrap()
            .element(&block, |o, _| if o == 0 { Object::KEEP } else { object })
            .unwrap();
        let pcm = self.stage.planes(&[sound, sound]).unwrap();
        let frame = Frame::new(Rate::HZ_48000, &[Bed::Center], pcm, writer.finish()).unwrap();
        let outcome = self
            .renderer
            .push_or_conceal(&frame, &mut self.out, &mut self.concealer)?;
        self.steady.put(&outcome.rendered).unwrap();
        assert_eq!(
            self.steady.take_interleaved(&Speaker::ALL, SAMPLES, to),
            SAMPLES
        );
        Ok(outcome.way)
    }
}

#[test]
fn nothing_is_taken_from_the_heap_after_new() {
    let (mut player, mut to) = (Player::new(), [0.0; 12 * SAMPLES]);
    let (before, mut concealed) = (CALLS.get(), 0);
    for k in 0..1_001 {
        let mut sound = [0.25; SAMPLES];
        if k % 10 == 9 {
            sound[k % SAMPLES] = f32::NAN;
        }
        let way = player
            .callback(&sound, k as f32 / 1_000.0, &mut to)
            .unwrap();
        concealed += usize::from(way == Way::MetadataOnly);
    }
    assert!(player.renderer.hold(0).is_ok() && player.renderer.release(0).is_ok());
    assert!(player.renderer.find(&[Speaker::Center]).is_some());
    assert!(player.renderer.flush(&mut player.out).is_some());
    player.renderer.reset();
    let table = player.renderer.table().to_bytes();
    assert_eq!(HallTable::from_bytes(&table), Ok(HallTable::BUILT_IN));
    let during = CALLS.get() - before;
    drop(vec![0u8; 9]);
    assert_eq!(
        (during, CALLS.get() - before, concealed),
        (0, 2, 100),
        "the last two are the vector's"
    );
}
