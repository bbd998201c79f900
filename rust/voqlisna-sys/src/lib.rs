// SPDX-License-Identifier: Apache-2.0
//! The C entries of the hall renderer, as `include/voqlisna.h` has them. The crate `voqlisna` is
//! the safe way to them.
//!
//! A slice is a pointer and a length in bytes. Every entry takes arguments of any length and
//! content, and ends; a refused call changes nothing.
//!
//! # Safety
//!
//! The caller of an unsafe entry owes:
//! - a pointer that is not null, also for a length of 0, and is good for its length; no alignment
//!   is asked;
//! - `state`, `out` and `dest` overlap neither each other nor another slice;
//! - the processor's default float mode: rounding to nearest, subnormals kept, exceptions masked.
//!   In another one samples may differ from what is promised, or the process ends.
#![no_std]
#![deny(missing_docs)]

/// The version of the interface that these declarations are of; [`hall_version`] answers the
/// library's.
pub const VERSION: u32 = 7;

/// Bytes of a state block of this version, for blocks that are not on a heap; [`hall_state_size`]
/// answers the library's.
pub const STATE_SIZE: usize = 77_292;

/// Where a block of this version has the updates that wait: its last bytes, first how many there are,
/// a little-endian u32.
pub const WAITS_AT: usize = 29_220;

/// Where a block of this version has its dynamic objects, and the bytes of each: gain, size, the
/// place's x, y and z, the marks (1 placed, 2 wanted held, 4 held), the send.
pub const SOURCES_AT: usize = 240;
/// See [`SOURCES_AT`].
pub const SOURCE_SIZE: usize = 28;

/// Bytes of a hall table: x, y and z of each of the twelve channels, little-endian f32.
pub const TABLE_SIZE: usize = 144;

/// Where a block of this version has its hall table: before the updates that wait.
pub const TABLE_AT: usize = WAITS_AT - TABLE_SIZE;

/// Where it has its layout's code, a little-endian u32: before the table.
pub const LAYOUT_AT: usize = TABLE_AT - 4;

/// What every entry answers but [`hall_find`], [`hall_state_size`] and [`hall_version`].
#[repr(C)]
#[derive(Clone, Copy, Debug, PartialEq)]
pub struct Answer {
    /// 0 rendered, 1 refused, 2 nothing pending, 3 done.
    pub kind: u32,
    /// The refusal, 0 else.
    pub number: u32,
    /// Its first count, 0 where it has none.
    pub first: u32,
    /// Its second count, 0 where it has none.
    pub second: u32,
    /// Samples written on each channel; of planes and 24-bit samples those converted.
    pub ready: usize,
    /// The greatest peak that the limiter met, before scaling, in the blocks that a push or flush
    /// gave out; 0 where there is none.
    pub peak: f32,
    /// The least gain by which it scaled one of these blocks, NaNs passed over; 1 where there is
    /// none.
    pub gain: f32,
}

/// What [`hall_find`] answers.
#[repr(C)]
#[derive(Clone, Copy, Debug, PartialEq)]
pub struct Place {
    /// 0 found, 1 refused, 2 none.
    pub kind: u32,
    /// The refusal, 0 else.
    pub number: u32,
    /// The place as it is panned: to the right, from -1 to 1. All three are +0.0 where there is none.
    pub x: f32,
    /// Up from the ears, from 0 to 1.
    pub y: f32,
    /// To the front, from -1 to 1.
    pub z: f32,
}

const _: () = assert!(size_of::<Answer>() == 32 && size_of::<usize>() == 8);
const _: () = assert!(size_of::<Place>() == 20);

unsafe extern "C" {
    /// Bytes of a state block.
    pub safe fn hall_state_size() -> usize;

    /// Steps with every change of the block's layout or of a signature.
    pub safe fn hall_version() -> u32;

    /// Renders a frame: kind 0 or 1. Nothing is written to the output's places of channels that the
    /// layout lacks. An update of kind 9 at or past the frame's end waits in the block for the frame
    /// in which its sample falls.
    pub fn hall_push(
        state: *mut u8,
        state_length: usize,
        pcm: *const u8,
        pcm_length: usize,
        meta: *const u8,
        meta_length: usize,
        out: *mut u8,
        out_length: usize,
        codes: *const u8,
        codes_length: usize,
        rate: u32,
        samples: u32,
        objects: u32,
        stride: u32,
    ) -> Answer;

    /// Gives out what is pending: kind 0, 1 or 2.
    pub fn hall_flush(
        state: *mut u8,
        state_length: usize,
        out: *mut u8,
        out_length: usize,
        stride: u32,
    ) -> Answer;

    /// Makes a new renderer of a block, whatever its bytes were, with the built-in table: kind 3, or
    /// kind 1 by 1 (the block has another length) or else by 15 (the layout's code is above 3). Code
    /// 0 is 7.1.4; 1 is 5.1.4, without channels 4 and 5; 2 is 7.1.0, without channels 8 to 11; 3 is
    /// 5.1.0, without either.
    pub fn hall_make(state: *mut u8, state_length: usize, layout: u32) -> Answer;

    /// The same with the speakers where the table has them: kind 3, or kind 1 by 1, 15, then 16 (the
    /// table has not [`TABLE_SIZE`] bytes), 17 (a coordinate is not finite, or outside -1 to 1), 18
    /// (two channels other than 3 have equal coordinates, the two zeros being equal).
    pub fn hall_make_with_table(
        state: *mut u8,
        state_length: usize,
        layout: u32,
        table: *const u8,
        table_length: usize,
    ) -> Answer;

    /// Makes a new renderer of the layout and the table that the block has: kind 3, or kind 1 by 1
    /// (the block has another length, a layout's code above 3, or a table that 17 or 18 would
    /// refuse). It looks at no other field.
    pub fn hall_reset(state: *mut u8, state_length: usize) -> Answer;

    /// Holds a dynamic object where it is, from the next slot on until it is released. `object` is
    /// counted from 0, as in the PCM. Kind 3, also where it is asked for already and nothing
    /// changes, or kind 1 by 1 or else by 24 (a number that is not below the dynamic objects of the
    /// last applied update). An applied update with another number of dynamic objects, reset and
    /// the making calls end all holds.
    pub fn hall_hold(state: *mut u8, state_length: usize, object: u32) -> Answer;

    /// Lets it go on, from the next slot on: a ramp that has not ended from where it is held, else
    /// to its target at once. Answers as [`hall_hold`] does.
    pub fn hall_release(state: *mut u8, state_length: usize, object: u32) -> Answer;

    /// Where to put a sound: the first place, by y, then z, then x, each rising, at which an object
    /// of gain 1 and size 0 sounds from exactly the speakers of the mask, bit c for channel c. x and
    /// z go from -1 to 1 in steps of 1/32, y from 0 to 1 in steps of 1/16; layout and table are the
    /// block's. Kind 0, 2 (there is no such place, as for no speaker, the bass feed, an absent one
    /// and a mask above 4,095), or 1 by 1. Only reads.
    pub fn hall_find(state: *const u8, state_length: usize, mask: u32) -> Place;

    /// Writes the first `count` samples of each channel of an output with this stride as 24-bit
    /// integers: three bytes, two's complement, least first, the twelve channels of a sample one
    /// behind the other. Each is the whole number nearest to sample x 8,388,608, of two the even one,
    /// and at most 8,388,607. Channels that a layout lacks are written too. Kind 3, or 1 by 1 (the
    /// stride, or an output shorter than 48 x `stride`), 2 (a count above the stride), 20 (`dest`
    /// shorter than 36 x `count`), 21 (a sample that is to be written is NaN, or outside -1 to 1).
    pub fn hall_write_24(
        out: *const u8,
        out_length: usize,
        stride: u32,
        count: u32,
        dest: *mut u8,
        dest_length: usize,
    ) -> Answer;

    /// Reads such bytes, 36 x N, as f32 samples: whole number / 8,388,608 exactly, channel after
    /// channel, N apart. Kind 3, or 1 by 19 (`source` is no multiple of 36 bytes), 20 (`dest` shorter
    /// than 48 x N).
    pub fn hall_read_24(
        source: *const u8,
        source_length: usize,
        dest: *mut u8,
        dest_length: usize,
    ) -> Answer;

    /// Writes the f32 samples of twelve channels, channel after channel, as planes: the least
    /// significant byte of each, then the next byte of each. Kind 3, or 1 by 22 or 23.
    pub fn hall_to_planes(
        source: *const u8,
        source_length: usize,
        samples: u32,
        dest: *mut u8,
        dest_length: usize,
    ) -> Answer;

    /// Writes planes as samples again, bit for bit: kind 3, or 1 by 22 or 23.
    pub fn hall_from_planes(
        source: *const u8,
        source_length: usize,
        samples: u32,
        dest: *mut u8,
        dest_length: usize,
    ) -> Answer;
}
