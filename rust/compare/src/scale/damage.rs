// SPDX-License-Identifier: Apache-2.0
//! What a host can do wrong: memory, counts and lengths, and bytes of the block.

use crate::block::{AREA, INFOS, TABLE};
use crate::calls::{Call, spoil_record};
use crate::entry::{self, BLOCK};
use crate::host::Host;
use crate::model::{Outcome, waits};
use crate::{Generator, ranges, tables};

const ONE: Outcome = Outcome::Refused([1, 0, 0]);

/// Refusal 1, whatever else is wrong: wrong strides, and slices that are short or long. Gives the
/// number of calls.
pub fn wrongly_lent(host: &mut Host, inputs: &mut Generator, call: &Call, name: &str) -> u64 {
    let mut times = 0;
    let mut refused = |host: &mut Host, call: Refused| {
        host.calls(&ONE, |s, o, n| call(s, o, n), name);
        times += 1;
    };
    let stride = inputs.pick(&[0, 1, 63, 65, 96, 1_535, 1_537, 1_600, u32::MAX]);
    refused(host, &|s, o, _| entry::push(s, call, o, stride));
    refused(host, &|s, o, _| entry::flush(s, o, stride));
    // 1 comes before 15 to 18 and 24.
    let layout = inputs.pick(&[0, 3, 4, u32::MAX]);
    let (object, wanted) = (inputs.pick(&[0, 16, u32::MAX]), inputs.chance(2));
    let room = 48 * host.stride;
    for short in [inputs.below(room as u64) as usize, room - 1] {
        refused(host, &|s, o, n| entry::push(s, call, &mut o[..short], n));
        refused(host, &|s, o, n| entry::flush(s, &mut o[..short], n));
    }
    for short in [inputs.below(BLOCK as u64) as usize, BLOCK - 1] {
        refused(host, &|s, o, n| entry::push(&mut s[..short], call, o, n));
        refused(host, &|s, o, n| entry::flush(&mut s[..short], o, n));
        refused(host, &|s, _, _| entry::reset(&mut s[..short]));
        refused(host, &|s, _, _| entry::make(&mut s[..short], layout));
        refused(host, &|s, _, _| {
            entry::mark(&mut s[..short], object, wanted)
        });
        let table = tables::spoilt(inputs);
        refused(host, &|s, _, _| {
            entry::make_with(&mut s[..short], layout, &table)
        });
    }
    host.state.push(0);
    refused(host, &|s, o, n| entry::push(s, call, o, n));
    refused(host, &entry::flush);
    refused(host, &|s, _, _| entry::reset(s));
    refused(host, &|s, _, _| entry::make(s, layout));
    refused(host, &|s, _, _| entry::mark(s, object, wanted));
    let table = tables::accepted(inputs);
    refused(host, &|s, _, _| entry::make_with(s, layout, &table));
    host.state.pop();
    times
}

/// A call on the block, the output and the stride.
type Refused<'a> = &'a dyn Fn(&mut [u8], &mut [u8], u32) -> entry::Answer;

/// What a frame of `hallrender` cannot hold: lengths and counts past every limit.
pub fn stretch(inputs: &mut Generator, call: &mut Call, stride: usize) {
    let any = inputs.below(5) as usize;
    match inputs.below(10) {
        0 => call.pcm.extend(vec![0; 1 + any]),
        1 => call.pcm.truncate(call.pcm.len().saturating_sub(1 + any)),
        2 => {
            call.samples = (stride + 1 + any) as u32;
            call.pcm = vec![0; pcm_length(call)];
        }
        3 => call.samples = inputs.pick(&[u32::MAX, 1 << 30, 1 << 31]),
        4 => call.objects = inputs.pick(&[17, 256, 1 << 30, u32::MAX]),
        5 => {
            call.codes = vec![2; 19 + 50 * any];
            call.pcm = vec![0; pcm_length(call)];
        }
        6 => call.meta.truncate(call.meta.len().saturating_sub(1 + any)),
        7 => call.meta.extend(vec![0; 1 + any]),
        8 => call.meta.extend((0..20 * any).map(|_| inputs.bits() as u8)),
        _ => call.pcm = (0..call.pcm.len()).map(|_| inputs.bits() as u8).collect(),
    }
}

/// Bytes of PCM that the counts ask for.
fn pcm_length(call: &Call) -> usize {
    4 * (call.codes.len() + call.objects as usize) * call.samples as usize
}

/// Another table, of the right length, or bytes of the one that there is.
fn table(inputs: &mut Generator, state: &mut [u8]) {
    let any = tables::spoilt(inputs);
    match inputs.below(3) {
        0 => ranges::put_table(state, &tables::accepted(inputs)),
        1 => spoil_record(inputs, &mut state[TABLE..AREA]),
        _ => state[TABLE..AREA]
            .iter_mut()
            .zip(any)
            .for_each(|(to, byte)| *to = byte),
    }
}

/// Of the area bytes in use, mostly a count, a position or a record.
fn spoil_area(inputs: &mut Generator, state: &mut [u8]) {
    let records = u32::from_le_bytes(state[AREA + 4..AREA + 8].try_into().unwrap()) as usize;
    let used = waits::RECORDS + 40 * records.min(waits::MOST_RECORDS);
    let until = inputs.pick(&[8, waits::RECORDS, used, used]);
    spoil_record(inputs, &mut state[AREA..AREA + until]);
}

/// Some bytes of a block, a number of it at or past an end of its range, its table, the limiter's gain,
/// or another block.
pub fn block(inputs: &mut Generator, state: &mut Vec<u8>) {
    match inputs.below(12) {
        11 => spoil_area(inputs, state),
        0 => spoil_record(inputs, state),
        1..4 => spoil_record(inputs, &mut state[..INFOS]),
        4 => *state = ranges::drawn(inputs),
        5 => ranges::layout().put(state, inputs.pick(&[0, 1, 2, 3, 4, 256, 1 << 31])),
        6 => table(inputs, state),
        7 => {
            let gain: f32 = inputs.pick(&[1.5, 5.0, f32::INFINITY, f32::NAN, -0.0, -1.0]);
            state[24..28].copy_from_slice(&gain.to_le_bytes());
        }
        _ => {
            let field = inputs.pick(ranges::fields());
            let most = u64::MAX >> (64 - 8 * field.width);
            let ends = [field.least, field.most, field.most + 1, most];
            field.put(state, inputs.pick(&ends));
        }
    }
}
