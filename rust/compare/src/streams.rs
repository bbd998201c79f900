//! Streams of `hallrender`: its standard input from calls, and the standard output that document
//! 01 has it print.

use crate::Generator;
use crate::calls::{Call, Calls, Step, spoil_order, spoil_record};
use crate::model::{Model, Outcome};
use crate::records::{record, zero};
use std::fmt::Write;

/// The stride of `hallrender`.
pub const STRIDE: usize = 256;

/// The records of a step.
pub fn append(stream: &mut Vec<u8>, step: &Step) {
    let call = match step {
        Step::Push(call) => call,
        Step::Flush => return stream.extend(record(7)),
        Step::Reset => return stream.extend(record(8)),
        Step::Make(_) | Step::MakeWith(..) => panic!("hallrender makes its renderer itself"),
        Step::Hold(_) | Step::Release(_) => panic!("hallrender holds no object"),
    };
    let mut header = record(5);
    header[4..8].copy_from_slice(&call.rate.to_le_bytes());
    header[8..10].copy_from_slice(&(call.samples as u16).to_le_bytes());
    header[10] = call.codes.len() as u8;
    header[11] = call.objects as u8;
    header[12..14].copy_from_slice(&(call.meta.len() as u16 / 40).to_le_bytes());
    header[14..][..call.codes.len()].copy_from_slice(&call.codes);
    stream.extend(header);
    stream.extend(&call.meta);
    for nine in call.pcm.chunks(36) {
        let mut pcm = record(6);
        pcm[4..][..nine.len()].copy_from_slice(nine);
        stream.extend(pcm);
    }
}

/// A seeded stream of up to 16 steps; one in five is damaged.
pub fn stream(seed: u64) -> Vec<u8> {
    let (mut inputs, mut stream) = undamaged(seed);
    if inputs.chance(5) {
        damage(&mut inputs, &mut stream);
    }
    stream
}

/// A seeded stream of 12 steps in which objects are sent to the bass feed.
pub fn sending(seed: u64) -> Vec<u8> {
    let mut calls = Calls::sending(seed + 4_000_000, STRIDE as u64);
    let mut stream = Vec::new();
    for _ in 0..12 {
        append(&mut stream, &calls.next_step());
    }
    stream
}

/// The same as `stream`, damaged in one to three places.
pub fn damaged(seed: u64) -> Vec<u8> {
    let (mut inputs, mut stream) = undamaged(seed);
    for _ in 0..1 + inputs.below(3) {
        damage(&mut inputs, &mut stream);
    }
    stream
}

/// The stream, and the generator behind it.
fn undamaged(seed: u64) -> (Generator, Vec<u8>) {
    let mut inputs = Generator::new(seed.wrapping_mul(0x5851_f42d_4c95_7f2d));
    let mut calls = Calls::new(inputs.bits(), STRIDE as u64);
    let mut stream = Vec::new();
    for _ in 0..inputs.below(17) {
        append(&mut stream, &calls.next_step());
    }
    (inputs, stream)
}

fn damage(inputs: &mut Generator, stream: &mut Vec<u8>) {
    let records = stream.len() as u64 / 40;
    match inputs.below(6) {
        0 => stream.truncate(inputs.below(stream.len() as u64 + 1) as usize),
        1 => stream.truncate(40 * inputs.below(records + 1) as usize),
        2 => spoil_order(inputs, stream),
        3 => {
            let at = 40 * inputs.below(records + 1) as usize;
            let mut any = record(inputs.pick(&[0, 1, 4, 5, 6, 7, 8, 9, 255]));
            if inputs.chance(2) {
                any[inputs.below(40) as usize] = 1;
            }
            stream.splice(at..at, any);
        }
        4 => spoil_record(inputs, stream),
        _ => {
            // A header, a flush or a reset.
            let whole = 0..records as usize;
            let heads: Vec<usize> = whole
                .map(|record| 40 * record)
                .filter(|&at| matches!(stream[at], 5 | 7 | 8))
                .collect();
            if !heads.is_empty() {
                let at = inputs.pick(&heads);
                spoil_record(inputs, &mut stream[at..at + 40]);
            }
        }
    }
}

/// What stops `hallrender`.
pub struct BadRecord;

/// The steps of a stream, up to its end or to a bad record.
pub fn steps(stream: &[u8]) -> (Vec<Step>, Option<BadRecord>) {
    let mut records = Records { rest: stream };
    let mut steps = Vec::new();
    while !records.rest.is_empty() {
        match records.step() {
            Ok(step) => steps.push(step),
            Err(bad) => return (steps, Some(bad)),
        }
    }
    (steps, None)
}

/// The standard output of `hallrender` for that standard input.
pub fn played(stream: &[u8]) -> String {
    let mut text = String::new();
    let mut model = Model::new();
    let (steps, bad) = steps(stream);
    for step in &steps {
        print(&mut text, &model.step(step, STRIDE));
    }
    if let Some(BadRecord) = bad {
        text.push_str("bad record\n");
    }
    text
}

fn print(text: &mut String, outcome: &Outcome) {
    match outcome {
        Outcome::Ready(channels, _) => {
            let ready = channels[0].len();
            writeln!(text, "ready {ready}").unwrap();
            for i in 0..ready {
                let words = channels
                    .iter()
                    .map(|channel| format!("{:08x}", channel[i].to_bits()));
                text.push_str(&words.collect::<Vec<_>>().join(" "));
                text.push('\n');
            }
        }
        Outcome::Refused([number, first, second]) => {
            writeln!(text, "refused {number} {first} {second}").unwrap();
        }
        Outcome::Nothing => text.push_str("none\n"),
        Outcome::New(_) => text.push_str("reset\n"),
        Outcome::Marked(_) => panic!("hallrender holds no object"),
    }
}

struct Records<'a> {
    rest: &'a [u8],
}

impl<'a> Records<'a> {
    fn next(&mut self) -> Result<&'a [u8; 40], BadRecord> {
        let (record, rest) = self.rest.split_first_chunk().ok_or(BadRecord)?;
        self.rest = rest;
        Ok(record)
    }

    fn step(&mut self) -> Result<Step, BadRecord> {
        let record = self.next()?;
        match record[0] {
            5 => self.frame(record).map(Step::Push),
            7 if zero(&record[1..]) => Ok(Step::Flush),
            8 if zero(&record[1..]) => Ok(Step::Reset),
            _ => Err(BadRecord),
        }
    }

    fn frame(&mut self, header: &[u8; 40]) -> Result<Call, BadRecord> {
        let half = |at: usize| usize::from(u16::from_le_bytes([header[at], header[at + 1]]));
        let (samples, records) = (half(8), half(12));
        let (beds, objects) = (usize::from(header[10]), usize::from(header[11]));
        if samples > 256
            || beds > 18
            || objects > 16
            || records > 1_200
            || !zero(&header[1..4])
            || !zero(&header[14 + beds..])
        {
            return Err(BadRecord);
        }
        let mut meta = Vec::new();
        for _ in 0..records {
            meta.extend(self.next()?);
        }
        let bytes = 4 * (beds + objects) * samples;
        let mut pcm = Vec::new();
        while pcm.len() < bytes {
            let record = self.next()?;
            let used = (bytes - pcm.len()).min(36);
            if record[0] != 6 || !zero(&record[1..4]) || !zero(&record[4 + used..]) {
                return Err(BadRecord);
            }
            pcm.extend(&record[4..4 + used]);
        }
        Ok(Call {
            rate: u32::from_le_bytes(header[4..8].try_into().unwrap()),
            samples: samples as u32,
            codes: header[14..14 + beds].to_vec(),
            objects: objects as u32,
            meta,
            pcm,
        })
    }
}
