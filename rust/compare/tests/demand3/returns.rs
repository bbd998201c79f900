//! How soon the level returns, through `hall_push`: from a gain of 0 and after an explosion, beside
//! the floor(rate / 64) + 2 quiet blocks that `level_returns` promises. At the rates where nothing is
//! to spare the last of them is needed.

use compare::calls::Call;
use compare::entry;
use compare::host::fresh;
use compare::set;
use oracle::frame::{Frame, Object, Update};

const RATES: [u32; 8] = [
    8_000, 44_100, 48_000, 68_159, 88_200, 96_000, 191_999, 192_000,
];
const TABLE: &str = include_str!("../../../../docs/COMPARED.md");

/// Quiet blocks in a row after which the gain is 1, as promised.
fn promised(rate: u32) -> u32 {
    rate / 64 + 2
}

/// So many as the gain needs from 0, in plain f32.
fn needed(rate: u32) -> u32 {
    let mut gain = 0f32;
    let mut blocks = 0;
    while gain < 1.0 {
        gain = (gain + 64.0 / rate as f32).min(1.0);
        blocks += 1;
    }
    blocks
}

/// The rates that need all but so many of the blocks that are promised, for none, 1 and 2.
fn by_spare() -> [Vec<u32>; 3] {
    let mut rates = [(); 3].map(|()| vec![]);
    for rate in 8_000..=192_000 {
        rates[(promised(rate) - needed(rate)) as usize].push(rate);
    }
    rates
}

/// A bed of front left, at gain 8 and with samples of 16: 128 times full level.
fn frame(rate: u32, channel: &[f32]) -> Frame {
    let object = Object {
        gain: Some(8.0),
        ..Object::default()
    };
    Frame {
        rate,
        samples: channel.len(),
        pcm: channel.to_vec(),
        beds: vec![0],
        objects: 0,
        updates: vec![Update {
            offset: 0,
            objects: 1,
            bed_or_isf_objects: 1,
            beds: vec![0],
            elements: vec![set(vec![object])],
        }],
    }
}

/// So many samples of silence for the scene that is there, one bed.
fn silence(rate: u32, samples: usize) -> Call {
    Call {
        rate,
        samples: samples as u32,
        codes: vec![0],
        objects: 0,
        meta: vec![],
        pcm: vec![0; 4 * samples],
    }
}

/// A renderer that is pushed blocks.
struct Pushed {
    quiet: Call,
    state: Vec<u8>,
    out: Vec<u8>,
}

impl Pushed {
    fn new(rate: u32) -> Self {
        let mut pushed = Self {
            quiet: Call::from(&frame(rate, &[0.0; 64])),
            state: fresh(0),
            out: vec![0; 12 * 1_536 * 4],
        };
        pushed.push(&pushed.quiet.clone());
        pushed.quiet = silence(rate, 64);
        pushed
    }

    fn push(&mut self, call: &Call) {
        let answer = entry::push(&mut self.state, call, &mut self.out, 1_536);
        assert_eq!((answer.kind, answer.ready), (0, call.samples as usize));
    }

    fn gain(&self) -> f32 {
        f32::from_le_bytes(self.state[24..28].try_into().unwrap())
    }

    fn set_gain(&mut self, gain: f32) {
        self.state[24..28].copy_from_slice(&gain.to_le_bytes());
    }

    /// Quiet blocks until the gain is 1; then it stays.
    fn returns_after(&mut self) -> u32 {
        let mut blocks = 0;
        while self.gain() != 1.0 {
            self.push(&self.quiet.clone());
            blocks += 1;
        }
        self.push(&self.quiet.clone());
        assert_eq!(self.gain(), 1.0);
        blocks
    }
}

/// The table's row of a rate.
fn row(rate: u32) -> String {
    let mut pushed = Pushed::new(rate);
    let mut from = |gain: f32| {
        pushed.set_gain(gain);
        pushed.returns_after()
    };
    let from_zero = [from(0.0), from(-0.0), from(1e-45)];
    assert_eq!(from_zero, [needed(rate); 3], "{rate}");
    pushed.push(&Call::from(&frame(rate, &[16.0; 64])));
    assert!(pushed.gain() < 0.02, "{}", pushed.gain());
    let struck = pushed.returns_after();
    let most = promised(rate);
    assert!(needed(rate).max(struck) <= most, "{rate}: of {most}");
    let blocks = [most, needed(rate), struck].map(grouped).join(" | ");
    let seconds = (64 * most) as f32 / rate as f32;
    format!("| {} | {blocks} | {seconds:.4} |", grouped(rate))
}

#[test]
fn the_level_returns_in_time() {
    let rows = RATES.map(row);
    println!("{}", rows.join("\n"));
    for row in rows {
        assert!(TABLE.contains(&row), "docs/COMPARED.md: {row}");
    }
}

#[test]
fn nothing_is_to_spare() {
    let rates = by_spare();
    assert_eq!(rates.each_ref().map(Vec::len), [1_662, 179_490, 2_849]);
    let [sharp, ..] = rates;
    assert_eq!((sharp[0], sharp[1_661]), (68_159, 191_999));
    for &rate in sharp.iter().step_by(8).chain(sharp.last()) {
        let mut pushed = Pushed::new(rate);
        let all_but_one = promised(rate) as usize - 1;
        let (many, few) = (silence(rate, 1_536), silence(rate, all_but_one % 24 * 64));
        pushed.set_gain(0.0);
        for _ in 0..all_but_one / 24 {
            pushed.push(&many);
        }
        if few.samples > 0 {
            pushed.push(&few);
        }
        assert!(pushed.gain() < 1.0, "{rate}");
        assert_eq!(pushed.returns_after(), 1, "{rate}");
    }
}

/// 1536 as 1,536.
fn grouped(n: u32) -> String {
    match n / 1_000 {
        0 => n.to_string(),
        thousands => format!("{},{:03}", grouped(thousands), n % 1_000),
    }
}
