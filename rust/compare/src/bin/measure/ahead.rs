// SPDX-License-Identifier: Apache-2.0
//! What updates that lie far ahead cost: the same pushes while none waits and while eight do,
//! of as many records as may; a push that brings these eight, and one in which they fall. On the
//! library alone: the Rust does not know kind 9, and is given each update in the frame where it falls.

use crate::case::{Case, Inputs, Updates};
use crate::sides::{Library, Side, assert_equal};
use crate::table::{FULL, digits, digits_of};
use crate::times::{Ratio, least, rounds};
use compare::Generator;
use compare::block::AREA;
use compare::entry;
use compare::host::Host;
use compare::model::waits::{MOST, MOST_RECORDS};
use compare::records::write_ahead;
use oracle::Input;
use oracle::frame::{Object, Update};
use std::time::Duration;

const LENGTHS: [usize; 4] = [1, 64, 480, 1_536];
const NAMES: [&str; 4] = [
    "while none waits",
    "while eight wait",
    "that brings the eight",
    "in which they fall",
];
/// Samples between two blocks of an update, as where objects move.
const SPAN: usize = 512;
/// Runs of a round where a run times one push alone.
const ALONE: usize = 16;

/// As many updates as may wait, of as many records as may: seven of 138 records, and one of 234. All
/// have the sources of the full case, the last one two ISF objects besides that are no beds: of 26
/// objects no eight updates have 1,200 records.
fn updates() -> Vec<Update> {
    let mut inputs = Generator::new(11);
    let short = (1..MOST).map(|_| FULL.update_of(&mut inputs, &[3, 2], SPAN));
    let mut updates: Vec<Update> = short.collect();
    let mut long = FULL.update_of(&mut inputs, &[8], SPAN);
    long.objects += 2;
    long.bed_or_isf_objects += 2;
    let isf = [0, 1].map(|_| vec![Object::SILENT; 8]);
    long.elements[0].objects.splice(FULL.beds..FULL.beds, isf);
    updates.push(long);
    updates
}

/// More samples ahead than a run has: a minute for the first.
fn far(k: usize) -> usize {
    60 * 48_000 + 1_536 * k
}

/// Push `with` brings them too, number k so many samples ahead.
fn bring(inputs: &mut Inputs, with: usize, ahead: impl Fn(usize) -> usize) {
    for (k, update) in updates().iter().enumerate() {
        let records = write_ahead(update, ahead(k) as u32);
        inputs.calls[with].meta.extend(records);
    }
}

/// Those of the case, and at the end a frame without updates, which is not in the order.
fn inputs(case: &Case) -> Inputs {
    let still = Case {
        samples: 1_536,
        updates: Updates::Still,
        ..FULL
    };
    let Inputs {
        mut frames, order, ..
    } = case.inputs();
    frames.push(still.inputs().frames.swap_remove(1));
    Inputs::new(frames, order)
}

/// The same with three pushes in the order, of which the last is timed alone.
fn three(case: &Case) -> Inputs {
    let mut inputs = inputs(case);
    inputs.order.truncate(3);
    inputs
}

/// All fall in the last push, spread over its samples, those of its first sample before its own.
fn falling(case: &Case) -> Inputs {
    let mut inputs = three(case);
    let at = |k: usize| k * case.samples / MOST;
    bring(&mut inputs, 1, |k| case.samples + at(k));
    let fallen = updates().into_iter().enumerate().map(|(k, update)| Update {
        offset: at(k) as u16,
        ..update
    });
    inputs.frames[2].updates.splice(..0, fallen);
    inputs.rust[2] = Input::new(&inputs.frames[2]);
    inputs
}

/// What is timed.
struct Pushes {
    inputs: Inputs,
    /// Those from this one on are timed.
    first: usize,
    /// The eight wait behind them, or none does.
    wait: bool,
}

/// In the order of their names.
fn kinds(case: &Case) -> [Pushes; NAMES.len()] {
    let pushes = |inputs, first, wait| Pushes {
        inputs,
        first,
        wait,
    };
    let (mut waiting, mut bringing) = (inputs(case), three(case));
    bring(&mut waiting, 0, far);
    bring(&mut bringing, 2, far);
    [
        pushes(inputs(case), 1, false),
        pushes(waiting, 1, true),
        pushes(bringing, 2, true),
        pushes(falling(case), 2, false),
    ]
}

impl Pushes {
    /// Timed pushes of a run, and runs of a round.
    fn counts(&self) -> [usize; 2] {
        match self.inputs.order.len() - self.first {
            1 => [1, ALONE],
            pushes => [pushes, 1],
        }
    }

    /// Each run starts with a reset, and its first pushes are not counted.
    fn time(&self, side: &mut Side) -> Duration {
        let [_, runs] = self.counts();
        (0..runs)
            .map(|_| side.time(&self.inputs, self.first, None))
            .sum()
    }

    /// Every push gives the Rust's samples, and so does the frame behind them, in which what they left
    /// is heard; and the eight wait then, or none.
    fn assert_right(&mut self, sides: &mut [Side]) {
        let Pushes { inputs, wait, .. } = self;
        inputs.order.push(inputs.frames.len() - 1);
        assert_equal(sides, inputs);
        let most = if *wait { [MOST, MOST_RECORDS] } else { [0; 2] };
        assert_eq!(waiting(inputs), most, "updates, and their records");
        inputs.order.pop();
    }
}

/// How many updates wait behind the pushes, and of how many records.
fn waiting(inputs: &Inputs) -> [usize; 2] {
    let mut host = Host::new(1_536);
    for &frame in &inputs.order {
        let call = &inputs.calls[frame];
        let answer = entry::push(&mut host.state, call, &mut host.out, 1_536);
        assert_eq!(answer.kind, 0);
    }
    let word = |at: usize| u32::from_le_bytes(host.state[at..][..4].try_into().unwrap());
    [AREA, AREA + 4].map(|at| word(at) as usize)
}

/// Seconds a push in each round, of each kind.
pub struct Row {
    samples: usize,
    pub times: Vec<Vec<f64>>,
}

/// All of them with nothing found yet.
pub fn rows() -> Vec<Row> {
    let row = |samples| Row {
        samples,
        times: vec![Vec::new(); NAMES.len()],
    };
    LENGTHS.into_iter().map(row).collect()
}

/// The rounds of a row, a line for each kind.
fn timed(samples: usize, seconds: f64) -> Vec<Vec<f64>> {
    let mut library = [Side::Library(Library::new())];
    let mut kinds = kinds(&Case { samples, ..FULL });
    for pushes in &mut kinds {
        pushes.assert_right(&mut library);
    }
    let mut times = rounds(kinds.len(), seconds, |kind| {
        kinds[kind].time(&mut library[0])
    });
    for (times, pushes) in times.iter_mut().zip(&kinds) {
        let [pushes, runs] = pushes.counts().map(|count| count as f64);
        times.iter_mut().for_each(|time| *time /= pushes * runs);
    }
    times
}

/// Rounds of all rows, printed.
pub fn sweep(seconds: f64) {
    for samples in LENGTHS {
        for times in timed(samples, seconds) {
            let line: Vec<String> = times.iter().map(f64::to_string).collect();
            println!("{}", line.join(" "));
        }
    }
}

pub fn print(rows: &[Row]) {
    println!(
        "\n### Updates ahead: 16 objects, 10 beds, moving; {MOST} updates of {} records in all\n",
        digits_of(MOST_RECORDS)
    );
    println!("| samples | a push | µs | over none waiting |\n|---|---|---|---|");
    for Row { samples, times } in rows {
        for (kind, (name, of_kind)) in NAMES.iter().zip(times).enumerate() {
            let over = match kind {
                0 => "–".into(),
                _ => Ratio::new(of_kind, &times[0]).to_string(),
            };
            let micros = digits(least(of_kind) * 1e6);
            let samples = digits_of(*samples);
            println!("| {samples} | {name} | {micros} | {over} |");
        }
    }
}
