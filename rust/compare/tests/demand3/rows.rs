//! The rows of crates/rows: what they say is the oracle's, and the exported entries'.

use compare::entry::{self, Answer};
use compare::host::fresh;
use compare::model::{Meters, Outcome};
use compare::rows::{self, Row, Seen, Turn};
use compare::setup::Setup;
use compare::{block, floats};
use std::fs;
use std::path::Path;

/// The file is what the program `rows` writes.
#[test]
#[cfg_attr(no_sources, ignore = "Rust sources not at hand")]
fn what_is_said_is_the_oracles() {
    let file = Path::new(env!("CARGO_MANIFEST_DIR")).join("../../crates/rows/specs/Lists.antt");
    let written = fs::read_to_string(file).unwrap();
    let text = rows::text();
    let difference = written.lines().zip(text.lines()).find(|(a, b)| a != b);
    assert!(
        written == text,
        "{difference:?}: run `cargo run --bin rows`"
    );
}

fn lent(turn: &Turn, state: &mut [u8], out: &mut [u8]) -> Answer {
    match turn {
        Turn::Push(push) => entry::push(state, &push.into(), out, push.stride),
        Turn::Flush(stride) => entry::flush(state, out, *stride),
        Turn::Reset => entry::reset(state),
        Turn::Make(layout) => entry::make(state, *layout),
        Turn::MakeWith(layout, table) => entry::make_with(state, *layout, table),
        Turn::Mark(object, wanted) => entry::mark(state, *object, *wanted),
        Turn::Find(_) => unreachable!("it answers a place"),
        Turn::Short(turn) => lent(turn, state, out),
    }
}

fn meters(answer: Answer) -> Meters {
    let Answer { peak, gain, .. } = answer;
    Meters { peak, gain }
}

/// What the entries have the host see of each call.
fn seen(row: &Row) -> Vec<Seen> {
    let mut state = fresh(0);
    state[8..16].copy_from_slice(&row.start.to_le_bytes());
    let seen = |turn: &Turn| {
        if let Turn::Find(mask) = turn {
            let place = entry::find(&state, *mask);
            let [x, y, z] = [place.x, place.y, place.z];
            return Seen::Place((place.kind == 0).then_some([x, y, z]));
        }
        let (mut out, before) = (vec![0; turn.room()], state.clone());
        let answer = lent(turn, &mut state, &mut out);
        let layout = block::layout(&state);
        let channel = |c: usize| {
            let ready = 4 * answer.ready * usize::from(block::has(layout, c));
            floats(&out[4 * c * turn.stride() as usize..][..ready])
        };
        Seen::Said(match answer.kind {
            _ if matches!(turn, Turn::Mark(..)) && answer.kind == 3 => {
                return Seen::Noted(state != before);
            }
            0 => Outcome::Ready((0..12).map(channel).collect(), meters(answer)),
            1 => Outcome::Refused([answer.number, answer.first, answer.second]),
            2 => Outcome::Nothing,
            _ => Outcome::New(Setup::of_block(&state)),
        })
    };
    row.turns.iter().map(seen).collect()
}

/// No sample is a NaN, and the two zeros differ.
#[test]
#[cfg_attr(no_sources, ignore = "Rust sources not at hand")]
fn the_entries_say_the_same() {
    for row in rows::groups().iter().flat_map(|group| &group.rows) {
        let (found, expected) = (seen(row), row.seen());
        assert_eq!(
            format!("{found:?}"),
            format!("{expected:?}"),
            "{}",
            row.name
        );
    }
}
