//! The text of crates/rows/specs/Lists.antt.

use super::{Group, Push, Row, Seen, Turn};
use crate::model::Outcome;
use oracle::frame::{Anchor, Block, Element, Object, Update};
use std::array;

const HEAD: &str = "\
-- The rows. `cargo run --release --offline -p compare --bin rows` in rust/ writes this file: the calls are that program's, what is seen of them is the oracle's. Assumes nothing.
use Rattle.std.specs.Prelude.{true, false, List, [], ◌∷◌, ◌++◌, replicate}
use Rattle.rules.specs.Calls.{reset, make, make_with, hold, release, find}
use Rattle.rows.specs.Rows.{Row, ◌⇒◌, refusal, ready, none, renewed, noted, found}
use Rattle.rows.specs.Notation.{concat, as_row, row_at, sent, sent_by, of_bed, of_object, flush_at, short, quiet, diagonal_words, silence, only}
use Rattle.rows.specs.Notation.{update, far, bed, spoilt, element, at_once, block_from, minus, object, at, valid_position, place, differential, gain, distance, with_size}
use Rattle.rows.specs.Notation.{screen, depth, screen_anchor, on_speakers, words}
";

/// The most columns of a line.
const COLUMNS: usize = 180;

/// Where a line may break.
const BREAK: &str = "\n";

pub fn text(groups: &[Group]) -> String {
    let mut text = HEAD.to_string();
    for Group { name, rows } in groups {
        text += &format!("\n-- ---- {name}\n");
        for row in rows {
            text += &format!("\n{}", row_text(row));
        }
        let names = list(BREAK, rows.iter().map(|row| row.name.to_string()));
        text += &format!(
            "\nabbrev pub {name} : List Row\n{name} =\n{}",
            lines(&names)
        );
    }
    let names = list(BREAK, groups.iter().map(|group| group.name.to_string()));
    text += &format!(
        "\n-- ---- all\n\nabbrev pub groups : List (List Row)\ngroups =\n{}",
        lines(&names)
    );
    text + "\nabbrev pub rows : List Row\nrows = concat groups\n"
}

fn row_text(row: &Row) -> String {
    let Row { name, shows, .. } = row;
    let head = match row.start {
        0 => "as_row".to_string(),
        start => format!("row_at {start}"),
    };
    let mut text = format!("-- {shows}\nabbrev pub {name} : Row\n{name} =\n    {head}\n");
    for (k, (turn, seen)) in row.turns.iter().zip(row.seen()).enumerate() {
        let before = if k == 0 { "(" } else { "∷ " };
        let (turn, said) = (turn_text(turn), seen_text(&seen));
        text += &lines(&format!("{before}{turn}{BREAK}⇒ {said}"));
    }
    text + "    ∷ [])\n"
}

/// Lines of as many pieces as fit; a piece that is too long for a line breaks behind any `∷`.
fn lines(text: &str) -> String {
    let text = text.replace("∷\n[]", "∷ []");
    let fits = |text: &str| text.chars().count() + 4 <= COLUMNS;
    let mut lines: Vec<String> = Vec::new();
    let mut place = |piece: &str| match lines.last_mut() {
        Some(line) if fits(&format!("{line} {piece}")) => *line += &format!(" {piece}"),
        _ => lines.push(piece.to_string()),
    };
    for piece in text.split(BREAK) {
        if fits(piece) {
            place(piece);
        } else {
            let parts = piece.split_inclusive("∷ ");
            parts.for_each(|part| place(part.trim_end()));
        }
    }
    lines.iter().map(|line| format!("    {line}\n")).collect()
}

// ---- calls

fn turn_text(turn: &Turn) -> String {
    match turn {
        Turn::Push(push) => push_text(push),
        Turn::Flush(stride) => format!("flush_at {stride}"),
        Turn::Reset => "reset".to_string(),
        Turn::Make(layout) => format!("make {layout}"),
        Turn::MakeWith(layout, table) => format!("make_with {layout} {}", table_text(table)),
        Turn::Mark(object, true) => format!("hold {object}"),
        Turn::Mark(object, false) => format!("release {object}"),
        Turn::Find(mask) => format!("find {mask}"),
        Turn::Short(turn) => format!("short {}", within(turn_text(turn))),
    }
}

/// A table of whole words.
fn table_text(table: &[u8]) -> String {
    let words = table.chunks(4);
    let words = words.map(|word| self::word(&u32::from_le_bytes(word.try_into().unwrap())));
    within(format!("words{BREAK}{}", within(list(" ", words))))
}

fn push_text(push: &Push) -> String {
    let spoil = |text: String, (at, byte): &(usize, u8)| format!("spoilt {at} {byte} ({text})");
    let far = push.ahead.iter().map(far_text);
    let mut updates: Vec<String> = far.chain(push.updates.iter().map(update_text)).collect();
    if let Some(first) = updates.first_mut() {
        *first = push.spoilt.iter().fold(first.clone(), spoil);
    }
    let meta = match updates.as_slice() {
        [first, _, _, ..] if updates.iter().all(|u| u == first) => {
            format!("(replicate {} {})", updates.len(), within(first.clone()))
        }
        [first, _, .., last] if updates.iter().rev().skip(1).all(|u| u == first) => {
            let (count, first) = (updates.len() - 1, within(first.clone()));
            within(format!(
                "replicate {count} {first} ++{BREAK}{last} ∷{BREAK}[]"
            ))
        }
        _ => within(list(BREAK, updates)),
    };
    let head = match (push.stride, push.rate) {
        (64, 48_000) => "sent".to_string(),
        (stride, rate) => format!("sent_by {stride} {rate}"),
    };
    let bits: Vec<u32> = push.pcm.iter().map(|x| x.to_bits()).collect();
    let (samples, codes) = (push.samples, within(codes(&push.codes)));
    let pcm = within(pcm_text(&bits, samples as usize));
    let head = format!("{head} {samples} {codes} {} {pcm}", push.objects);
    let head = match head.as_str() {
        "sent 1 (0 ∷ []) 0 (0x3f000000 ∷ [])" => "of_bed",
        "sent 1 [] 1 (0x3f000000 ∷ [])" => "of_object",
        head => head,
    };
    format!("{head}{BREAK}{meta}")
}

fn far_text((offset, update): &(u32, Update)) -> String {
    format!("far {offset} {}", within(update_text(update)))
}

fn update_text(update: &Update) -> String {
    let beds = update.beds.len() as u8;
    assert_eq!(
        update.bed_or_isf_objects, beds,
        "another number by `spoilt`"
    );
    let (offset, dynamic, codes) = (
        update.offset,
        update.objects - beds,
        within(codes(&update.beds)),
    );
    let elements = within(list(BREAK, update.elements.iter().map(element_text)));
    match (offset, dynamic, elements.as_str()) {
        (0, 0, "[]") => format!("bed {codes}"),
        _ => format!("update {offset} {codes} {dynamic} {elements}"),
    }
}

fn element_text(element: &Element) -> String {
    let objects =
        |objects: &mut dyn Iterator<Item = &Object>| within(list(BREAK, objects.map(object_text)));
    if let [first, Block { offset: -1, ramp }] = element.blocks[..]
        && first == Block::default()
        && element.objects.iter().all(|o| o[0] == Object::default())
    {
        let objects = objects(&mut element.objects.iter().map(|o| &o[1]));
        return format!("at_once {} {objects}", signed(ramp));
    }
    let block = |b: &Block| format!("block_from {} {}", signed(b.offset), signed(b.ramp));
    let blocks = within(list(" ", element.blocks.iter().map(block)));
    let objects = objects(&mut element.objects.iter().flatten());
    format!("element {blocks}{BREAK}{objects}")
}

fn object_text(object: &Object) -> String {
    assert_eq!(object.send.to_bits(), 0, "a send is put in as bytes");
    let place = object.position.map(|p| p.map(float).join(" "));
    let mut text = match (object.position_valid, place) {
        (false, None) => "object".to_string(),
        (true, None) => "valid_position object".to_string(),
        (false, Some(place)) => format!("place {place} object"),
        (true, Some(place)) => format!("at {place}"),
    };
    let anchor = match object.anchor {
        Anchor::Room => None,
        Anchor::Screen => Some("screen_anchor".to_string()),
        Anchor::Speaker => Some("on_speakers".to_string()),
    };
    let given = |name: &str, x: Option<f32>| x.map(|x| format!("{name} {}", float(x)));
    let other = |x: f32| (x != 1.0).then_some(x);
    let words = [
        object.differential.then(|| "differential".to_string()),
        given("gain", object.gain),
        given("distance", object.distance),
        given("with_size", object.size),
        given("screen", other(object.screen)),
        given("depth", other(object.depth)),
        anchor,
    ];
    for word in words.into_iter().flatten() {
        text = format!("{word} {}", within(text));
    }
    text
}

// ---- what is seen

fn seen_text(seen: &Seen) -> String {
    match seen {
        Seen::Said(outcome) => outcome_text(outcome),
        Seen::Noted(changed) => format!("noted {changed}"),
        Seen::Place(Some(place)) => format!("found {}", place.map(float).join(" ")),
        Seen::Place(None) => "nowhere".to_string(),
    }
}

fn outcome_text(outcome: &Outcome) -> String {
    match outcome {
        Outcome::Ready(channels, _) => {
            // An absent channel has no samples, and its places in the output stay 0.
            let word = |c: usize, i: usize| channels[c].get(i).map_or(0, |x| x.to_bits());
            let sample = |i: usize| array::from_fn(|c| word(c, i));
            let samples: Vec<[u32; 12]> = (0..channels[0].len()).map(sample).collect();
            let quiet = |sample: &[u32; 12]| sample == &[0; 12];
            format!(
                "ready {}",
                within(runs(&samples, quiet, "silence", BREAK, sample_text))
            )
        }
        Outcome::Refused([number, first, second]) => format!("refusal {number} {first} {second}"),
        Outcome::Nothing => "none".to_string(),
        Outcome::New(_) => "renewed".to_string(),
        Outcome::Marked(_) => unreachable!("`Seen` has it"),
    }
}

fn sample_text(sample: &[u32; 12]) -> String {
    let heard: Vec<usize> = (0..12).filter(|&c| sample[c] != 0).collect();
    match heard[..] {
        [] => "quiet 12".to_string(),
        [c] => format!("only {c} {}", word(&sample[c])),
        _ => within(list(" ", sample.iter().map(word))),
    }
}

// ---- lists and numbers

fn pcm_text(bits: &[u32], samples: usize) -> String {
    let diagonal = |k: usize| {
        if k / samples == k % samples {
            bits[0]
        } else {
            0
        }
    };
    if samples > 2
        && bits.len() == samples * samples
        && (0..bits.len()).all(|k| bits[k] == diagonal(k))
    {
        return format!("diagonal_words {samples} {}", word(&bits[0]));
    }
    runs(bits, |&w| w == 0, "quiet", " ", word)
}

fn codes(codes: &[u8]) -> String {
    runs(codes, |&code| code == 0, "quiet", " ", u8::to_string)
}

/// A list in which a run of more than two zeros has a name.
fn runs<T>(
    items: &[T],
    zero: impl Fn(&T) -> bool,
    name: &str,
    between: &str,
    text: impl Fn(&T) -> String,
) -> String {
    let mut parts = vec![String::new()];
    for run in items.chunk_by(|a, b| zero(a) == zero(b)) {
        let last = parts.last_mut().unwrap();
        if zero(&run[0]) && run.len() > 2 {
            *last += &format!("{name} {}", run.len());
            parts.push(String::new());
        } else {
            run.iter()
                .for_each(|item| *last += &format!("{} ∷{between}", text(item)));
        }
    }
    match parts.pop() {
        Some(last) if last.is_empty() && !parts.is_empty() => (),
        last => parts.push(last.unwrap_or_default() + "[]"),
    }
    parts.join(&format!(" ++{between}"))
}

fn list(between: &str, items: impl IntoIterator<Item = String>) -> String {
    let items = items.into_iter().map(|item| format!("{item} ∷{between}"));
    items.collect::<String>() + "[]"
}

/// As an argument.
fn within(text: String) -> String {
    if text.contains([' ', '\n']) {
        format!("({text})")
    } else {
        text
    }
}

fn float(x: f32) -> String {
    word(&x.to_bits())
}

fn word(bits: &u32) -> String {
    match bits {
        0 => "0".to_string(),
        bits => format!("0x{bits:08x}"),
    }
}

fn signed(x: i64) -> String {
    match x {
        0.. => x.to_string(),
        _ => format!("(minus {})", x.unsigned_abs()),
    }
}
