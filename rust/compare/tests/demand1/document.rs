//! The tables of docs/STATE-BLOCK.md: each place is the one before plus its width, the ranges are
//! those that the other tests hold the entries to, the names are those of the decoded fields, and
//! making and reset leave what is written there.

use compare::block::AREA;
use compare::entry::{self, BLOCK};
use compare::model::waits;
use compare::ranges::{self, Field};
use compare::setup::built_in;
use compare::{Generator, block, seeds, tables};

const DOCUMENT: &str = include_str!("../../../../docs/STATE-BLOCK.md");

/// The rows under one header, each the cells in the columns that are asked for.
fn rows(text: &str, columns: [&str; 4]) -> Vec<[String; 4]> {
    let cells = |line: &str| -> Vec<String> {
        let line = line.trim_matches('|');
        line.split('|')
            .map(|cell| cell.trim().to_string())
            .collect()
    };
    let mut lines = text.lines().skip_while(|line| !line.starts_with('|'));
    let header = cells(lines.next().expect("a table"));
    let column = |name: &str| header.iter().position(|cell| cell == name).expect(name);
    let columns = columns.map(column);
    lines
        .skip(1)
        .take_while(|line| line.starts_with('|'))
        .map(|line| columns.map(|i| cells(line)[i].clone()))
        .collect()
}

/// Sums of numbers: 8,000, 0x3f800000, 2^47 - 2^21.
fn number(text: &str) -> u64 {
    let term = |text: &str| -> u64 {
        let digits = text.replace(',', "");
        if let Some(power) = digits.strip_prefix("2^") {
            1 << power.parse::<u32>().expect(text)
        } else if let Some(hex) = digits.strip_prefix("0x") {
            u64::from_str_radix(hex, 16).expect(text)
        } else {
            digits.parse().expect(text)
        }
    };
    if let Some((left, right)) = text.rsplit_once(" - ") {
        number(left) - term(right)
    } else if let Some((left, right)) = text.rsplit_once(" + ") {
        number(left) + term(right)
    } else {
        term(text)
    }
}

/// The range of any bits, and that of a coordinate.
const ANY: (u64, u64) = (0, u64::MAX);
const COORDINATE: (u64, u64) = (u64::MAX, 0);

/// A field's range whatever the others are.
fn range(text: &str) -> (u64, u64) {
    let own = text.split(';').next().unwrap();
    let ends = own.trim_start_matches("0, or ").strip_prefix("from ");
    if own == "any bits" {
        ANY
    } else if own == "f32 from -1 to 1" {
        COORDINATE
    } else if own == "0 or 1" {
        (0, 1)
    } else if let Some(most) = own.strip_prefix("at most ") {
        (0, number(most))
    } else if let Some(bound) = own.strip_prefix("below ") {
        (0, number(bound) - 1)
    } else if let Some((least, most)) = ends.and_then(|ends| ends.split_once(" to ")) {
        (number(least), number(most))
    } else {
        (number(own), number(own))
    }
}

/// The text from a struct's title on, and the struct's size.
fn titled(name: &str) -> Option<(&'static str, usize)> {
    let (article, rest) = name.split_at(1);
    let title = format!("\n{}{rest}, ", article.to_uppercase());
    let start = DOCUMENT.find(&title)? + title.len();
    let (size, _) = DOCUMENT[start..].split_once(" bytes")?;
    Some((&DOCUMENT[start..], number(size) as usize))
}

fn field(at: usize, width: usize, (least, most): (u64, u64)) -> Field {
    Field {
        at,
        width,
        least,
        most,
    }
}

/// The fields of a struct that stands at `start`, entry by entry, with their names; the place
/// behind it.
fn walk(name: &str, start: usize, fields: &mut Vec<(String, Field)>) -> usize {
    let (text, size) = titled(name).unwrap_or_else(|| panic!("no table of {name}"));
    let mut at = start;
    for [byte, bytes, named, said] in rows(text, ["byte", "bytes", "field", "range"]) {
        assert_eq!(at - start, number(&byte) as usize, "{name}: {named}");
        let (count, width) = bytes.split_once(" x ").unwrap_or(("1", &bytes));
        let width = number(width) as usize;
        for _ in 0..number(count) {
            if titled(&said).is_some() {
                assert_eq!(walk(&said, at, fields), at + width, "{named}");
            } else {
                fields.push((named.clone(), field(at, width, range(&said))));
            }
            at += width;
        }
    }
    assert_eq!(at - start, size, "{name}");
    at
}

fn written() -> Vec<(String, Field)> {
    let mut fields = Vec::new();
    assert_eq!(walk("the block", 0, &mut fields), BLOCK);
    fields
}

#[test]
fn ranges_are_those_tested() {
    let any = |field: &Field| (field.least, field.most) == ANY;
    let (floats, said): (Vec<_>, Vec<_>) = written().iter().map(|w| w.1).partition(any);
    let positions = AREA + waits::POSITIONS..AREA + waits::RECORDS;
    let width = |field: &Field| if positions.contains(&field.at) { 8 } else { 4 };
    let is_float = |field: &Field| field.width == width(field);
    assert!(floats.iter().all(is_float), "floats, positions, records");
    let table = |field: &Field| (field.least, field.most) == COORDINATE;
    let (table, said): (Vec<_>, Vec<_>) = said.into_iter().partition(table);
    let word = |k: usize| field(block::TABLE + 4 * k, 4, COORDINATE);
    assert_eq!(table, (0..36).map(word).collect::<Vec<_>>());
    let mut tested = ranges::fields().to_vec();
    tested.sort_by_key(|field| field.at);
    assert_eq!(said, tested);
}

#[test]
fn words_are_bytes_over_four() {
    let (text, _) = titled("the block").unwrap();
    for [byte, word, field, _] in rows(text, ["byte", "word", "field", "range"]) {
        assert_eq!(number(&byte), 4 * number(&word), "{field}");
    }
}

/// What stands under a name is what `block` decodes, which other tests hold to the entries.
#[test]
fn names_are_those_decoded() {
    let fields = written();
    for seed in seeds!(0..100) {
        let bytes = ranges::drawn(&mut Generator::new(seed));
        let state = block::state(&bytes);
        let said = |name: &str| {
            let (_, field) = fields.iter().find(|field| field.0 == name).expect(name);
            field.number(&bytes)
        };
        let metadata = &state.metadata;
        let decoded = [
            ("rate", u64::from(state.sample_rate.unwrap_or(0))),
            ("phase", state.metadata_timeslot_phase as u64),
            ("position", state.stream_sample_offset as u64),
            ("slot start", state.metadata_timeslot_stream_sample as u64),
            ("pending", state.limiter_pending[0].len() as u64),
            ("layout", block::layout(&bytes).into()),
            ("initialized", metadata.initialized.into()),
            ("payload position", metadata.payload_stream_sample as u64),
            ("objects", metadata.object_count as u64),
            ("`bed_or_isf_objects`", metadata.bed_or_isf_objects as u64),
            ("bed channels", metadata.bed_channels.len() as u64),
            ("elements in use", metadata.elements.len() as u64),
        ];
        for (name, number) in decoded {
            assert_eq!(said(name), number, "{name}");
        }
        let gain = f32::from_bits(said("limiter gain") as u32);
        assert!(compare::same(gain, state.limiter_gain), "limiter gain");
    }
}

#[test]
fn making_and_reset_leave_what_is_written() {
    let title = "## What making and reset leave";
    let (_, text) = DOCUMENT.split_once(title).unwrap();
    let mut block = vec![0; BLOCK];
    for [byte, bytes, _, holds] in rows(text, ["byte", "bytes", "field", "holds"]) {
        let (at, width) = (number(&byte) as usize, number(&bytes) as usize);
        field(at, width, ANY).put(&mut block, number(&holds));
    }
    let own = tables::accepted(&mut Generator::new(0));
    for (layout, table) in (0..4).flat_map(|layout| [(layout, built_in()), (layout, own)]) {
        ranges::layout().put(&mut block, layout.into());
        ranges::put_table(&mut block, &table);
        let mut state = vec![0xa5; BLOCK];
        let made = match table == own {
            true => entry::make_with(&mut state, layout, &table),
            false => entry::make(&mut state, layout),
        };
        assert!(made.kind == 3 && state == block, "what making leaves");
        state[..block::LAYOUT].fill(0xa5);
        assert_eq!(entry::reset(&mut state).kind, 3);
        assert!(state == block, "what reset leaves");
    }
}
