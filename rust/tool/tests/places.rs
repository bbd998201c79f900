// SPDX-License-Identifier: Apache-2.0
//! `where`: the place that is printed sounds from the speakers that were asked for; its table and its picture.
mod common;
use common::{Folder, feed, frame, root, run};
use std::fs;
use voqlisna::{Block, Layout, MetadataWriter, Object, Room, Speaker, Update};

/// A row of `where --all`.
struct Row {
    names: Vec<String>,
    place: [f32; 3],
    record: Room,
    places: usize,
}

fn rows(text: &str) -> Vec<Row> {
    let rows = text
        .lines()
        .filter(|l| !l.is_empty() && !l.starts_with('#'));
    let row = |line: &str| {
        let words: Vec<&str> = line.split_whitespace().collect();
        let (names, numbers) = words.split_at(words.len() - 7);
        let float = |k: usize| numbers[k].parse::<f32>().unwrap();
        Row {
            names: names.iter().map(|n| (*n).to_owned()).collect(),
            place: [float(0), float(1), float(2)],
            record: Room {
                x: float(3),
                y: float(4),
                z: float(5),
            },
            places: numbers[6].replace(',', "").parse().unwrap(),
        }
    };
    rows.map(row).collect()
}

/// The speakers that sound of an object of gain 1 at a record's place, in the tool's own rendering.
fn sounding(place: Room, layout: Layout, more: &[&str]) -> Vec<&'static str> {
    let mut memory = [0; MetadataWriter::bytes_for(1, &[1])];
    let mut writer = MetadataWriter::new(&mut memory);
    let update = Update {
        at: 0,
        objects: 1,
        fixed: 0,
        beds: &[],
    };
    let object = Object::at(place).gain(1.0);
    let updated = writer.update(update).unwrap();
    updated.element(&[Block::default()], |_, _| object).unwrap();
    let programme = frame(48_000, &[], 1, &memory, &[1.0; 128]);
    let render = ["render", "-", "-o", "-", "--layout", layout.name()];
    let said = feed(&[&render[..], more].concat(), &programme);
    assert_eq!(said.code, 0);
    let speakers = layout.speakers();
    let last = said.out[104..].chunks_exact(4 * speakers.len()).next_back();
    let words = last.unwrap().chunks_exact(4);
    let sounds = speakers.iter().zip(words).filter(|(_, w)| **w != [0; 4]);
    sounds.map(|(s, _)| s.short_name()).collect()
}

/// The sum of the squares of the levels in the last line.
fn power(text: &str) -> f32 {
    let words = text.lines().last().unwrap().split_whitespace().skip(1);
    let levels = words.skip(1).step_by(2).map(|w| w.parse::<f32>().unwrap());
    levels.map(|level| level * level).sum()
}

/// docs/WHERE.md: a table for each layout.
fn document() -> String {
    fs::read_to_string(root().join("docs/WHERE.md")).unwrap()
}

/// 60, 57, 20 and 15 sets; each is heard at its place, and is answered alone as in the table. A place sounds from one set.
/// The document has what is printed.
#[test]
fn each_set_sounds_at_its_place() {
    for (layout, count) in Layout::ALL.into_iter().zip([60, 57, 20, 15]) {
        let said = run(&["where", "--all", "--layout", layout.name()]);
        assert_eq!((said.code, said.err.as_str()), (0, ""));
        let block = format!("\n```\n{}```\n", said.text());
        assert!(document().contains(&block), "docs/WHERE.md: {layout}");
        let all = rows(said.text());
        assert_eq!(all.len(), count, "{layout}");
        assert_eq!(all.iter().map(|r| r.places).sum::<usize>(), 71_825);
        for row in &all {
            assert_eq!(sounding(row.record, layout, &[]), row.names);
            let [x, y, z] = row.place;
            let wanted = Room {
                x: (x + 1.0) / 2.0,
                y: (1.0 - z) / 2.0,
                z: y,
            };
            assert_eq!(row.record, wanted);
            let names: Vec<&str> = row.names.iter().map(String::as_str).collect();
            let asked = [&["where", "--layout", layout.name()][..], &names].concat();
            let said = run(&asked);
            let Room { x: a, y: b, z: c } = row.record;
            let wanted = format!(
                "{} in {layout}\n  as panned    x {x}  y {y}  z {z}\n  in a record  at {a} {b} {c}\n  levels       ",
                names.join(" ")
            );
            assert!(said.text().starts_with(&wanted), "{}", said.text());
            assert!((power(said.text()) - 1.0).abs() < 0.005, "{}", said.text());
        }
    }
}

/// docs/TECHNICIAN.md shows a place as it is printed, in the built-in hall and in its own.
#[test]
fn what_the_document_shows_is_so() {
    let text = fs::read_to_string(root().join("docs/TECHNICIAN.md")).unwrap();
    let own = root().join("docs/pictures/own-hall.txt");
    for more in [vec![], vec!["--table", own.to_str().unwrap()]] {
        let said = run(&[vec!["where", "FL", "FC"], more].concat());
        assert_eq!(said.code, 0, "{}", said.err);
        let shown: String = said.text().lines().map(|l| format!("    {l}\n")).collect();
        assert!(text.contains(&shown), "{shown}");
    }
}

/// Order, letters and repetitions are free; the levels are those of the place.
#[test]
fn speakers_are_named_in_any_order() {
    let said = run(&["where", "FC", "FL"]);
    let wanted = "FL FC in 7.1.4\n  as panned    x -0.6875  y 0  z 1\n  in a record  at 0.15625 0 0\n  levels       FL 0.986  FC 0.167\n";
    assert_eq!((said.code, said.text(), said.err.as_str()), (0, wanted, ""));
    assert_eq!(run(&["where", "fl", "fc", "FL"]), said);
    assert_eq!(run(&["where", "FL", "FC", "--layout", "7.1.4"]), said);
    let table = run(&["table"]);
    assert_eq!(
        feed(&["where", "FL", "FC", "--table", "-"], &table.out),
        said
    );
}

#[test]
fn where_there_is_none_is_1_and_says_why() {
    for (asked, why) in [
        (
            "FL BL",
            "FL BL: no place of the grid sounds from just these in 7.1.4",
        ),
        (
            "SL",
            "SL: no place of the grid sounds from just these in 7.1.4",
        ),
        ("LFE FC", "FC LFE: nothing is panned to LFE"),
        ("BL SL --layout 5.1.4", "BL SL: 5.1.4 has no BL"),
        (
            "TBR LFE --layout 7.1.0",
            "LFE TBR: nothing is panned to LFE",
        ),
    ] {
        let words: Vec<&str> = asked.split(' ').collect();
        let said = run(&[&["where"][..], &words].concat());
        let wanted = format!("voqlisna: {why}\n");
        assert_eq!((said.code, said.text(), &said.err), (1, "", &wanted));
    }
    let folder = Folder::new("where-none");
    let to = folder.file("out.svg");
    assert_eq!(run(&["where", "FL", "BL", "--picture", &to]).code, 1);
    assert!(!fs::exists(&to).unwrap());
}

/// A hall with three heights has other sets, and each is heard in it.
#[test]
fn a_hall_with_its_own_table() {
    let own = root().join("docs/pictures/own-hall.txt");
    let table = ["--table", own.to_str().unwrap()];
    let all = run(&[&["where", "--all"][..], &table].concat());
    let all = rows(all.text());
    let document = document();
    let built_in = document.split("```").nth(1).unwrap();
    let before: Vec<_> = rows(built_in).into_iter().map(|r| r.names).collect();
    assert_eq!(before.len(), 60);
    assert_eq!(all.iter().map(|r| r.places).sum::<usize>(), 71_825);
    assert!(all.iter().any(|row| !before.contains(&row.names)));
    for row in &all {
        assert_eq!(sounding(row.record, Layout::Hall714, &table), row.names);
    }
}

/// The picture is written beside the text, has the table's count, and is that of the documents; a table is not written
/// over.
#[test]
fn the_place_is_drawn() {
    let folder = Folder::new("where-drawn");
    let to = folder.file("out.svg");
    let asked = ["where", "FL", "FC", "SL", "SR", "TFL", "TFR"];
    let plain = run(&asked);
    let said = run(&[&asked[..], &["--picture", &to]].concat());
    assert_eq!((&said, said.code), (&plain, 0));
    let picture = fs::read_to_string(&to).unwrap();
    assert!(picture.contains(">Where FL FC SL SR TFL TFR sound alone in 7.1.4<"));
    assert!(picture.contains("Shaded: 5,280 of 71,825 places"));
    assert!(picture.contains("x \u{2212}0.6875, y 0.0625, z 0.5."));
    let kept = fs::read_to_string(root().join("docs/pictures/where.svg")).unwrap();
    assert!(
        picture == kept,
        "docs/pictures/where.svg is not what the tool draws"
    );
    let piped = run(&[&asked[..], &["--picture", "-"]].concat());
    assert_eq!(
        (piped.text(), piped.err.as_str()),
        (picture.as_str(), plain.text())
    );
    let table = folder.with("table", &run(&["table"]).out);
    let over = run(&[&asked[..], &["--table", &table, "--picture", &table]].concat());
    let wanted = format!("voqlisna: {table} would be written over while it is read\n");
    assert_eq!((over.code, over.err), (2, wanted));
    let speaker = Speaker::ALL.map(|s| s.short_name()).join(" ");
    let wrong = run(&["where", "L"]);
    let wanted = format!("voqlisna: no channel is called L: they are {speaker}\n");
    assert_eq!((wrong.code, wrong.err), (2, wanted));
}
