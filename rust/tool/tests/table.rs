// SPDX-License-Identifier: Apache-2.0
//! Hall tables: `table`, `--table`, and the drawing of a hall.
mod common;
use common::{Folder, Said, feed, frame, programme, root, run};
use std::fs;
use voqlisna::{Block, HallTable, Layout, MetadataWriter, Object, Panned, Speaker, Update};

/// The built-in table as the tool writes it.
fn built_in() -> String {
    run(&["table"]).text().to_owned()
}

/// A hall with three heights, of the documents.
fn own() -> String {
    let path = root().join("docs/pictures/own-hall.txt");
    fs::read_to_string(path).unwrap()
}

/// The places in a text that the tool has written.
fn places(text: &str) -> Vec<(Speaker, Panned)> {
    let lines = text.lines().filter(|l| !l.starts_with('#'));
    let place = |line: &str| {
        let words: Vec<&str> = line.split_whitespace().collect();
        let [x, y, z] = [1, 2, 3].map(|k| words[k].parse().unwrap());
        let speaker = Speaker::from_short_name(words[0]).unwrap();
        (speaker, Panned { x, y, z })
    };
    lines.map(place).collect()
}

#[test]
fn the_table_is_printed_and_read() {
    let said = run(&["table"]);
    assert_eq!((said.code, said.err.as_str()), (0, ""));
    let wanted = Speaker::ALL.map(|s| (s, HallTable::BUILT_IN.place(s)));
    assert_eq!(places(said.text()), wanted);
    let layers = "7.1.4, and in each over its rows:\n#   y 0: FL FC FR | SL SR | BL BR\n#   y 1: TFL TFR | TBL TBR\n";
    assert!(said.text().ends_with(layers), "{}", said.text());
    assert_eq!(feed(&["table", "-"], &said.out), said);
    let small = feed(&["table", "-", "--layout", "5.1.0"], &said.out);
    assert_eq!(small, run(&["table", "--layout", "5.1.0"]));
    let layers = "5.1.0, and in each over its rows:\n#   y 0: FL FC FR | SL SR\n";
    assert!(small.text().ends_with(layers), "{}", small.text());
    let again = feed(&["table", "-"], own().as_bytes());
    assert_eq!(feed(&["table", "-"], &again.out), again);
}

/// docs/TECHNICIAN.md has the table of docs/pictures and what the tool says of it, and of wrong ones.
#[test]
fn what_the_document_shows_is_so() {
    let text = fs::read_to_string(root().join("docs/TECHNICIAN.md")).unwrap();
    assert!(text.contains(&format!("```\n{}```\n", own())));
    let said = feed(&["table", "-"], own().as_bytes());
    let layers = said
        .text()
        .lines()
        .skip_while(|l| !l.contains("Objects are"));
    for line in layers {
        assert!(text.contains(&format!("        {line}\n")), "{line}");
    }
    for (line, wrong) in [
        ("FR     0.625   0       1", "FR 0,7 0 1"),
        ("FR     0.625   0       1", "FR 1.2 0 1"),
        ("FL    -0.625   0       1", "FL 0 0 1"),
    ] {
        let said = feed(&["table", "-"], own().replace(line, wrong).as_bytes());
        let message = said.err.trim_end().split_once("standard input:").unwrap().1;
        assert!(
            text.contains(&format!("| `hall.txt:{message}` |")),
            "{message}"
        );
    }
}

/// Each command with a table, and what it says.
fn with_table(folder: &Folder, table: &str) -> Vec<Said> {
    let (from, to) = (folder.with("in", &programme(3, 256)), folder.file("out"));
    [
        vec!["table", table],
        vec!["render", &from, "-o", &to, "--table", table],
        vec!["demo", "-s", "0.1", "-o", &to, "--table", table],
        vec!["map", "-o", &to, "--table", table],
    ]
    .map(|args| run(&args))
    .into()
}

#[test]
fn a_table_that_is_wrong_is_2_and_nothing_is_written() {
    let folder = Folder::new("table-wrong");
    let fr = "FR          0.70710677            0            1";
    for (line, message) in [
        (
            "FR 0,7 0 1",
            ":5: x of FR is 0,7, and must be a number (a comma is not taken)",
        ),
        (
            "FR 0.7 0 1.5",
            ":5: z of FR is 1.5, and must be from -1 to 1",
        ),
        (
            "FR 0 -0 1",
            ":6: FR and FC are at the same place (lines 5 and 6)",
        ),
        ("FL 0 0 0", ":5: FL has its place in line 4"),
        ("", ": no place for FR"),
    ] {
        let text = built_in().replace(fr, line);
        let table = folder.with("table", text.as_bytes());
        for said in with_table(&folder, &table) {
            let wanted = format!("voqlisna: {table}{message}\n");
            assert_eq!((said.code, said.text(), &said.err), (2, "", &wanted));
        }
    }
    assert!(!fs::exists(folder.file("out")).unwrap());
    let none = folder.file("none");
    for said in with_table(&folder, &none) {
        let wanted = format!("voqlisna: {none}: No such file or directory\n");
        assert_eq!((said.code, said.err), (3, wanted));
    }
}

#[test]
fn a_table_is_not_written_over() {
    let folder = Folder::new("table-over");
    let from = folder.with("in", &programme(3, 256));
    let (text, to) = (built_in(), folder.file("out"));
    let table = folder.with("table", text.as_bytes());
    let meters = format!("--meters={table}");
    for args in [
        vec!["render", &from, "-o", &table],
        vec!["render", &from, "-o", &to, &meters],
        vec!["demo", "-o", &table],
        vec!["demo", "-o", &to, &meters],
        vec!["map", "-o", &table],
    ] {
        let said = run(&[args, vec!["--table", &table]].concat());
        let wanted = format!("voqlisna: {table} would be written over while it is read\n");
        assert_eq!((said.code, said.err), (2, wanted));
        assert_eq!(fs::read_to_string(&table).unwrap(), text);
    }
}

/// "With the built-in values loaded, the samples equal those without a table"
#[test]
fn with_the_built_in_table_all_is_as_without() {
    let folder = Folder::new("table-built-in");
    let table = folder.with("table", built_in().as_bytes());
    for layout in Layout::ALL {
        let layout = ["--layout", layout.name()];
        for seed in 0..20 {
            let from = folder.with("in", &programme(seed, 1_536));
            let render = [&["render", &from, "-o", "-"], &layout[..]].concat();
            assert_eq!(run(&render).code, 0);
            assert!(run(&render) == run(&[&render[..], &["--table", &table]].concat()));
        }
        for command in [vec!["demo", "-s", "2"], vec!["map"]] {
            let draw = [&command[..], &["-o", "-"], &layout].concat();
            assert!(run(&draw) == run(&[&draw[..], &["--table", &table]].concat()));
        }
    }
}

/// An object at a panned place.
fn object_at(place: Panned) -> Vec<u8> {
    let mut memory = [0; MetadataWriter::bytes_for(1, &[1])];
    let mut writer = MetadataWriter::new(&mut memory);
    let update = Update {
        at: 0,
        objects: 1,
        fixed: 0,
        beds: &[],
    };
    let object = Object::at(place.room()).gain(1.0);
    let updated = writer.update(update).unwrap();
    updated.element(&[Block::default()], |_, _| object).unwrap();
    frame(48_000, &[], 1, &memory, &[0.5; 128])
}

/// The speakers that sound in a hall of 7.1.4, from the second slot on.
fn sounding(programme: &[u8], table: &str) -> Vec<&'static str> {
    let said = feed(&["render", "-", "-o", "-", "--table", table], programme);
    let rows = said.out[104..].chunks_exact(48).skip(64);
    let mut heard = [false; 12];
    for row in rows {
        for (heard, word) in heard.iter_mut().zip(row.chunks_exact(4)) {
            *heard |= f32::from_le_bytes(word.try_into().unwrap()) != 0.0;
        }
    }
    let sounds = Speaker::ALL.into_iter().filter(|s| heard[s.channel()]);
    sounds.map(Speaker::short_name).collect()
}

#[test]
fn an_object_at_a_speaker_of_the_table_sounds_from_it_alone() {
    let folder = Folder::new("table-own");
    let own = folder.with("own", own().as_bytes());
    let built_in = folder.with("built-in", built_in().as_bytes());
    for (speaker, place) in places(run(&["table", &own]).text()) {
        if speaker == Speaker::Bass {
            continue;
        }
        let bytes = object_at(place);
        assert_eq!(sounding(&bytes, &own), [speaker.short_name()]);
        if place != HallTable::BUILT_IN.place(speaker) {
            assert_ne!(sounding(&bytes, &built_in), [speaker.short_name()]);
        }
    }
}

/// A number of a picture, which has tenths, in tenths.
fn tenths(x: f64) -> i64 {
    let x: f64 = format!("{x:.1}").parse().unwrap();
    (10.0 * x).round() as i64
}

/// Where the large dots of both views are, in tenths.
fn dots(svg: &str) -> Vec<(i64, i64)> {
    let number = |line: &str, name: &str| {
        let from = line.split_once(name).unwrap().1;
        tenths(from.split_once('"').unwrap().0.parse().unwrap())
    };
    let dots = svg.lines().filter(|l| l.contains("r=\"5\""));
    let dots = dots.map(|l| (number(l, "cx=\""), number(l, "cy=\"")));
    let mut views: Vec<_> = dots.filter(|(_, y)| *y <= 2_740).collect();
    views.sort();
    views
}

/// Each speaker of the layout once from above and once from the side, 95 to a unit.
#[test]
fn the_drawing_has_each_speaker_at_its_place() {
    let folder = Folder::new("table-drawn");
    let below = own().replace("FC     0       0 ", "FC     0      -0.5 ");
    assert_ne!(below, own());
    for text in [built_in(), own(), below] {
        let table = folder.with("table", text.as_bytes());
        for layout in Layout::ALL {
            let map = ["map", "-o", "-", "--table", &table, "--layout"];
            let said = run(&[&map[..], &[layout.name()]].concat());
            let at = |from: f64, x: f32| tenths(from + 95.0 * f64::from(x));
            let mut wanted = Vec::new();
            for (speaker, Panned { x, y, z }) in places(&text) {
                if layout.has(speaker) && speaker != Speaker::Bass {
                    wanted.push((at(84.0, 1.0 + x), at(84.0, 1.0 - z)));
                    wanted.push((at(372.0, 1.0 - z), at(84.0, 1.0 - y)));
                }
            }
            wanted.sort();
            assert_eq!(dots(said.text()), wanted, "{layout}");
        }
    }
}
