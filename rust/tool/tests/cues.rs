// SPDX-License-Identifier: Apache-2.0
//! `--cues`: when they take effect, and what is told of them.
mod common;
use common::{Folder, RESET, feed, frame, programme, root, run};
use std::fs;
use std::sync::atomic::{AtomicUsize, Ordering};
use voqlisna::{Block, MetadataWriter, Object, Room, Update};

/// Samples of a frame: no whole slots.
const FRAME: usize = 100;
const FRAMES: usize = 80;

/// Two objects at the screen, one going to the right and one to the left.
fn update(ramp: i64, from: f32) -> Vec<u8> {
    let mut memory = vec![0; MetadataWriter::bytes_for(2, &[1])];
    let update = Update {
        at: 0,
        objects: 2,
        fixed: 0,
        beds: &[],
    };
    let place = |o| Room {
        x: if o == 0 { from } else { 1.0 - from },
        y: 0.0,
        z: if o == 0 { 0.0 } else { 1.0 },
    };
    MetadataWriter::new(&mut memory)
        .update(update)
        .unwrap()
        .element(&[Block { offset: 0, ramp }], |o, _| {
            Object::at(place(o)).gain(1.0)
        })
        .unwrap();
    memory
}

/// The first frame puts the objects to their walls, the third sends them across. Each plays a constant.
fn moving() -> Vec<u8> {
    let pcm = [[0.25; FRAME], [0.125; FRAME]].concat();
    let metadata = |k| match k {
        0 => update(0, 0.0),
        2 => update(6_000, 1.0),
        _ => Vec::new(),
    };
    let frames = (0..FRAMES).map(|k| frame(48_000, &[], 2, &metadata(k), &pcm));
    frames.flatten().collect()
}

/// The samples of the twelve channels, row by row, with these cues.
fn rendered(programme: &[u8], cues: &str) -> Vec<[f32; 12]> {
    // Tests run side by side.
    static RUN: AtomicUsize = AtomicUsize::new(0);
    let folder = Folder::new(&format!("cues-{}", RUN.fetch_add(1, Ordering::Relaxed)));
    let cues = folder.with("cues", cues.as_bytes());
    let said = feed(&["render", "-", "-o", "-", "--cues", &cues], programme);
    assert_eq!(said.code, 0, "{}", said.err);
    let word = |w: &[u8]| f32::from_le_bytes(w.try_into().unwrap());
    let row = |row: &[u8]| std::array::from_fn(|c| word(&row[4 * c..4 * c + 4]));
    said.out[104..].chunks_exact(48).map(row).collect()
}

/// The floor's front and the ceiling's: of object 0, and of object 1, at the ceiling.
fn floor(row: &[f32; 12]) -> [f32; 3] {
    [row[0], row[1], row[2]]
}

fn ceiling(row: &[f32; 12]) -> [f32; 2] {
    [row[8], row[9]]
}

/// "Hold takes effect at the next slot": of a cue at 1,234 the frame at 1,300 is the first behind it. Slots begin anew at
/// 200, with the update there: the next is at 1,352. Of the release at 5,001 it is the frame at 5,100, and the slot at 5,128.
#[test]
fn a_cue_takes_effect_at_the_slot_behind_its_frame() {
    let programme = moving();
    let free = rendered(&programme, "");
    let held = rendered(&programme, "5001 release 0 # in any order\n1234 hold 0\n");
    assert_eq!((free.len(), held.len()), (FRAME * FRAMES, FRAME * FRAMES));
    let (from, to) = (1_352, 5_128);
    assert!(held[..from] == free[..from]);
    for (k, row) in held.iter().enumerate() {
        assert_eq!(ceiling(row), ceiling(&free[k]), "object 1 goes on, at {k}");
        if (from..to).contains(&k) {
            assert_eq!(floor(row), floor(&held[from - 1]), "at {k}");
        }
    }
    assert_ne!(floor(&held[from]), floor(&free[from]));
    assert_ne!(floor(&held[to]), floor(&held[to - 1]));
    assert_eq!(
        floor(&held[FRAME * FRAMES - 1]),
        floor(&free[FRAME * FRAMES - 1])
    );
}

/// At one sample in the order of the lines.
#[test]
fn the_later_line_undoes_the_earlier() {
    let programme = moving();
    let (free, held) = (
        rendered(&programme, ""),
        rendered(&programme, "1234 hold 1"),
    );
    assert!(free != held);
    assert!(rendered(&programme, "1234 hold 1\n1234 release 1") == free);
    assert!(rendered(&programme, "1234 release 1\n1234 hold 1") == held);
    // Both before one frame.
    assert!(rendered(&programme, "1201 hold 1\n1300 release 1") == free);
    assert!(rendered(&programme, "1200 hold 1\n1300 release 1\n1301 hold 1") != free);
}

/// A reset ends a hold, and the programme's time goes on.
#[test]
fn a_reset_ends_what_is_held() {
    let twice = [moving(), RESET.to_vec(), moving()].concat();
    let free = rendered(&twice, "");
    let held = rendered(&twice, "2000 hold 0");
    let second = free.len() / 2;
    assert!(held[..second] != free[..second] && held[second..] == free[second..]);
    let later = (FRAME * FRAMES + 2_000).to_string();
    let held = rendered(&twice, &format!("{later} hold 0"));
    assert!(held[..second] == free[..second] && held[second..] != free[second..]);
}

/// The file is whole, and the exit code 1.
#[test]
fn cues_that_are_refused_or_late_are_told() {
    let folder = Folder::new("cues-told");
    let (from, to) = (folder.with("in", &moving()), folder.file("out.wav"));
    let cues = folder.with(
        "cues",
        b"# two\n0 hold 1\n1000 hold 2\n7901 release 1\n7900 hold 0\n",
    );
    assert_eq!(run(&["render", &from, "-o", &to]).code, 0);
    let whole = fs::read(&to).unwrap().len();
    let said = run(&["render", &from, "-o", &to, "--cues", &cues]);
    let why = "no such object: its number is not below the dynamic objects of the last update";
    let wanted = format!(
        "voqlisna: {cues}:2: 0 hold 1: refused 24: {why}\n\
         voqlisna: {cues}:3: 1000 hold 2: refused 24: {why}\n\
         voqlisna: {cues}:4: 7901 release 1: not called, the last frame begins at sample 7,900\n"
    );
    assert_eq!((said.code, &said.err), (1, &wanted));
    assert!(
        said.text().ends_with("80 frames, none refused\n"),
        "{}",
        said.text()
    );
    assert_eq!(fs::read(&to).unwrap().len(), whole);
}

#[test]
fn cues_that_are_wrong_are_2_and_nothing_is_written() {
    let folder = Folder::new("cues-wrong");
    let (from, to) = (folder.with("in", &moving()), folder.file("out.wav"));
    let cues = folder.with("cues", b"0 hold 0\n5 freeze 1\n");
    for command in [
        vec!["render", &from, "-o", &to, "--cues", &cues],
        vec!["demo", "-s", "0.1", "-o", &to, "--cues", &cues],
    ] {
        let said = run(&command);
        let wanted =
            format!("voqlisna: {cues}:2: freeze stands where hold or release must stand\n");
        assert_eq!((said.code, said.text(), &said.err), (2, "", &wanted));
    }
    assert!(!fs::exists(&to).unwrap());
    let none = folder.file("none");
    let said = run(&["render", &from, "-o", &to, "--cues", &none]);
    let wanted = format!("voqlisna: {none}: No such file or directory\n");
    assert_eq!((said.code, said.err), (3, wanted));
    let meters = format!("--meters={cues}");
    for command in [
        vec!["render", &from, "-o", &cues, "--cues", &cues],
        vec!["render", &from, "-o", &to, &meters, "--cues", &cues],
        vec!["demo", "-o", &cues, "--cues", &cues],
    ] {
        let said = run(&command);
        let wanted = format!("voqlisna: {cues} would be written over while it is read\n");
        assert_eq!((said.code, said.err), (2, wanted));
    }
    assert_eq!(fs::read(&cues).unwrap(), b"0 hold 0\n5 freeze 1\n");
}

/// Cues from standard input; an empty file changes nothing in any programme.
#[test]
fn no_cue_changes_nothing() {
    let folder = Folder::new("cues-none");
    for seed in 0..20 {
        let from = folder.with("in", &programme(seed, 1_536));
        let render = ["render", &from, "-o", "-"];
        let plain = run(&render);
        assert_eq!(plain.code, 0);
        assert!(feed(&[&render[..], &["--cues", "-"]].concat(), b"# none\n") == plain);
    }
}

/// The demo's ship, held from 1 s on.
#[test]
fn an_object_of_the_demo_is_held() {
    let folder = Folder::new("cues-demo");
    let cues = folder.with("cues", b"48000 hold 2\n");
    let demo = ["demo", "-s", "4", "-o", "-"];
    let (free, held) = (run(&demo), run(&[&demo[..], &["--cues", &cues]].concat()));
    assert_eq!((free.code, held.code), (0, 0));
    let at = 104 + 48 * 48_000;
    assert!(free.out[..at] == held.out[..at] && free.out[at..] != held.out[at..]);
    assert_eq!(free.out.len(), held.out.len());
}

/// docs/TECHNICIAN.md has a file of cues for the demo, and what is told of others.
#[test]
fn what_the_document_shows_is_so() {
    let text = fs::read_to_string(root().join("docs/TECHNICIAN.md")).unwrap();
    let (_, from) = text.split_once("```\n# sample of the programme").unwrap();
    let (cues, _) = from.split_once("```").unwrap();
    let demo = |cues: &str| feed(&["demo", "-o", "/dev/null", "--cues", "-"], cues.as_bytes());
    assert_eq!(demo(&format!("#{cues}")).code, 0);
    for (cue, line, code) in [
        ("0 hold 2", 2, 1),
        ("960001 release 2", 3, 1),
        ("5 freeze 2", 4, 2),
    ] {
        let said = demo(&("\n".repeat(line - 1) + cue));
        assert_eq!(said.code, code);
        let told = said
            .err
            .trim_end()
            .split_once(&format!("standard input:{line}: "));
        let told = told.unwrap().1;
        let shown = format!("| `cues.txt:{line}: {} |", shown(told));
        assert!(text.contains(&shown), "{shown}");
    }
}

/// The table leaves a refusal's sentence out.
fn shown(told: &str) -> String {
    match told.split_once("refused 24: ") {
        Some((cue, _)) => format!("{cue}refused 24: ..`"),
        None => format!("{told}`"),
    }
}
