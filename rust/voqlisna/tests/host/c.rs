// SPDX-License-Identifier: Apache-2.0
//! The C header and a host in C, compiled, linked and run: its words are those of the same frames
//! through the crate.

use crate::raw;
use crate::tools::{is_installed, library_folder, output};
use std::fmt::Write;
use std::path::{Path, PathBuf};
use std::process::Command;
use voqlisna::sys::Answer;
use voqlisna::*;

const SAMPLES: usize = 480;
const FRAMES: usize = 8;
const LOUD: usize = 3;
const HELD: usize = 4;
const BROKEN: usize = 5;
const EARLY: usize = 6;
const RELEASED: usize = 7;

fn source() -> PathBuf {
    Path::new(env!("CARGO_MANIFEST_DIR")).join("../c/host.c")
}

/// Compiles rust/c/host.c by this compiler and standard, links it with the library, and answers the
/// program.
fn compiled(compiler: &str, language: &str, standard: &str) -> PathBuf {
    let program = Path::new(env!("CARGO_TARGET_TMPDIR")).join(format!("host-{standard}"));
    let mut command = Command::new(compiler);
    command
        .args(["-O2", "-Wall", "-Wextra", "-Werror", "-pedantic"])
        .arg(format!("-std={standard}"));
    command
        .arg("-I")
        .arg(Path::new(env!("CARGO_MANIFEST_DIR")).join("../voqlisna-sys/include"));
    command
        .args(["-x", language])
        .arg(source())
        .args(["-x", "none"]);
    output(
        command
            .arg(library_folder().join("libhall.a"))
            .arg("-o")
            .arg(&program),
    );
    program
}

/// A call as host.c prints it.
fn print(text: &mut String, call: &str, answer: Answer, rendered: Option<Rendered<'_>>) {
    print_answer(text, call, answer);
    for i in 0..answer.ready {
        let word = |(_, x): (Speaker, &[f32])| format!("{:08x}", x[i].to_bits());
        let words: Vec<_> = rendered.unwrap().channels().map(word).collect();
        writeln!(text, "{}", words.join(" ")).unwrap();
    }
}

fn print_answer(text: &mut String, call: &str, answer: Answer) {
    let Answer {
        kind,
        number,
        first,
        second,
        ready,
        peak,
        gain,
    } = answer;
    let meters = format!("{:08x} {:08x}", peak.to_bits(), gain.to_bits());
    write!(
        text,
        "{call} {kind} {number} {first} {second} {ready} {meters}"
    )
    .unwrap();
    if let Some(refusal) = Refusal::from_answer(answer) {
        write!(text, " {}", refusal.to_string().replace('±', "+-")).unwrap();
    }
    text.push('\n');
}

fn answer(kind: u32) -> Answer {
    Answer { kind, ..raw::DONE }
}

fn done(ready: usize) -> Answer {
    Answer { ready, ..raw::DONE }
}

fn ready(rendered: &Rendered<'_>) -> Answer {
    Answer {
        ready: rendered.ready(),
        peak: rendered.peak(),
        gain: rendered.gain(),
        ..answer(0)
    }
}

fn refused(number: u32) -> Answer {
    Answer {
        number,
        ..answer(1)
    }
}

fn sound(frame: usize) -> Vec<f32> {
    let count = |i| frame * SAMPLES + i;
    let level = if frame == LOUD { 8.0 } else { 1.0 };
    let bed = (0..SAMPLES).map(|i| (count(i) % 100) as f32 / 64.0);
    let object = (0..SAMPLES).map(|i| level * ((count(i) % 37) as f32 / 32.0 - 0.5));
    let mut pcm: Vec<f32> = bed.chain(object).collect();
    if frame == BROKEN {
        pcm[7] = f32::from_bits(u32::MAX);
    }
    pcm
}

/// The bed stays, the object moves.
fn metadata(memory: &mut [u8], x: f32, ahead: bool) -> Metadata<'_> {
    let mut writer = MetadataWriter::new(memory);
    let object = Object::at(Room { x, y: 0.25, z: 0.5 })
        .gain(0.5)
        .size(0.125)
        .send(0.75);
    let (objects, fixed, beds) = (2, 1, &[Bed::Bass][..]);
    let at = SAMPLES as u32 + 20;
    let writing = match ahead {
        true => writer.update_ahead(Ahead {
            at,
            objects,
            fixed,
            beds,
        }),
        false => writer.update(Update {
            at: 0,
            objects,
            fixed,
            beds,
        }),
    };
    writing
        .unwrap()
        .element(
            &[Block {
                offset: 0,
                ramp: SAMPLES as i64,
            }],
            |o, _| if o == 0 { Object::KEEP } else { object },
        )
        .unwrap();
    writer.finish()
}

/// What host.c must print.
fn expected() -> String {
    let mut text = String::new();
    print_answer(&mut text, "make", refused(1));
    print_answer(&mut text, "make", refused(15));
    for number in 16..=18 {
        print_answer(&mut text, "make_with_table", refused(number));
    }
    for layout in Layout::ALL {
        print_answer(&mut text, "make", answer(3));
        show(&mut text, Renderer::new(layout).unwrap());
    }
    print_answer(&mut text, "make_with_table", answer(3));
    show(
        &mut text,
        Renderer::with_table(Layout::Hall714, &measured()).unwrap(),
    );
    archive(&mut text);
    amplifier(&mut text);
    text
}

/// The built-in places to a digit, but the side speakers halfway up.
fn measured() -> HallTable {
    let places = HallTable::BUILT_IN.places().map(|Panned { x, y, z }| {
        let digit = |x: f32| (x * 10.0).round() / 10.0;
        let side = x.abs() == 1.0 && y == 0.0;
        Panned {
            x: digit(x),
            y: if side { 0.5 } else { y },
            z: digit(z),
        }
    });
    HallTable::new(places).unwrap()
}

fn show(text: &mut String, mut renderer: Renderer) {
    let mut memory = [0; 200];
    let mut out = Output::new(Stride::new(512).unwrap());
    for k in 0..FRAMES {
        let pcm = sound(k);
        let metadata = match k % 2 {
            0 => metadata(&mut memory, k as f32 / 8.0, k == EARLY),
            _ => Metadata::NONE,
        };
        let pcm = Pcm::packed(&pcm, 2).unwrap();
        let frame = Frame::new(Rate::HZ_48000, &[Bed::Bass], pcm, metadata).unwrap();
        if k == HELD {
            assert_eq!(renderer.hold(0), Ok(()));
            print_answer(text, "hold", answer(3));
        }
        if k == RELEASED {
            assert_eq!(renderer.release(0), Ok(()));
            print_answer(text, "release", answer(3));
        }
        match renderer.push(&frame, &mut out) {
            Ok(rendered) => {
                // Limited in the loud frame, and on the way back after it.
                assert_eq!(
                    (rendered.peak() > 1.0, rendered.gain() < 1.0),
                    (k == LOUD, k >= LOUD)
                );
                print(text, "push", ready(&rendered), Some(rendered));
            }
            Err(refusal) => print(text, "push", refused(refusal.number()), None),
        }
    }
    let rendered = renderer.flush(&mut out).unwrap();
    print(text, "flush", ready(&rendered), Some(rendered));
    print_answer(text, "flush", answer(2));
    assert_eq!(renderer.hold(1), Err(Refusal::ObjectNumber));
    print_answer(text, "hold", refused(24));
    use Speaker::{Bass, Center, FrontLeft, RearLeft, SurroundLeft};
    for speakers in [&[FrontLeft, Center][..], &[RearLeft, SurroundLeft], &[Bass]] {
        print_place(text, renderer.find(speakers));
    }
    text.push_str("find 1 1 00000000 00000000 00000000\n");
    print_answer(text, "reset", answer(3));
}

/// A place that is found, and in an object's record with its flags for a valid position.
fn print_place(text: &mut String, place: Option<Panned>) {
    let Some(Panned { x, y, z }) = place else {
        return text.push_str("find 2 0 00000000 00000000 00000000\n");
    };
    let mut line = |name: &str, floats: [f32; 3]| {
        let [x, y, z] = floats.map(f32::to_bits);
        writeln!(text, "{name} {x:08x} {y:08x} {z:08x}").unwrap();
    };
    line("find 0 0", [x, y, z]);
    let Room { x, y, z } = Panned { x, y, z }.room();
    line("record 0 9", [x, y, z]);
}

/// The bytes count up, so each is its own place.
fn archive(text: &mut String) {
    print_answer(text, "to_planes", done(2));
    for byte in (0..4).flat_map(|plane| (0..24).map(move |k| 4 * k + plane)) {
        write!(text, "{byte:02x}").unwrap();
    }
    text.push('\n');
    print_answer(text, "from_planes", done(2));
    text.push_str("the same\n");
    print_answer(text, "to_planes", refused(22));
    print_answer(text, "to_planes", refused(23));
}

/// Three samples on two channels, ties and both ends among them; the bytes and the words by hand.
fn amplifier(text: &mut String) {
    print_answer(text, "write_24", done(3));
    text.push_str("000000 020000 ffff7f\n000080 feffff 000040\n");
    print_answer(text, "read_24", done(3));
    text.push_str("00000000 34800000 3f7ffffe\nbf800000 b4800000 3f000000\n");
    for (name, numbers) in [("write_24", &[1, 2, 20, 21][..]), ("read_24", &[19, 20])] {
        for number in numbers {
            print_answer(text, name, refused(*number));
        }
    }
}

/// The refusals that host.c lists at its end are worded as the crate words them, where no count
/// stands in the sentence.
fn says_the_same(lines: &str) {
    assert_eq!(lines.lines().count(), 26);
    for (number, line) in (0..).zip(lines.lines()) {
        let said = line.strip_prefix(&format!("{number}: ")).unwrap();
        let refusal = Refusal::from_answer(refused(number)).unwrap();
        match number {
            0 | 7 => assert_eq!(said, "an unknown refusal"),
            9 | 11 | 13 | 14 => assert!(said.contains(' ')),
            _ => assert_eq!(said, refusal.to_string().replace('±', "+-")),
        }
    }
}

#[test]
fn a_host_in_c_hears_what_one_in_rust_hears() {
    let expected = expected();
    for (compiler, language, standard) in [
        ("cc", "c", "c99"),
        ("cc", "c", "c17"),
        ("g++", "c++", "c++17"),
    ] {
        let program = compiled(compiler, language, standard);
        let said = output(&mut Command::new(&program));
        let (words, texts) = said.split_at(said.find("0: ").unwrap());
        assert!(
            words == expected,
            "{standard}: {} and {} lines",
            words.lines().count(),
            expected.lines().count()
        );
        says_the_same(texts);
        if standard == "c99" && is_installed("valgrind") {
            output(
                Command::new("valgrind")
                    .args(["-q", "--leak-check=full", "--error-exitcode=9"])
                    .arg(program)
                    .arg("usual"),
            );
        }
    }
}

#[test]
fn the_library_has_prefixed_names_and_needs_two() {
    let library = library_folder().join("libhall.a");
    let names = |flag: &str| output(Command::new("nm").args(["-g", flag]).arg(&library));
    let last = |line: &str| line.split_whitespace().last().map(str::to_owned);
    let symbols = |text: String| -> Vec<String> {
        text.lines()
            .filter(|line| !line.is_empty() && !line.ends_with(':'))
            .filter_map(last)
            .collect()
    };
    let mut defined = symbols(names("--defined-only"));
    defined.sort();
    assert_eq!(
        defined,
        [
            "hall_find",
            "hall_flush",
            "hall_from_planes",
            "hall_hold",
            "hall_make",
            "hall_make_with_table",
            "hall_push",
            "hall_read_24",
            "hall_release",
            "hall_reset",
            "hall_state_size",
            "hall_to_planes",
            "hall_version",
            "hall_write_24"
        ]
    );
    let mut needed = symbols(names("--undefined-only"));
    needed.sort();
    assert_eq!(needed, ["memcpy", "memset"]);
}
