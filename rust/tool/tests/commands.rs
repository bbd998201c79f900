// SPDX-License-Identifier: Apache-2.0
//! Each command's text and exit code.
mod common;
use common::{Dice, FLUSH, Folder, TOOL, feed, frame, programme, run, update};
use std::fs::File;
use std::io::Read;
use std::process::{Command, Stdio};
use voqlisna::{Bed, Renderer, sys};

#[test]
fn help_and_version() {
    let help = run(&["help"]);
    assert_eq!(
        (help.code, help.text()),
        (0, include_str!("../src/help.txt"))
    );
    assert_eq!(run(&["--help"]), help);
    assert_eq!(run(&["render", "-h"]), help);
    let version = run(&["version"]);
    let size = <Renderer>::block_size();
    let wanted = format!(
        "voqlisna {}, library {}, state block {},{:03} bytes, layouts 7.1.4 5.1.4 7.1.0 5.1.0\n",
        env!("CARGO_PKG_VERSION"),
        sys::hall_version(),
        size / 1_000,
        size % 1_000
    );
    assert_eq!((version.code, version.text()), (0, wanted.as_str()));
    assert_eq!(run(&["--version"]), version);
}

#[test]
fn wrong_arguments_are_2() {
    for (args, message) in [
        (vec![], "a command is missing: voqlisna help lists them"),
        (vec!["rendr"], "unknown command rendr; did you mean render?"),
        (vec!["check"], "IN is missing"),
        (
            vec!["render", "a"],
            "-o FILE is missing (a WAVE file to write, or - for standard output)",
        ),
        (
            vec!["render", "a", "-o", "b", "--fr64"],
            "unknown option --fr64; did you mean --rf64?",
        ),
        (
            vec!["map"],
            "-o FILE is missing (an SVG file to write, or - for standard output)",
        ),
    ] {
        let said = run(&args);
        assert_eq!(
            (said.code, said.text(), &said.err),
            (2, "", &format!("voqlisna: {message}\n"))
        );
    }
}

#[test]
fn what_cannot_be_read_or_written_is_3() {
    let folder = Folder::new("three");
    let from = folder.with("in", &programme(1, 256));
    let none = folder.file("none");
    let sound = folder.file("sound.wav");
    assert_eq!(run(&["render", &from, "-o", &sound]).code, 0);
    for command in ["check", "dump", "hex"] {
        let said = run(&[command, none.as_str()]);
        assert_eq!(
            (said.code, said.err),
            (3, format!("voqlisna: {none}: No such file or directory\n"))
        );
    }
    let away = folder.file("away/out");
    for args in [
        vec!["render", &from, "-o", &away],
        vec!["demo", "-s", "0.1", "-o", &away],
        vec!["map", "-o", &away],
        vec!["archive", &sound, "-o", &away],
    ] {
        let said = run(&args);
        assert_eq!(
            (said.code, said.err),
            (3, format!("voqlisna: {away}: No such file or directory\n"))
        );
    }
    // A folder opens, and does not read.
    assert_eq!(run(&["check", folder.file("").as_str()]).code, 3);
}

#[test]
fn a_full_disk_is_3() {
    let folder = Folder::new("full");
    let from = folder.with("in", &programme(1, 256));
    let text = folder.with("text", b"flush\n");
    let (sound, hall) = (folder.file("sound.wav"), folder.file("show.hall"));
    assert_eq!(run(&["render", &from, "-o", &sound]).code, 0);
    assert_eq!(run(&["archive", &sound, "-o", &hall]).code, 0);
    let message = "voqlisna: /dev/full: No space left on device\n";
    for args in [
        vec!["render", &from],
        vec!["demo", "-s", "1"],
        vec!["undump", &text],
        vec!["plot", "limiter"],
        vec!["archive", &sound],
        vec!["unarchive", &hall],
    ] {
        let said = run(&[args, vec!["-o", "/dev/full"]].concat());
        assert_eq!((said.code, said.err.as_str()), (3, message));
    }
}

#[test]
fn a_full_disk_behind_standard_output_is_3() {
    let folder = Folder::new("full-output");
    let from = folder.with("in", &programme(1, 256));
    let (sound, hall) = (folder.file("sound.wav"), folder.file("show.hall"));
    assert_eq!(run(&["render", &from, "-o", &sound]).code, 0);
    assert_eq!(run(&["archive", &sound, "-o", &hall]).code, 0);
    let message = "voqlisna: standard output: No space left on device\n";
    for args in [
        vec!["help"],
        vec!["check", &from],
        vec!["dump", &from],
        vec!["hex", &from],
        vec!["render", &from, "-o", "-"],
        vec!["archive", &sound, "-o", "-"],
        vec!["unarchive", &hall, "-o", "-"],
    ] {
        let to = File::options().write(true).open("/dev/full").unwrap();
        let done = Command::new(TOOL).args(&args).stdout(to).output().unwrap();
        let err = String::from_utf8(done.stderr).unwrap();
        assert_eq!((done.status.code(), err.as_str()), (Some(3), message));
    }
}

#[test]
fn a_file_is_closed_where_the_disk_fills_up() {
    let folder = Folder::new("limit");
    let to = folder.file("out.wav");
    // The shell lets a file grow to so many KiB; the signal that says so is not taken. The shorter show is written in
    // one piece, when the file is closed.
    for (seconds, most) in [("1", 100), ("0.02", 40)] {
        let script =
            format!("trap '' XFSZ; ulimit -f {most}; exec {TOOL} demo -s {seconds} -o {to}");
        let done = Command::new("bash").args(["-c", &script]).output().unwrap();
        let err = String::from_utf8(done.stderr).unwrap();
        let wanted = format!("voqlisna: {to}: File too large; 0.0 s were written and closed\n");
        assert_eq!((done.status.code(), err), (Some(3), wanted));
        let wav = std::fs::read(&to).unwrap();
        let size = u32::from_le_bytes(wav[100..104].try_into().unwrap()) as usize;
        assert_eq!((wav.len(), size % 48), (104 + size, 0));
        assert!(wav.len() <= 1_024 * most && wav.len() > 1_024 * most - 48);
    }
}

#[test]
fn a_closed_pipe_ends_quietly() {
    let folder = Folder::new("closed");
    let from = folder.with("in", &programme(2, 256).repeat(60));
    for args in [
        vec!["hex", &from],
        vec!["dump", &from],
        vec!["render", &from, "-o", "-"],
    ] {
        let mut child = Command::new(TOOL)
            .args(&args)
            .stdout(Stdio::piped())
            .stderr(Stdio::piped())
            .spawn()
            .unwrap();
        let mut few = [0; 100];
        child.stdout.take().unwrap().read_exact(&mut few).unwrap();
        let done = child.wait_with_output().unwrap();
        assert_eq!(
            (done.status.code(), done.stderr.len()),
            (Some(0), 0),
            "{args:?}"
        );
    }
}

#[test]
fn nothing_is_written_over_what_is_read() {
    let folder = Folder::new("over");
    let bytes = programme(4, 256);
    let from = folder.with("in", &bytes);
    for args in [
        ["render", &from, "-o", &from],
        ["undump", &from, "-o", &from],
        ["archive", &from, "-o", &from],
        ["unarchive", &from, "-o", &from],
    ] {
        let said = run(&args);
        assert_eq!(
            (said.code, said.err),
            (
                2,
                format!("voqlisna: {from} would be written over while it is read\n")
            )
        );
        assert!(std::fs::read(&from).unwrap() == bytes);
    }
}

/// Frames of 240 samples, most of them refused, and a good one of 1,536.
fn refusals() -> Vec<u8> {
    let metadata = || update(&[Bed::Center], 0, &mut Dice::new(5));
    let mut kind = metadata();
    kind[80] = 4;
    let mut depth = metadata();
    depth[152..156].copy_from_slice(&3f32.to_le_bytes());
    let mut send = metadata();
    send[156..160].copy_from_slice(&1.5f32.to_le_bytes());
    let pcm = [0.5; 240];
    let mut beyond = pcm;
    beyond[17] = 16.5;
    let mut mute = frame(48_000, &[], 0, &[], &[]);
    mute[8] = 9;
    [
        frame(48_000, &[2], 0, &[], &pcm),
        frame(48_000, &[2], 0, &metadata(), &pcm),
        frame(48_000, &[2], 0, &kind, &pcm),
        frame(48_000, &[2], 0, &depth, &pcm),
        frame(48_000, &[2], 0, &send, &pcm),
        frame(48_000, &[2], 0, &[], &beyond),
        frame(44_100, &[2], 0, &[], &pcm),
        frame(48_000, &[2], 1, &[], &[pcm, pcm].concat()),
        frame(48_000, &[19], 0, &[], &pcm),
        frame(7_000, &[2], 0, &[], &pcm),
        mute,
        frame(48_000, &[2], 0, &metadata(), &[0.5; 1_536]),
    ]
    .concat()
}

const REFUSALS: &str = "\
frame 1 at 0.000 s: refused 10 (stream): no metadata has come yet
frame 3 at 0.010 s: refused 5 (programme): record 2, byte 0 (update 0, element 0, block 0): the kind must be 3, a block; it is 4
frame 4 at 0.015 s: refused 6 (programme): record 3, byte 32 (update 0, element 0, object 0, block 0): the depth factor is 3, and must be 0.25, 0.5, 1 or 2
frame 5 at 0.020 s: refused 6 (programme): record 3, byte 36 (update 0, element 0, object 0, block 0): the send is 1.5, and must be from 0 to 1
frame 6 at 0.025 s: refused 8 (decoder): channel 0, sample 17 is 16.5
frame 7 at 0.030 s: refused 9 (stream): the stream runs at 48000 Hz and the frame at 44100: flush and reset first
frame 8 at 0.035 s: refused 11 (stream): the metadata has 0 dynamic objects and the frame 1
frame 9 at 0.040 s: refused 2 (host): bed 0 has code 19, and at most 17 may be
frame 10 at 0.045 s: refused 3 (host): the rate is outside 8,000 to 192,000 Hz; it is 7,000
frame 11 at 0.045 s: refused 2 (host): samples without a channel
12 frames, 10 refused: 3 stream, 3 programme, 1 decoder, 3 host; up to 1,536 samples a frame (hallrender takes 256)
";

#[test]
fn check_names_each_refusal_and_its_cause() {
    let said = feed(&["check", "-"], &refusals());
    assert_eq!(said.text(), REFUSALS);
    assert_eq!((said.code, said.err.as_str()), (1, ""));
}

#[test]
fn check_of_a_good_programme_is_0_and_of_a_bad_record_2() {
    let said = feed(
        &["check", "-"],
        &[programme(9, 256), FLUSH.to_vec()].concat(),
    );
    assert!(said.text().ends_with(" none refused\n"), "{}", said.text());
    assert_eq!(said.code, 0);
    let said = feed(&["check", "-"], &[FLUSH.to_vec(), vec![7; 40]].concat());
    let wanted = "voqlisna: standard input: byte 40: bad record: a flush (7) or reset (8) whose other bytes are not zero\n";
    assert_eq!(
        (said.code, said.text(), said.err.as_str()),
        (2, "0 frames, none refused\n", wanted)
    );
}
