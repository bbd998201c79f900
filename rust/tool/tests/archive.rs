// SPDX-License-Identifier: Apache-2.0
//! A rendered show into an archive and back.
mod common;
use common::{Dice, Folder, feed, programme, run};
use std::fs;
use voqlisna::{Layout, Speaker};

/// Bytes before the samples of a WAVE file that `render` writes, and before the first frame of an archive.
const WAVE_HEAD: usize = 104;
const HEAD: usize = 16;
const MOST: usize = 1_536;

/// A WAVE file as `render` writes it, of these samples, each of twelve words.
fn wave(rows: &[u8]) -> Vec<u8> {
    let mut wav = run(&["demo", "-s", "0.01", "-o", "-"]).out;
    wav.truncate(WAVE_HEAD);
    let (riff, data) = (rows.len() as u32 + 96, rows.len() as u32);
    wav[4..8].copy_from_slice(&riff.to_le_bytes());
    wav[100..].copy_from_slice(&data.to_le_bytes());
    [&wav, rows].concat()
}

/// Samples of any bits, every second one a NaN.
fn any_rows(dice: &mut Dice, samples: usize) -> Vec<u8> {
    let words = (0..12 * samples).map(|i| match i % 2 {
        0 => 0x7f80_0001 | dice.next() as u32,
        _ => dice.next() as u32,
    });
    words.flat_map(u32::to_le_bytes).collect()
}

/// The archive of these samples, as its layout is written down.
fn archived(rate: u32, rows: &[u8]) -> Vec<u8> {
    let mut bytes = b"HALLSHOW\x01\0\0\0".to_vec();
    bytes.extend(rate.to_le_bytes());
    for frame in rows.chunks(48 * MOST) {
        let samples = frame.len() / 48;
        bytes.extend((samples as u32).to_le_bytes());
        for plane in 0..4 {
            for channel in 0..12 {
                bytes.extend((0..samples).map(|i| frame[48 * i + 4 * channel + plane]));
            }
        }
    }
    bytes.extend([0; 4]);
    bytes
}

#[test]
fn any_samples_come_back_bit_for_bit() {
    let folder = Folder::new("archive");
    let (hall, back) = (folder.file("show.hall"), folder.file("back.wav"));
    let mut dice = Dice::new(3);
    for samples in [0, 1, 2, 1_535, 1_536, 1_537, 5_000] {
        let rows = any_rows(&mut dice, samples);
        let wav = wave(&rows);
        let from = folder.with("show.wav", &wav);
        let said = run(&["archive", &from, "-o", &hall]);
        assert_eq!((said.code, said.err.as_str()), (0, ""));
        assert!(
            fs::read(&hall).unwrap() == archived(48_000, &rows),
            "{samples}"
        );
        let said = run(&["unarchive", &hall, "-o", &back]);
        assert_eq!((said.code, said.err.as_str()), (0, ""));
        assert!(fs::read(&back).unwrap() == wav, "{samples}");
    }
}

#[test]
fn rendered_shows_come_back_as_render_wrote_them() {
    let folder = Folder::new("archive-shows");
    let (wav, hall, back) = (
        folder.file("a.wav"),
        folder.file("a.hall"),
        folder.file("b.wav"),
    );
    for (seed, large) in [(1, false), (2, true), (3, false)] {
        let from = folder.with("in", &programme(seed, 1_536));
        let options = if large { &["--rf64"][..] } else { &[] };
        assert_eq!(
            run(&[&["render", &from, "-o", &wav], options].concat()).code,
            0
        );
        assert_eq!(run(&["archive", &wav, "-o", &hall]).code, 0);
        assert_eq!(
            run(&[&["unarchive", &hall, "-o", &back], options].concat()).code,
            0
        );
        let (wav, back) = (fs::read(&wav).unwrap(), fs::read(&back).unwrap());
        assert!(wav.len() > 10_000 && wav == back, "{seed}");
    }
}

/// In smaller layouts the archive has the code, and zeros for the channels that are not there.
#[test]
fn shows_of_every_layout_come_back() {
    let folder = Folder::new("archive-layouts");
    let (wav, hall, back) = (
        folder.file("a.wav"),
        folder.file("a.hall"),
        folder.file("b.wav"),
    );
    let from = folder.with("in", &programme(6, 1_536));
    for layout in Layout::ALL {
        let said = run(&["render", &from, "--layout", layout.name(), "-o", &wav]);
        assert_eq!(said.code, 0, "{}", said.err);
        assert_eq!(run(&["archive", &wav, "-o", &hall]).code, 0);
        assert_eq!(run(&["unarchive", &hall, "-o", &back]).code, 0);
        let (wav, back) = (fs::read(&wav).unwrap(), fs::read(&back).unwrap());
        assert!(wav.len() > 10_000 && wav == back, "{layout}");
        // The same show in 7.1.4, its absent channels silent, has the same planes.
        let rate = u32::from_le_bytes(wav[60..64].try_into().unwrap());
        let speakers = layout.speakers();
        let rows = wav[WAVE_HEAD..].chunks_exact(4 * speakers.len());
        let twelve = rows.flat_map(|row| {
            Speaker::ALL.map(|speaker| {
                let place = speakers.iter().position(|s| *s == speaker);
                let word = place.map_or(&[0; 4][..], |k| &row[4 * k..4 * k + 4]);
                <[u8; 4]>::try_from(word).unwrap()
            })
        });
        let twelve: Vec<u8> = twelve.flatten().collect();
        let mut wanted = archived(rate, &twelve);
        if layout != Layout::Hall714 {
            wanted[8] = 2;
            wanted.splice(HEAD..HEAD, layout.code().to_le_bytes());
        }
        assert!(fs::read(&hall).unwrap() == wanted, "{layout}");
    }
}

/// On pipes the WAVE files' sizes are open.
#[test]
fn through_pipes() {
    let folder = Folder::new("archive-pipes");
    let from = folder.with("in", &programme(4, 1_000));
    let open = run(&["render", &from, "-o", "-"]).out;
    let hall = feed(&["archive", "-", "-o", "-"], &open);
    let rate = u32::from_le_bytes(open[60..64].try_into().unwrap());
    assert!(hall.code == 0 && hall.out == archived(rate, &open[WAVE_HEAD..]));
    assert!(hall.err.starts_with("standard output: ") && hall.err.ends_with(" Hz\n"));
    let back = feed(&["unarchive", "-", "-o", "-"], &hall.out);
    assert!(back.code == 0 && back.out == open);
}

#[test]
fn it_says_how_long_the_show_is() {
    let folder = Folder::new("archive-says");
    let from = folder.with("show.wav", &wave(&[0; 48 * 2_400]));
    let (hall, back) = (folder.file("show.hall"), folder.file("back.wav"));
    let long = "0.050 s, 2,400 samples at 48,000 Hz\n";
    let said = run(&["archive", &from, "-o", &hall]);
    assert_eq!(said.text(), format!("{hall}: {long}"));
    let said = run(&["unarchive", &hall, "-o", &back]);
    assert_eq!(said.text(), format!("{back}: {long}"));
}

/// `command` of these bytes ends by 2 with this message, and writes what `written` of them was whole.
fn is_wrong(folder: &Folder, command: &str, bytes: &[u8], message: &str) -> Vec<u8> {
    let to = folder.file("out");
    let _ = fs::remove_file(&to);
    let said = feed(&[command, "-", "-o", &to], bytes);
    let wanted = format!("voqlisna: standard input: {message}\n");
    assert_eq!((said.code, said.err), (2, wanted));
    fs::read(&to).unwrap_or_default()
}

/// Bytes with others in their place.
fn changed(bytes: &[u8], at: usize, to: &[u8]) -> Vec<u8> {
    let mut bytes = bytes.to_vec();
    bytes[at..at + to.len()].copy_from_slice(to);
    bytes
}

#[test]
fn other_files_are_not_archived() {
    let folder = Folder::new("archive-others");
    let good = wave(&[0; 96]);
    let none = "byte 0: this is no WAVE file";
    let short = |at: usize| format!("byte {at}: the file ends before its samples");
    for (bytes, message) in [
        (vec![], none),
        (good[..11].to_vec(), none),
        (changed(&good, 0, b"RIFX"), none),
        (changed(&good, 8, b"WAVX"), none),
        (good[..12].to_vec(), &short(12)),
        (good[..40].to_vec(), &short(40)),
        (good[..90].to_vec(), &short(56)),
        (good[..103].to_vec(), &short(96)),
    ] {
        assert_eq!(is_wrong(&folder, "archive", &bytes, message), []);
    }
}

#[test]
fn other_samples_are_not_archived() {
    let folder = Folder::new("archive-samples");
    let good = wave(&[0; 96]);
    let other =
        "byte 56: not a layout's channels in f32 with their mask (0x2d63f, 0x2d60f, 0x63f, 0x60f)";
    let rate = "byte 56: a rate outside 8,000 to 192,000 Hz";
    let early = "byte 104: samples before their format";
    let odd = "byte 104: the samples are not whole rows of 48 bytes";
    for (at, to, message) in [
        (58, &[2][..], other), // channels
        (70, &[24], other),    // bits
        (76, &[0], other),     // the mask
        (80, &[1], other),     // whole numbers
        (60, &[0; 4], rate),
        (48, b"fmtx", early),
        (100, &[95], odd),
    ] {
        let bytes = changed(&good, at, to);
        assert_eq!(is_wrong(&folder, "archive", &bytes, message), []);
    }
}

#[test]
fn a_cut_wave_file_gives_the_archive_of_what_is_there() {
    let folder = Folder::new("archive-cut");
    let rows = any_rows(&mut Dice::new(5), 3);
    let wav = wave(&rows);
    let cut = |bytes: usize| &wav[..wav.len() - bytes];
    let missing = |at: usize, n: usize| {
        format!("byte {at}: the file ends inside its samples ({n} bytes are missing)")
    };
    let written = is_wrong(&folder, "archive", cut(1), &missing(WAVE_HEAD + 96, 1));
    assert!(written == archived(48_000, &rows[..96]));
    let written = is_wrong(&folder, "archive", cut(48), &missing(WAVE_HEAD + 96, 48));
    assert!(written == archived(48_000, &rows[..96]));
    let mut open = cut(50).to_vec();
    open[100..104].fill(0xff);
    let written = is_wrong(&folder, "archive", &open, &missing(WAVE_HEAD + 48, 2));
    assert!(written == archived(48_000, &rows[..48]));
}

#[test]
fn an_archive_with_a_damaged_head_gives_nothing() {
    let folder = Folder::new("archive-head");
    let good = archived(48_000, &any_rows(&mut Dice::new(6), MOST));
    let none = "byte 0: this is no archive of a show";
    let version = "byte 0: an archive of version 3, and this tool reads versions 1 and 2";
    for (bytes, message) in [
        (vec![], none),
        (good[..15].to_vec(), none),
        (changed(&good, 7, b"X"), none),
        (changed(&good, 8, &[3]), version),
        // The count of the first frame, 1,536, as a layout's code.
        (
            changed(&good, 8, &[2]),
            "byte 0: an archive without a layout",
        ),
        (changed(&good, 12, &[0; 4]), "byte 0: a rate of 0 Hz"),
    ] {
        assert_eq!(is_wrong(&folder, "unarchive", &bytes, message), []);
    }
}

#[test]
fn a_damaged_archive_gives_the_samples_before_the_damage() {
    let folder = Folder::new("archive-damaged");
    let rows = any_rows(&mut Dice::new(6), MOST + 10);
    let good = archived(48_000, &rows);
    let (second, end) = (HEAD + 4 + 48 * MOST, good.len());
    let early = "the file ends before the archive does";
    let inside = "the file ends inside a frame (1 of 484 bytes are missing)";
    let large = "a frame of 1,537 samples, and at most 1,536 may be";
    let late = "the archive is at its end and the file is not";
    for (bytes, at, why, samples) in [
        (good[..HEAD].to_vec(), 16, early, 0),
        (good[..second].to_vec(), second, early, MOST),
        (good[..end - 5].to_vec(), second, inside, MOST),
        (good[..end - 1].to_vec(), end - 4, early, MOST + 10),
        (changed(&good, second, &[1, 6]), second, large, MOST),
        ([&good[..], &[0]].concat(), end, late, MOST + 10),
    ] {
        let message = format!("byte {}: {why}", grouped(at));
        let written = is_wrong(&folder, "unarchive", &bytes, &message);
        assert!(written == wave(&rows[..48 * samples]), "{message}");
    }
}

/// A number below a million, its thousands apart.
fn grouped(n: usize) -> String {
    match n {
        0..1_000 => n.to_string(),
        _ => format!("{},{:03}", n / 1_000, n % 1_000),
    }
}
