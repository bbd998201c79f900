// SPDX-License-Identifier: Apache-2.0
//! The demo and the pictures.
mod common;
use common::{Folder, has_sox, pipe, root, run};
use std::fs;
use std::process::Command;

const ALL: &str = "12 channels (FL FR FC LFE BL BR SL SR TFL TFR TBL TBR)";

#[test]
fn the_demo_says_what_it_wrote() {
    let folder = Folder::new("demo");
    let to = folder.file("show.wav");
    let said = run(&["demo", "-o", &to]);
    let wanted = format!(
        "{to}: 20.000 s, {ALL}, peak -0.9 dB; 1 of 3,750 frames refused at 10.000 s \
         (8, decoder: channel 4, sample 17 is NaN) and concealed\n\
         listen: play {to}   see: voqlisna plot levels -o levels.svg\n"
    );
    assert_eq!(
        (said.code, said.text(), said.err.as_str()),
        (0, wanted.as_str(), "")
    );
    let wav = fs::read(&to).unwrap();
    assert_eq!(wav.len(), 104 + 48 * 960_000);
    every_channel_sounds_and_only_the_stroke_is_limited(&wav[104..]);
    the_ship_shakes_the_floor(&wav[104..]);
    assert!(
        run(&["demo", "-o", "-"]).out[104..] == wav[104..],
        "two runs give the same bytes"
    );
    if !has_sox() {
        return;
    }
    let stats = pipe(Command::new("sox").args([&to, "-n", "stats"]), b"");
    let peak = stats
        .err
        .lines()
        .find(|l| l.starts_with("Pk lev dB"))
        .unwrap();
    assert_eq!(
        peak.split_whitespace().nth(3),
        Some("-0.92"),
        "{}",
        stats.err
    );
}

fn every_channel_sounds_and_only_the_stroke_is_limited(rows: &[u8]) {
    let mut peaks = [0f32; 12];
    for (k, row) in rows.chunks_exact(48).enumerate() {
        for (peak, word) in peaks.iter_mut().zip(row.chunks_exact(4)) {
            let x = f32::from_le_bytes(word.try_into().unwrap()).abs();
            *peak = peak.max(x);
            // Far below full scale but for the stroke at three quarters.
            assert!(x < 0.75 || (720_000..724_800).contains(&k), "{x} at {k}");
        }
    }
    assert!(peaks.iter().all(|p| *p > 0.2), "{peaks:?}");
    assert_eq!(peaks[2], 0.9, "the limiter brings its peak to 0.9");
}

/// The bass feed is loudest while the ship passes overhead, around 5 s.
fn the_ship_shakes_the_floor(rows: &[u8]) {
    let (mut near, mut far) = (0f32, 0f32);
    for (k, row) in rows.chunks_exact(48).enumerate() {
        let x = f32::from_le_bytes(row[12..16].try_into().unwrap()).abs();
        match k {
            216_000..264_000 => near = near.max(x),
            ..124_800 | 355_200.. => far = far.max(x),
            _ => {}
        }
    }
    assert!(near > 0.4 && far < 0.3, "{near} {far}");
}

#[test]
fn a_demo_of_any_length() {
    let folder = Folder::new("length");
    let to = folder.file("show.wav");
    for (seconds, frames, at) in [
        ("0.01", 2, "0.005"),
        ("0.5", 94, "0.251"),
        ("3", 563, "1.499"),
    ] {
        let said = run(&["demo", "-s", seconds, "-o", &to]);
        let length: f64 = seconds.parse().unwrap();
        let text = said.text().to_owned();
        assert!(
            text.starts_with(&format!("{to}: {length:.3} s, {ALL}, peak ")),
            "{text}"
        );
        assert!(
            text.contains(&format!(
                "; 1 of {frames} frames refused at {at} s (8, decoder: "
            )),
            "{text}"
        );
        assert_eq!(
            fs::metadata(&to).unwrap().len(),
            104 + 48 * (length * 48_000.0) as u64
        );
    }
}

/// Each picture is the same on every run, small, and the one in docs/pictures.
#[test]
fn the_pictures_are_those_of_the_documents() {
    let own = root().join("docs/pictures/own-hall.txt");
    for (name, args) in [
        ("map", vec!["map"]),
        ("map-5.1.4", vec!["map", "--layout", "5.1.4"]),
        ("map-7.1.0", vec!["map", "--layout", "7.1.0"]),
        ("map-5.1.0", vec!["map", "--layout", "5.1.0"]),
        ("map-own", vec!["map", "--table", own.to_str().unwrap()]),
        ("bass", vec!["plot", "bass"]),
        ("decay", vec!["plot", "decay"]),
        ("limiter", vec!["plot", "limiter"]),
        ("levels", vec!["plot", "levels"]),
        ("hold", vec!["plot", "hold"]),
    ] {
        let draw = || run(&[args.clone(), vec!["-o", "-"]].concat());
        let said = draw();
        assert_eq!((said.code, said.err.as_str()), (0, ""), "{name}");
        assert!(said == draw(), "{name}: two runs differ");
        assert!(said.out.len() < 150_000, "{name}: {} bytes", said.out.len());
        let kept = fs::read(root().join(format!("docs/pictures/{name}.svg"))).unwrap();
        assert!(
            said.out == kept,
            "docs/pictures/{name}.svg is not what the tool draws"
        );
    }
}
