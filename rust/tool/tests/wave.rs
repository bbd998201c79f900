// SPDX-License-Identifier: Apache-2.0
//! The WAVE files that `render` writes.
mod common;
use common::{FLUSH, Folder, RESET, damaged, feed, frame, has_sox, pipe, programme, run};
use std::fs;
use std::process::Command;
use voqlisna::{Bed, Frame, Metadata, Output, Pcm, Rate, Renderer, Stride};

const HEAD: usize = 104;

fn word(bytes: &[u8], at: usize) -> u32 {
    u32::from_le_bytes(bytes[at..at + 4].try_into().unwrap())
}

fn long(bytes: &[u8], at: usize) -> u64 {
    u64::from_le_bytes(bytes[at..at + 8].try_into().unwrap())
}

fn is_twelve_floats(wav: &[u8], rate: u32) {
    is_floats(wav, rate, 12, 0x2d63f);
}

/// What stands in the first bytes whatever the sizes are, of so many channels with that mask.
fn is_floats(wav: &[u8], rate: u32, channels: u32, mask: u32) {
    assert_eq!(&wav[8..12], b"WAVE");
    assert_eq!(word(wav, 16), 28);
    assert_eq!(&wav[48..52], b"fmt ");
    assert_eq!(word(wav, 52), 40);
    assert_eq!(word(wav, 56), 0xfffe | channels << 16, "extensible");
    assert_eq!(word(wav, 60), rate);
    assert_eq!(word(wav, 64), 4 * channels * rate);
    let row = 4 * channels;
    assert_eq!(word(wav, 68), 0x0020_0000 | row, "bytes a row, 32 bits");
    assert_eq!(word(wav, 72), 0x0020_0016, "22 bytes more, 32 bits in use");
    assert_eq!(word(wav, 76), mask);
    assert_eq!(
        wav[80..96],
        *b"\x03\0\0\0\0\0\x10\0\x80\0\0\xaa\0\x38\x9b\x71"
    );
    assert_eq!(&wav[96..100], b"data");
}

/// The words that `hex` prints, as the bytes of a WAVE file.
fn words_of(text: &str) -> Vec<u8> {
    let lines = text.lines().filter(|l| l.len() == 12 * 9 - 1);
    lines
        .flat_map(|l| l.split(' '))
        .flat_map(|w| u32::from_str_radix(w, 16).unwrap().to_le_bytes())
        .collect()
}

#[test]
fn samples_are_the_words_of_hex() {
    let folder = Folder::new("words");
    let to = folder.file("out.wav");
    let mut samples = 0;
    for seed in 0..60 {
        let bytes = programme(seed, 256);
        let said = feed(&["render", "-", "-o", &to], &bytes);
        assert_eq!((said.code, said.err.as_str()), (0, ""));
        let wav = fs::read(&to).unwrap();
        is_twelve_floats(&wav, word(&bytes, 4));
        let words = words_of(feed(&["hex", "-"], &bytes).text());
        assert!(wav[HEAD..] == words);
        assert_eq!(&wav[..4], b"RIFF");
        assert_eq!(&wav[12..16], b"JUNK");
        assert_eq!(word(&wav, 4) as usize, wav.len() - 8);
        assert_eq!(word(&wav, 100) as usize, words.len());
        samples += words.len() / 48;
    }
    assert!(samples > 10_000);
}

/// Each layout's file has its channels, in their order, with its mask; the same programme by the crate.
#[test]
fn a_file_has_the_channels_of_the_layout() {
    let folder = Folder::new("layouts");
    let to = folder.file("out.wav");
    let names = "FL FR FC LFE SL SR TFL TFR TBL TBR";
    for (layout, channels, mask, said) in [
        (
            "7.1.4",
            12,
            0x2d63f,
            "12 channels (FL FR FC LFE BL BR SL SR TFL TFR TBL TBR)",
        ),
        ("5.1.4", 10, 0x2d60f, &format!("10 channels ({names})")),
        ("7.1.0", 8, 0x63f, "8 channels (FL FR FC LFE BL BR SL SR)"),
        ("5.1.0", 6, 0x60f, "6 channels (FL FR FC LFE SL SR)"),
    ] {
        for seed in 0..20 {
            let bytes = programme(seed, 256);
            let rendered = feed(&["render", "-", "--layout", layout, "-o", &to], &bytes);
            assert_eq!((rendered.code, rendered.err.as_str()), (0, ""));
            assert!(rendered.text().contains(said), "{}", rendered.text());
            let wav = fs::read(&to).unwrap();
            is_floats(&wav, word(&bytes, 4), channels, mask);
            assert_eq!(word(&wav, 4) as usize, wav.len() - 8);
            assert_eq!(word(&wav, 100) as usize, wav.len() - HEAD);
            assert!(
                wav[HEAD..] == by_the_crate(layout, &bytes),
                "{layout} {seed}"
            );
        }
    }
}

/// The samples of a programme of frames and flushes by the crate, sample after sample.
fn by_the_crate(layout: &str, bytes: &[u8]) -> Vec<u8> {
    let mut renderer = Renderer::new(layout.parse().unwrap()).unwrap();
    let (mut out, mut rows) = (Output::new(Stride::MAX), Vec::new());
    let mut records = bytes.chunks(40);
    while let Some(head) = records.next() {
        let half = |at: usize| usize::from(u16::from_le_bytes([head[at], head[at + 1]]));
        let (samples, beds, objects) = (half(8), usize::from(head[10]), usize::from(head[11]));
        let metadata: Vec<u8> = records.by_ref().take(half(12)).flatten().copied().collect();
        let places = (beds + objects) * samples;
        let sound = records.by_ref().take(places.div_ceil(9));
        let pcm: Vec<u8> = sound
            .flat_map(|r| &r[4..])
            .copied()
            .take(4 * places)
            .collect();
        let rendered = if head[0] == 5 {
            let beds: Vec<Bed> = head[14..14 + beds]
                .iter()
                .map(|c| Bed::from_code(*c).unwrap())
                .collect();
            let pcm = Pcm::bytes(&pcm, beds.len() + objects).unwrap();
            let rate = Rate::new(word(head, 4)).unwrap();
            let frame = Frame::new(rate, &beds, pcm, Metadata::from_records(&metadata)).unwrap();
            Some(renderer.push(&frame, &mut out).unwrap())
        } else {
            renderer.flush(&mut out)
        };
        let Some(rendered) = rendered else { continue };
        let mut interleaved = vec![0.0; 12 * rendered.ready()];
        let written = rendered.interleave_into(&mut interleaved).unwrap();
        rows.extend(interleaved[..written].iter().flat_map(|x| x.to_le_bytes()));
    }
    rows
}

#[test]
fn a_large_file_header_at_any_length() {
    let folder = Folder::new("rf64");
    let (short, large) = (folder.file("short.wav"), folder.file("large.wav"));
    let from = folder.with("in", &programme(7, 1_000));
    assert_eq!(run(&["render", &from, "-o", &short]).code, 0);
    assert_eq!(run(&["render", &from, "-o", &large, "--rf64"]).code, 0);
    let (short, large) = (fs::read(short).unwrap(), fs::read(large).unwrap());
    assert!(short[HEAD..] == large[HEAD..]);
    is_twelve_floats(&large, word(&short, 60));
    assert_eq!(&large[..4], b"RF64");
    assert_eq!(word(&large, 4), u32::MAX);
    assert_eq!(&large[12..16], b"ds64");
    assert_eq!(long(&large, 20) as usize, large.len() - 8);
    assert_eq!(long(&large, 28) as usize, large.len() - HEAD);
    assert_eq!(long(&large, 36) as usize, (large.len() - HEAD) / 48);
    assert_eq!(word(&large, 100), u32::MAX);
}

#[test]
fn on_a_pipe_the_sizes_are_open() {
    let folder = Folder::new("pipe");
    let from = folder.with("in", &programme(11, 1_000));
    let to = folder.file("out.wav");
    run(&["render", &from, "-o", &to]);
    let said = run(&["render", &from, "-o", "-"]);
    let wav = fs::read(to).unwrap();
    assert!(said.out[HEAD..] == wav[HEAD..]);
    assert_eq!(word(&said.out, 4), u32::MAX);
    assert_eq!(word(&said.out, 100), u32::MAX);
    assert_eq!(&said.out[..4], b"RIFF");
    assert!(said.err.starts_with("standard output: "), "{}", said.err);
}

/// A file has its sizes whatever ended the run.
fn is_closed(wav: &[u8], rows: usize) {
    assert_eq!(wav.len(), HEAD + 48 * rows);
    assert_eq!(word(wav, 4) as usize, wav.len() - 8);
    assert_eq!(word(wav, 100) as usize, wav.len() - HEAD);
}

fn tone(rate: u32, samples: usize) -> Vec<u8> {
    let mut dice = common::Dice::new(5);
    let beds = [voqlisna::Bed::Center];
    frame(
        rate,
        &[2],
        0,
        &common::update(&beds, 0, &mut dice),
        &vec![0.5; samples],
    )
}

#[test]
fn a_file_is_closed_where_the_input_breaks_off() {
    let folder = Folder::new("cut");
    let to = folder.file("out.wav");
    let mut bytes = tone(48_000, 100);
    let whole = bytes.len();
    bytes.extend(tone(48_000, 100));
    let from = folder.with("in", &bytes[..bytes.len() - 90]);
    let said = run(&["render", &from, "-o", &to]);
    let end = bytes.len() - 90;
    assert!(end > whole);
    let wanted = format!(
        "voqlisna: {from}: byte {}: the file ends inside a frame (3 of 12 PCM records are missing)\n",
        grouped(end)
    );
    assert_eq!((said.code, said.err), (2, wanted));
    is_closed(&fs::read(&to).unwrap(), 100);
}

fn grouped(n: usize) -> String {
    if n < 1_000 {
        n.to_string()
    } else {
        format!("{},{:03}", n / 1_000, n % 1_000)
    }
}

#[test]
fn a_file_has_one_rate() {
    let folder = Folder::new("rate");
    let to = folder.file("out.wav");
    let mut bytes = tone(48_000, 128);
    bytes.extend(RESET);
    bytes.extend(tone(44_100, 64));
    let said = feed(&["render", "-", "-o", &to], &bytes);
    let wanted = format!(
        "voqlisna: {to}: at 0.003 s the programme goes on at 44100 Hz, and a file has one rate, here 48000 Hz\n"
    );
    assert_eq!((said.code, said.err), (2, wanted));
    is_closed(&fs::read(&to).unwrap(), 128);
}

#[test]
fn a_refused_frame_is_concealed_or_ends_the_run() {
    let folder = Folder::new("refused");
    let to = folder.file("out.wav");
    let mut bytes = tone(48_000, 128);
    bytes.extend(frame(48_000, &[2], 0, &[], &[f32::NAN; 64]));
    bytes.extend(frame(48_000, &[2], 0, &[], &[0.25; 64]));
    bytes.extend(FLUSH);
    let from = folder.with("in", &bytes);
    let all = "12 channels (FL FR FC LFE BL BR SL SR TFL TFR TBL TBR)";
    for args in [vec![], vec!["--conceal"]] {
        let said = run(&[vec!["render", &from, "-o", &to], args].concat());
        assert_eq!((said.code, said.err.as_str()), (0, ""));
        let wanted = format!(
            "{to}: 0.005 s, {all}, peak -9.0 dB; 1 of 3 frames refused (8: 1), 1 concealed, 0 lost\n"
        );
        let peak = peak_of(&fs::read(&to).unwrap());
        assert_eq!(said.text(), wanted.replace("-9.0 dB", &peak));
        is_closed(&fs::read(&to).unwrap(), 256);
    }
    let said = run(&["render", &from, "-o", &to, "--stop"]);
    let wanted = format!(
        "voqlisna: {from}: frame 2 at 0.003 s: refused 8 (decoder): channel 0, sample 0 is NaN\n"
    );
    assert_eq!((said.code, said.err), (1, wanted));
    is_closed(&fs::read(&to).unwrap(), 128);
}

/// The greatest sample of a file in dB, as the tool says it.
fn peak_of(wav: &[u8]) -> String {
    let words = wav[HEAD..].chunks_exact(4);
    let peak = words.fold(0f32, |p, w| {
        p.max(f32::from_le_bytes(w.try_into().unwrap()).abs())
    });
    format!("{:.1} dB", 20.0 * f64::from(peak).log10())
}

#[test]
fn a_lost_frame_is_1_and_nothing_accepted_leaves_no_file() {
    let folder = Folder::new("lost");
    let to = folder.file("out.wav");
    let early = frame(48_000, &[2], 0, &[], &[0.5; 64]);
    let from = folder.with("in", &early);
    let said = run(&["render", &from, "-o", &to]);
    let wanted = format!("voqlisna: {from}: no frame was accepted, so there is nothing to write\n");
    assert_eq!((said.code, said.err), (1, wanted));
    assert!(!fs::exists(&to).unwrap());
    let said = feed(
        &["render", "-", "-o", &to],
        &[early, tone(48_000, 64)].concat(),
    );
    assert_eq!((said.code, said.err.as_str()), (1, ""));
    assert!(
        said.text()
            .ends_with("; 1 of 2 frames refused (10: 1), 0 concealed, 1 lost\n")
    );
    is_closed(&fs::read(&to).unwrap(), 64);
}

/// Whatever the programme, the file is whole and its samples are finite and within full scale.
#[test]
fn damaged_programmes_give_whole_files() {
    let folder = Folder::new("whole");
    let to = folder.file("out.wav");
    let mut written = 0;
    for seed in 0..150 {
        let _ = fs::remove_file(&to);
        let said = feed(&["render", "-", "-o", &to], &damaged(seed));
        assert!((0..=2).contains(&said.code), "{}", said.err);
        if let Ok(wav) = fs::read(&to) {
            is_closed(&wav, (wav.len() - HEAD) / 48);
            for w in wav[HEAD..].chunks_exact(4) {
                let x = f32::from_le_bytes(w.try_into().unwrap());
                assert!((-1.0..=1.0).contains(&x), "{x}");
            }
            written += 1;
        }
    }
    assert!(written > 75);
}

#[test]
fn sox_reads_the_files() {
    if !has_sox() {
        return;
    }
    let folder = Folder::new("sox");
    let from = folder.with("in", &[tone(48_000, 1_000), FLUSH.to_vec()].concat());
    for (name, options) in [("a.wav", vec![]), ("b.wav", vec!["--rf64"])] {
        let to = folder.file(name);
        assert_eq!(
            run(&[vec!["render", &from, "-o", &to], options].concat()).code,
            0
        );
        let info = pipe(Command::new("sox").args(["--i", &to]), b"");
        for line in [
            "Channels       : 12",
            "Sample Rate    : 48000",
            "= 1000 samples",
            "32-bit Floating Point PCM",
        ] {
            assert!(info.text().contains(line), "{name}: {}", info.text());
        }
        // What sox reads, given out as raw floats, is what stands in the file.
        let raw = pipe(Command::new("sox").args([&to, "-t", "f32", "-"]), b"");
        assert!(raw.out == fs::read(&to).unwrap()[HEAD..], "{name}");
    }
}
