// SPDX-License-Identifier: Apache-2.0
//! A cargo project in a folder of its own: with a path dependency and `VOQLISNA_LIB_DIR` it builds,
//! links and runs, offline; without the library it is told what to do.

use crate::tools::{cargo, library_folder, output, run};
use std::fs;
use std::path::{Path, PathBuf};
use std::process::Command;

const MAIN: &str = r#"
use voqlisna::*;

fn main() -> Result<(), Box<dyn std::error::Error>> {
    let mut memory = [0; MetadataWriter::bytes_for(1, &[])];
    let mut writer = MetadataWriter::new(&mut memory);
    writer.update(Update { at: 0, objects: 1, fixed: 0, beds: &[] })?;
    let frame = Frame::new(Rate::HZ_48000, &[], Pcm::packed(&[0.5; 480], 1)?, writer.finish())?;
    let mut out = Output::new(Stride::MAX);
    println!("{} ready", Renderer::new(Layout::Hall714)?.push(&frame, &mut out)?.ready());
    Ok(())
}
"#;

/// With neither `std` nor a heap; every generic function of the crate is called.
const BARE: &str = r#"
#![no_std]
use voqlisna::*;

pub fn renders(block: &mut [u8], frame: &Frame<'_>, out: &mut [f32]) -> Option<usize> {
    let mut out = Output::over(out, Stride::MAX).ok()?;
    let mut renderer = Renderer::over(block, Layout::Hall714).ok()?;
    renderer.push(frame, &mut out).ok()?;
    renderer.reset();
    renderer.flush(&mut out).map(|rendered| rendered.ready())
}

pub fn hangs(block: &mut [u8], table: &[u8], places: &[Panned; 12]) -> Result<HallTable, TableError> {
    let table = HallTable::from_bytes(table).or(HallTable::new(*places))?;
    let renderer = Renderer::over_with_table(block, Layout::Hall714, &table);
    Ok(renderer.map_or(table, |renderer| renderer.table()))
}

pub fn holds(block: &mut [u8], object: u32, speakers: &[Speaker]) -> Option<Panned> {
    let mut renderer = Renderer::over(block, Layout::Hall714).ok()?;
    renderer.hold(object).and(renderer.release(object)).ok()?;
    renderer.find(speakers).filter(|_| renderer.is_held(object) && renderer.waiting() == 0)
}

pub fn conceals(block: &mut [u8], frame: &Frame<'_>, out: &mut [f32], silence: &mut [f32]) -> Option<Way> {
    let mut out = Output::over(out, Stride::MAX).ok()?;
    let mut concealer = Concealer::over(silence, Stride::MAX).ok()?;
    let mut renderer = Renderer::over(block, Layout::Hall714).ok()?;
    let outcome = renderer.push_or_conceal(frame, &mut out, &mut concealer);
    outcome.ok().map(|outcome| outcome.way)
}

pub fn keeps(bytes: &[u8], block: &mut [u8], to: &mut [u8]) -> Result<usize, SnapshotError> {
    let renderer = Renderer::restore_over(Snapshot::read(bytes)?, block)?;
    renderer.save(to).map(|snapshot| snapshot.block().len())
}

pub fn gathers(memory: &mut [f32], rows: &[&[f32]], channels: usize) -> Option<usize> {
    let mut stage = Stage::over(memory);
    let samples = stage.planes(rows).ok()?.samples();
    Some(samples.min(stage.interleaved(rows.first()?, channels).ok()?.samples()))
}

pub fn delays(ring: &mut [f32], samples: usize, rendered: &Rendered<'_>, to: &mut [f32]) -> Option<usize> {
    let mut steady = Steady::fixed_over(ring, samples).ok()?;
    steady.put(rendered).ok()?;
    Some(steady.take_interleaved(&Speaker::ALL, samples, to))
}

pub fn writes(memory: &mut [u8], head: Update<'_>, blocks: &[Block], objects: &[Object]) -> Option<usize> {
    let mut writer = MetadataWriter::new(memory);
    let object = |o: usize, b: usize| objects.get(o ^ b).copied().unwrap_or_default();
    let Update { objects, fixed, beds, .. } = head;
    writer.update_ahead(Ahead { at: 70_000, objects, fixed, beds }).ok()?;
    writer.update(head).ok()?.element(blocks, object).ok()?;
    Some(writer.finish().records())
}
"#;

/// A project in the system's folder for temporary files, taken away at the end.
struct Project(PathBuf);

impl Project {
    fn new(name: &str, features: &str, source: (&str, &str)) -> Self {
        let folder = std::env::temp_dir().join(format!("voqlisna-{name}-{}", std::process::id()));
        let _ = fs::remove_dir_all(&folder);
        fs::create_dir_all(folder.join("src")).unwrap();
        let package = Path::new(env!("CARGO_MANIFEST_DIR")).display();
        let manifest = format!(
            "[package]\nname = \"{name}\"\nversion = \"0.0.0\"\nedition = \"2024\"\n\n\
             [dependencies]\nvoqlisna = {{ path = \"{package}\"{features} }}\n"
        );
        fs::write(folder.join("Cargo.toml"), manifest).unwrap();
        fs::write(folder.join("src").join(source.0), source.1).unwrap();
        Self(folder)
    }

    fn cargo(&self, arguments: &[&str]) -> Command {
        let mut command = cargo();
        command
            .current_dir(&self.0)
            .args(arguments)
            .args(["--offline", "-j", "1"]);
        command.env("CARGO_TARGET_DIR", self.0.join("target"));
        command
    }
}

impl Drop for Project {
    fn drop(&mut self) {
        let _ = fs::remove_dir_all(&self.0);
    }
}

#[test]
fn a_program_elsewhere_builds_links_and_runs() {
    let project = Project::new("elsewhere", "", ("main.rs", MAIN));
    let folder = fs::canonicalize(library_folder()).unwrap();
    let said = output(
        project
            .cargo(&["run", "--quiet"])
            .env("VOQLISNA_LIB_DIR", folder),
    );
    assert_eq!(said, "448 ready\n");
}

/// What a function may need that cannot panic: formatting, the entries, and plain bytes.
fn cannot_panic(symbol: &str) -> bool {
    let bytes = ["memcpy", "memset", "memmove", "memcmp", "bcmp"];
    let starts = ["hall_", "voqlisna::", "<voqlisna::"];
    symbol.contains("core::fmt::")
        || bytes.contains(&symbol)
        || starts.iter().any(|start| symbol.starts_with(start))
}

/// Without `std` and a heap it builds, and what is compiled, the crate's own functions and its
/// generic ones, refers to no function that panics: there is no such path.
#[test]
fn a_library_elsewhere_builds_without_std_and_cannot_panic() {
    let features = ", default-features = false";
    let project = Project::new("bare", features, ("lib.rs", BARE));
    let mut build = project.cargo(&["build", "--quiet", "--release"]);
    output(build.env("CARGO_PROFILE_RELEASE_CODEGEN_UNITS", "1"));
    let folder = fs::read_dir(project.0.join("target/release/deps")).unwrap();
    let is_ours = |path: &PathBuf| {
        let name = path.file_name().unwrap().to_string_lossy();
        let ours = ["libvoqlisna-", "libbare-"]
            .iter()
            .any(|ours| name.starts_with(ours));
        ours && name.ends_with(".rlib")
    };
    let ours: Vec<_> = folder
        .map(|entry| entry.unwrap().path())
        .filter(is_ours)
        .collect();
    assert_eq!(ours.len(), 2);
    for path in ours {
        let names = output(Command::new("nm").args(["-C", "-u"]).arg(&path));
        let needed = names
            .lines()
            .filter_map(|line| line.trim().strip_prefix("U "));
        let (good, bad): (Vec<_>, Vec<_>) = needed.partition(|symbol| cannot_panic(symbol));
        assert!(!good.is_empty() && bad.is_empty(), "{path:?}: {bad:?}");
    }
}

#[test]
fn a_missing_library_is_told_with_what_to_do() {
    let project = Project::new("missing", "", ("main.rs", MAIN));
    for (folder, message) in [
        ("/nonexistent", "libhall.a is not in it"),
        ("relative", "must be an absolute path"),
    ] {
        let result = run(project.cargo(&["check"]).env("VOQLISNA_LIB_DIR", folder));
        let said = String::from_utf8(result.stderr).unwrap();
        assert!(!result.status.success() && said.contains(message), "{said}");
        assert_eq!(
            folder == "/nonexistent",
            said.contains("tools/staticlib hall"),
            "{said}"
        );
    }
}
