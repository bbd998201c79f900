// SPDX-License-Identifier: Apache-2.0
//! The script `voqlisna` at the project's root, in a small project of its own where `rt` and `cargo` are stand-ins that
//! write down how they are called.
mod common;
use common::{Folder, Said, TOOL, pipe, root};
use std::fs;
use std::os::unix::fs::PermissionsExt;
use std::process::Command;

/// Proves and compiles the crate in whose folder it is called, with what it rests on; with `fail` in the project, all but that crate.
const RT: &str = r#"#!/bin/sh
crate=${PWD##*/}
echo "rt $* in $crate" >>"$CALLS"
[ "$1" = lib ] || exit 2
for c in words ieee frame hall "$crate"; do echo "rt: chose --jobs 2 for $c"; echo "fn $c::one: proved"; done
mkdir -p out
echo half >"out/lib$crate.a"
[ ! -e ../../fail ] || { echo "rt: $crate NOT PROVED"; exit 1; }
echo library >"out/lib$crate.a"
"#;

/// "Builds" the tool that is under test. `fetch` finds lexopt.
const CARGO: &str = r#"#!/bin/sh
echo "cargo $1" >>"$CALLS"
[ "$1" != build ] || { mkdir -p rust/tool/target/release; cp "$BUILT" rust/tool/target/release/voqlisna; }
"#;

const CRATES: &str = "\
# a comment: not a crate
words:
ieee:
other: words
frame: words ieee # behind
hall: words frame
hall_c staticlib: hall
above: hall other
";

struct Project(Folder);

impl Project {
    fn new(name: &str) -> Self {
        let folder = Folder::new(name);
        for inner in [
            "bin",
            "crates/hall/src",
            "crates/hall_c/src",
            "tools",
            "rust/tool/src",
            "rust/voqlisna",
            "rust/voqlisna-sys",
        ] {
            fs::create_dir_all(folder.file(inner)).unwrap();
        }
        for (file, text) in [("bin/rt", RT), ("bin/cargo", CARGO)] {
            let path = folder.with(file, text.as_bytes());
            fs::set_permissions(path, fs::Permissions::from_mode(0o755)).unwrap();
        }
        for script in ["voqlisna", "tools/staticlib"] {
            fs::copy(root().join(script), folder.file(script)).unwrap();
        }
        for (file, text) in [
            ("crates.txt", CRATES),
            ("crates/hall/src/lib.rt", ""),
            ("rust/Cargo.toml", ""),
            ("rust/tool/Cargo.toml", ""),
            ("rust/tool/src/help.txt", "the help\n"),
        ] {
            folder.with(file, text.as_bytes());
        }
        Self(folder)
    }

    /// Runs the script from another folder; what it said, and what it called.
    fn run(&self, args: &[&str], path: &str) -> (Said, String) {
        let calls = self.0.file("calls");
        fs::write(&calls, "").unwrap();
        let mut command = Command::new("/bin/bash");
        command
            .arg(self.0.file("voqlisna"))
            .args(args)
            .current_dir("/");
        command
            .env("PATH", path)
            .env("CALLS", &calls)
            .env("BUILT", TOOL);
        (pipe(&mut command, b""), fs::read_to_string(&calls).unwrap())
    }

    /// With the stand-ins.
    fn with(&self, args: &[&str]) -> (Said, String) {
        self.run(args, &format!("{}:/usr/bin:/bin", self.0.file("bin")))
    }

    /// Makes a file newer than all that was made.
    fn change(&self, file: &str) {
        let later = std::time::SystemTime::now() + std::time::Duration::from_secs(2);
        let file = fs::File::options().append(true).open(self.0.file(file));
        file.unwrap().set_modified(later).unwrap();
    }
}

const FIRST: &str = "\
voqlisna: the library is proved and compiled first: 5 crates, about 8 minutes on four cores where none is proved yet
voqlisna: crate 1 of 5: words
voqlisna: crate 2 of 5: ieee
voqlisna: crate 3 of 5: frame
voqlisna: crate 4 of 5: hall
voqlisna: crate 5 of 5: hall_c
voqlisna: building the tool, about 20 seconds
";

#[test]
fn what_is_missing_is_made_once() {
    let project = Project::new("script");
    let (said, calls) = project.with(&["version"]);
    assert_eq!((said.code, said.err.as_str()), (0, FIRST));
    assert!(said.text().starts_with("voqlisna 0."), "{}", said.text());
    assert_eq!(calls, "rt lib in hall_c\ncargo fetch\ncargo build\n");
    let (again, calls) = project.with(&["version"]);
    assert_eq!(
        (again.out, again.err.as_str(), calls.as_str()),
        (said.out, "", "")
    );
    let (said, _) = project.with(&["check"]);
    assert_eq!(
        (said.code, said.err.as_str()),
        (2, "voqlisna: IN is missing\n"),
        "the tool's own code"
    );
}

#[test]
fn what_is_older_than_its_sources_is_made_again() {
    let project = Project::new("script-older");
    project.with(&["version"]);
    project.change("rust/tool/src/help.txt");
    let (_, calls) = project.with(&["version"]);
    assert_eq!(calls, "cargo fetch\ncargo build\n");
    project.change("crates/hall/src/lib.rt");
    let (_, calls) = project.with(&["version"]);
    assert_eq!(calls, "rt lib in hall_c\ncargo fetch\ncargo build\n");
}

#[test]
fn a_library_that_is_not_proved_is_none() {
    let project = Project::new("script-fail");
    project.0.with("fail", b"");
    let (said, calls) = project.with(&["version"]);
    assert_eq!((said.code, said.text()), (4, ""));
    assert!(
        said.err
            .contains("rt: hall_c NOT PROVED\nvoqlisna: hall is not proved (all of it: "),
        "{}",
        said.err
    );
    assert!(!calls.contains("cargo"), "{calls}");
    assert!(!fs::exists(project.0.file("target/staticlib/libhall.a")).unwrap());
}

#[test]
fn without_the_kit_it_says_so_and_help_needs_nothing() {
    let project = Project::new("script-kit");
    // A PATH with what the script needs up to there, and no rt.
    fs::create_dir(project.0.file("few")).unwrap();
    for name in ["dirname", "readlink", "find"] {
        std::os::unix::fs::symlink(
            format!("/usr/bin/{name}"),
            project.0.file(&format!("few/{name}")),
        )
        .unwrap();
    }
    let (said, _) = project.run(&["version"], &project.0.file("few"));
    assert_eq!(said.code, 4);
    assert!(
        said.err
            .contains("and rt, which makes it, is not on the PATH"),
        "{}",
        said.err
    );
    for args in [&["help"][..], &["--help"], &[]] {
        let (said, calls) = project.with(args);
        assert_eq!(
            (said.code, said.text(), calls.as_str()),
            (0, "the help\n", "")
        );
    }
}
