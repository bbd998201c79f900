// SPDX-License-Identifier: Apache-2.0
//! Other programs: run, and read.

use std::path::{Path, PathBuf};
use std::process::{Command, Output};

/// The cargo that runs these tests.
pub fn cargo() -> Command {
    Command::new(env!("CARGO"))
}

/// The folder of `libhall.a`, as build.rs of voqlisna-sys finds it.
pub fn library_folder() -> PathBuf {
    let own = Path::new(env!("CARGO_MANIFEST_DIR")).join("../../target/staticlib");
    std::env::var_os("VOQLISNA_LIB_DIR").map_or(own, PathBuf::from)
}

pub fn run(command: &mut Command) -> Output {
    command
        .output()
        .unwrap_or_else(|error| panic!("{command:?}: {error}"))
}

/// What a program that succeeds prints.
pub fn output(command: &mut Command) -> String {
    let Output {
        status,
        stdout,
        stderr,
    } = run(command);
    assert!(
        status.success(),
        "{command:?}: {status}\n{}",
        String::from_utf8_lossy(&stderr)
    );
    String::from_utf8(stdout).unwrap()
}

/// Is the program installed?
pub fn is_installed(name: &str) -> bool {
    Command::new(name)
        .arg("--version")
        .output()
        .is_ok_and(|output| output.status.success())
}
