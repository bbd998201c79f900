// SPDX-License-Identifier: Apache-2.0
//! `voqlisna`: the hall renderer at a command line.
mod archive;
mod arguments;
mod bits;
mod commands;
mod cues;
mod files;
mod grid;
mod hall;
mod layers;
mod met;
mod numbers;
mod pictures;
mod programme;
mod setup;
mod show;
mod svg;
mod table;
mod text;
mod trouble;
mod wave;
mod wave_reader;

use std::io::Write;
use std::process::ExitCode;

fn main() -> ExitCode {
    match arguments::read().and_then(commands::run) {
        Ok(()) => ExitCode::SUCCESS,
        Err(trouble) => {
            if let Some(message) = trouble.message() {
                let _ = writeln!(std::io::stderr(), "voqlisna: {message}");
            }
            ExitCode::from(trouble.code())
        }
    }
}
