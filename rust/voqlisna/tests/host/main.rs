// SPDX-License-Identifier: Apache-2.0
//! The crate held against the entries under it, and the entries' other hosts: C, and a cargo
//! project elsewhere.

mod ahead;
mod c;
mod conceal;
mod draw;
mod explain;
mod find;
mod floats;
mod hold;
mod outside;
mod panics;
mod parser;
mod pcm24;
mod planes;
mod raw;
mod runs;
mod sentences;
mod shapes;
mod snapshot;
mod stack;
mod steady;
mod table;
mod tools;
mod version;
mod writer;
