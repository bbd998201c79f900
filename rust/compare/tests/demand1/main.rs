//! Demand 1: arguments of any kind are answered, each refusal by its number, and a refused call
//! leaves the state block and the output as they were; so with R-5's making calls and R-6's tables,
//! with R-9's 24-bit samples and with R-10's planes, and their destination, with R-11's holds, and with
//! R-13's search.

mod ahead;
mod any_bytes;
mod blocks;
mod document;
mod find;
mod holds;
mod making;
mod pcm24;
mod planes;
mod tables;
