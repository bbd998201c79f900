//! Demand 2: what is given out is the Rust's, bit for bit, all NaNs being equal; from a lifted bed
//! channel, an object's send, or a hold to the next reset that of the Rust with R-1's, R-3's and R-11's
//! rules.
//! R-2's meters are those of its blocks, and R-4's places hold the samples that wait in it. In R-5's
//! smaller layouts, and in halls with tables of their own, it is that of the Rust's own loops over
//! the channels and places that are there. R-9's 24-bit samples and R-10's planes, which the Rust has not,
//! are what the document says, and R-13's searches find what is first on the grid.

mod ahead;
mod appended;
mod edges;
mod entries;
mod find;
mod holds;
mod layouts;
mod lifted;
mod longest;
mod meters;
mod pcm24;
mod planes;
mod program;
mod sends;
mod stream_end;
mod tables;
