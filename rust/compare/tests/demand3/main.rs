//! Demand 3: claims about whole lists of calls.

mod erased;
mod forgets;
mod returns;
mod rows;
mod streams;
