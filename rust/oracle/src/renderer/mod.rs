//! The sources at the module paths that they name each other by. Code of ours that reads their
//! private items stands in modules below `render`. `sources!` says which copy they are.

#[cfg(not(no_sources))]
#[allow(dead_code)]
mod types {
    sources!("types.rs");
}

#[cfg(not(no_sources))]
#[allow(dead_code)]
mod render_input {
    sources!("render_input.rs");
}

#[allow(dead_code)]
mod render {
    #[cfg(not(no_sources))]
    sources!("render.rs");

    #[cfg(not(no_sources))]
    mod convert;
    pub mod leaf;
    #[cfg(not(no_sources))]
    mod read;
    pub mod run;
}

pub use render::leaf;
pub use render::run::{Input, Oracle};
