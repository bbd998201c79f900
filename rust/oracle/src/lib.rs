//! The oracle: `Renderer714` compiled from its own sources, with the nearest value where it calls
//! the machine's libm, and references in exact arithmetic. `amended` is the same sources with the
//! rules of document 02 that the Rust has not (build.rs): R-1's lifted channels, R-3's sends, the
//! halls of, R-11's holds.
//!
//! Where the sources are not at hand (cfg `no_sources`, see build.rs) everything here compiles and
//! only `exact` runs; tests that need the sources carry
//! `#[cfg_attr(no_sources, ignore = "Rust sources not at hand")]`.

/// Functions over the sources: each has its body where the sources are at hand, and stops
/// elsewhere. None is inlined, so that a measured call costs what a call of the Rattle code does.
macro_rules! over_sources {
    ($($(#[$meta:meta])* pub fn $name:ident($($arg:tt)*) $(-> $ret:ty)? $body:block)*) => {$(
        $(#[$meta])*
        #[inline(never)]
        #[cfg_attr(no_sources, allow(unused_variables))]
        pub fn $name($($arg)*) $(-> $ret)? {
            #[cfg(not(no_sources))]
            $body
            #[cfg(no_sources)]
            panic!("Rust sources not at hand")
        }
    )*};
}

mod answer;
pub mod exact;
pub mod frame;
mod hall;
pub mod reading;
pub mod state;

/// A file of the sources, unchanged but for the nearest values.
#[cfg(not(no_sources))]
macro_rules! sources {
    ($name:literal) => {
        include!(concat!(env!("OUT_DIR"), "/unchanged/", $name));
    };
}
/// A value of the sources; these have no send.
#[cfg(not(no_sources))]
macro_rules! with_send {
    ($send:expr, $name:ident { $($fields:tt)* }) => {
        $name { $($fields)* }
    };
}
/// The send of a value of the sources.
#[cfg(not(no_sources))]
macro_rules! send_of {
    ($value:expr) => {
        0.0
    };
}
/// A source of these; it has no marks either.
#[cfg(not(no_sources))]
macro_rules! with_send_and_marks {
    ($source:expr, $name:ident { $($fields:tt)* }) => {
        $name { $($fields)* }
    };
}
/// Whether a hold of a source is wanted, and held.
#[cfg(not(no_sources))]
macro_rules! marks_of {
    ($source:expr) => {
        [false; 2]
    };
}
/// A value of the sources; these have no hall.
#[cfg(not(no_sources))]
macro_rules! with_hall {
    ($hall:expr, $name:ident { $($fields:tt)* }) => {
        $name { $($fields)* }
    };
}
/// A call of the sources, in their one hall.
#[cfg(not(no_sources))]
macro_rules! in_built_in_hall {
    ($name:ident($($args:tt)*)) => {
        super::$name($($args)*)
    };
}
/// Items over what only the amended sources have.
macro_rules! amended_only {
    ($($items:tt)*) => {};
}
mod renderer;

/// The same with the rules of document 02.
#[cfg(not(no_sources))]
macro_rules! sources {
    ($name:literal) => {
        include!(concat!(env!("OUT_DIR"), "/amended/", $name));
    };
}
/// A value of the sources with its send.
#[cfg(not(no_sources))]
macro_rules! with_send {
    ($send:expr, $name:ident { $($fields:tt)* }) => {
        $name { send: $send, $($fields)* }
    };
}
/// The send of a value of the sources.
#[cfg(not(no_sources))]
macro_rules! send_of {
    ($value:expr) => {
        $value.send
    };
}
/// A source with its send and its marks.
#[cfg(not(no_sources))]
macro_rules! with_send_and_marks {
    ($source:expr, $name:ident { $($fields:tt)* }) => {
        $name {
            send: $source.send,
            wanted: $source.wanted,
            held: $source.held,
            $($fields)*
        }
    };
}
/// Whether a hold of a source is wanted, and held.
#[cfg(not(no_sources))]
macro_rules! marks_of {
    ($source:expr) => {
        [$source.wanted, $source.held]
    };
}
/// A value of the sources with its hall.
#[cfg(not(no_sources))]
macro_rules! with_hall {
    ($hall:expr, $name:ident { $($fields:tt)* }) => {
        $name { hall: $hall, $($fields)* }
    };
}
/// A call of the sources in the hall that they have built in.
#[cfg(not(no_sources))]
macro_rules! in_built_in_hall {
    ($name:ident($($args:tt)*)) => {
        super::$name(&crate::Hall::built_in(), $($args)*)
    };
}
/// Items over what only the amended sources have.
macro_rules! amended_only {
    ($($items:tt)*) => {
        $($items)*
    };
}
#[expect(clippy::duplicate_mod)]
#[path = "renderer/mod.rs"]
pub mod amended;

pub use answer::{Pushed, Refusal, Slot, SlotSource};
pub use hall::Hall;
pub use renderer::{Input, Oracle, leaf};

/// A position or direction: x, y, z.
pub type Vector = [f32; 3];
