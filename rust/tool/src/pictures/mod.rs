// SPDX-License-Identifier: Apache-2.0
//! Pictures, each heard from the library itself.
mod bass;
mod decay;
mod heard;
mod hold;
mod hung;
mod levels;
mod limiter;
mod map;
mod names;
mod panels;
mod rise;
mod spot;

pub use bass::bass;
pub use decay::decay;
pub use heard::Placed;
pub use hold::hold;
pub use levels::levels;
pub use limiter::limiter;
pub use map::map;
pub use spot::spot;

use crate::svg::Area;
use voqlisna::{BuildError, Refusal, ShapeError};

/// Of the pictures with one frame.
const AREA: Area = Area {
    x: 70.0,
    y: 48.0,
    width: 760.0,
    height: 370.0,
};
/// Rates that are compared, and how their curves are drawn.
const CURVES: [(u32, &str); 3] = [
    (8_000, "stroke=\"#b7791f\" stroke-width=\"2\""),
    (48_000, "stroke=\"#1f4e9c\" stroke-width=\"3.5\""),
    (
        192_000,
        "stroke=\"#7fd6c8\" stroke-width=\"1.5\" stroke-dasharray=\"5 4\"",
    ),
];

/// What the library says of a frame that a picture pushes. None of these comes; the pictures' frames are good.
#[derive(Debug)]
pub struct Unheard(String);

macro_rules! unheard {
    ($($kind:ty),*) => {
        $(impl From<$kind> for Unheard {
            fn from(e: $kind) -> Self {
                Self(e.to_string())
            }
        })*
    };
}
unheard!(BuildError, Refusal, ShapeError);

impl From<Unheard> for crate::trouble::Trouble {
    fn from(e: Unheard) -> Self {
        Self::Wrong(format!(
            "the library does not take a picture's frame: {}",
            e.0
        ))
    }
}
