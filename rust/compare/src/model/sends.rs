//! Sends to the bass feed (document 02, R-3), which the unchanged Rust has not.

use oracle::Slot;
use oracle::state::Metadata;

/// What is fed is sample × (gain × send): nothing where the product is a zero. From a block that a
/// host hands in it may be NaN.
fn is_fed(gain: f32, send: f32) -> bool {
    gain * send != 0.0
}

/// In one of these slots an object is sent to the bass feed.
pub fn any(slots: &[Slot]) -> bool {
    let mut sources = slots.iter().flat_map(|slot| &slot.sources);
    sources.any(|s| s.static_channel.is_none() && is_fed(s.gain, s.send))
}

/// The same of the objects as they are between two calls.
pub fn sounds(state: &Metadata) -> bool {
    let mut sources = state.dynamic_sources.iter();
    sources.any(|source| is_fed(source.gain, source.send))
}

/// The state with the sends of the other one.
pub fn with_sends(mut to: Metadata, from: &Metadata) -> Metadata {
    for (to, from) in to.dynamic_sources.iter_mut().zip(&from.dynamic_sources) {
        to.send = from.send;
    }
    for (to, from) in to.elements.iter_mut().zip(&from.elements) {
        let infos = to.info_blocks.iter_mut().flatten();
        for (to, from) in infos.zip(from.info_blocks.iter().flatten()) {
            to.send = from.send;
        }
    }
    to
}
