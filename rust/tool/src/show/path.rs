// SPDX-License-Identifier: Apache-2.0
//! Where the three objects are, as records have it: x to the right, y to the rear, z up.
use super::tone::{cosine, sine, smooth};
use voqlisna::Room;

/// At a time in seconds, of a show of `length` seconds.
pub fn place(object: usize, time: f64, length: f64) -> Room {
    let part = time / length;
    // Up in the show's first half, down in its second.
    let rise = smooth(1.0 - (2.0 * part - 1.0).abs());
    let (x, y, z) = match object {
        // Clockwise around the floor's edge from the screen, in 8 s, and up.
        0 => around(time / 8.0, 0.5, rise),
        // The other way in 10 s, from the ceiling down and up again.
        1 => around(0.5 - time / 10.0, 0.5, 1.0 - rise),
        // Slow, close to the middle: from the screen overhead to the rear, and back.
        _ => {
            let swing = cosine(time / 20.0);
            let near = around(time / 5.0, 0.08, 0.0);
            (near.0, 0.5 - 0.42 * swing, 1.0 - swing * swing)
        }
    };
    Room {
        x: x as f32,
        y: y as f32,
        z: z as f32,
    }
}

/// On a circle about the middle, `turns` from the screen on, clockwise as seen from above.
fn around(turns: f64, radius: f64, height: f64) -> (f64, f64, f64) {
    (
        0.5 + radius * sine(turns),
        0.5 - radius * cosine(turns),
        height,
    )
}
