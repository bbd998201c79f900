// SPDX-License-Identifier: Apache-2.0
//! The grid over which a place is found (document 02, R-13), and what is heard at its places.
use crate::pictures::Placed;
use crate::trouble::Trouble;
use voqlisna::{Panned, Speaker};

/// Places from wall to wall, and from the ears to the ceiling.
pub const ACROSS: usize = 65;
pub const UP: usize = 17;

/// "x and z from -1 to 1 in steps of 1/32"
fn across(i: usize) -> f32 {
    i as f32 / 32.0 - 1.0
}

/// All places: "first by y, then z, then x, each rising".
pub fn places() -> impl Iterator<Item = Panned> {
    (0..UP * ACROSS * ACROSS).map(|n| Panned {
        x: across(n % ACROSS),
        y: (n / ACROSS / ACROSS) as f32 / 16.0,
        z: across(n / ACROSS % ACROSS),
    })
}

/// Bit c for channel c.
pub fn mask(speakers: impl IntoIterator<Item = Speaker>) -> u16 {
    let bits = speakers.into_iter().map(|s| 1 << s.channel());
    bits.fold(0, |mask, bit: u16| mask | bit)
}

/// The speakers of a mask, by channel.
pub fn speakers(mask: u16) -> Vec<Speaker> {
    let sounds = |s: &Speaker| mask & 1 << s.channel() != 0;
    Speaker::ALL.into_iter().filter(sounds).collect()
}

/// "FL FC"
pub fn names(speakers: &[Speaker]) -> String {
    let names: Vec<&str> = speakers.iter().map(|s| s.short_name()).collect();
    names.join(" ")
}

/// Each place with the speakers that sound of an object of gain 1 and size 0 there, heard through the library.
pub fn heard(placed: &mut Placed) -> Result<Vec<(Panned, u16)>, Trouble> {
    let sounding = |place: Panned| {
        let levels = placed.at(place.room())?;
        let sounds = |s: &Speaker| levels[s.channel()] != 0.0;
        Ok((place, mask(Speaker::ALL.into_iter().filter(sounds))))
    };
    places().map(sounding).collect()
}

#[cfg(test)]
mod tests {
    use super::*;

    #[test]
    fn the_grid_is_the_documents() {
        let all: Vec<Panned> = places().collect();
        assert_eq!(all.len(), 71_825);
        let key = |p: &Panned| (p.y, p.z, p.x);
        assert!(all.windows(2).all(|two| key(&two[0]) < key(&two[1])));
        assert_eq!(key(&all[0]), (0.0, -1.0, -1.0));
        assert_eq!(key(&all[1]), (0.0, -1.0, -0.96875));
        assert_eq!(key(&all[71_824]), (1.0, 1.0, 1.0));
        for p in &all {
            let Panned { x, y, z } = p.room().panned();
            assert_eq!(
                [x, y, z].map(f32::to_bits),
                [p.x, p.y, p.z].map(f32::to_bits)
            );
        }
    }

    #[test]
    fn masks_are_speakers() {
        assert_eq!(mask([Speaker::TopRearRight, Speaker::FrontLeft]), 0x801);
        assert_eq!(speakers(0x801), [Speaker::FrontLeft, Speaker::TopRearRight]);
        assert_eq!(names(&speakers(0x00f)), "FL FR FC LFE");
    }
}
