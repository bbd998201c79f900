// SPDX-License-Identifier: Apache-2.0
//! A hall's speakers as objects are panned over them: in layers of equal height, and in each in rows from side to side.
use crate::setup::Setup;
use crate::text::float;
use std::cmp::Ordering;
use std::fmt;
use voqlisna::{Panned, Speaker};

/// Speakers of equal height.
pub struct Layer {
    pub height: f32,
    /// From the screen to the rear; in each from left to right.
    pub rows: Vec<Vec<Speaker>>,
}

impl Layer {
    pub fn speakers(&self) -> impl Iterator<Item = Speaker> {
        self.rows.iter().flatten().copied()
    }
}

/// "y 0: FL FC FR | SL SR | BL BR"
impl fmt::Display for Layer {
    fn fmt(&self, f: &mut fmt::Formatter<'_>) -> fmt::Result {
        write!(f, "y {}:", float(self.height))?;
        for (k, row) in self.rows.iter().enumerate() {
            f.write_str(if k == 0 { "" } else { " |" })?;
            for speaker in row {
                write!(f, " {speaker}")?;
            }
        }
        Ok(())
    }
}

/// From below.
pub fn layers(setup: &Setup) -> Vec<Layer> {
    let mut all = setup.speakers();
    all.sort_by(|(_, a), (_, b)| order(a, b));
    let layers = all.chunk_by(|(_, a), (_, b)| a.y == b.y);
    layers.map(layer).collect()
}

/// The coordinates are finite.
fn order(a: &Panned, b: &Panned) -> Ordering {
    let key = |p: &Panned| [p.y, -p.z, p.x];
    key(a).partial_cmp(&key(b)).unwrap_or(Ordering::Equal)
}

fn layer(speakers: &[(Speaker, Panned)]) -> Layer {
    let rows = speakers.chunk_by(|(_, a), (_, b)| a.z == b.z);
    let names = |row: &[(Speaker, Panned)]| row.iter().map(|(s, _)| *s).collect();
    Layer {
        height: speakers.first().map_or(0.0, |(_, place)| place.y),
        rows: rows.map(names).collect(),
    }
}

#[cfg(test)]
mod tests {
    use super::*;
    use voqlisna::{HallTable, Layout};

    fn told(setup: &Setup) -> Vec<String> {
        layers(setup).iter().map(Layer::to_string).collect()
    }

    #[test]
    fn the_layouts() {
        let floor = ["y 0: FL FC FR | SL SR | BL BR", "y 0: FL FC FR | SL SR"];
        let above = "y 1: TFL TFR | TBL TBR";
        for (layout, wanted) in [
            (Layout::Hall714, vec![floor[0], above]),
            (Layout::Hall514, vec![floor[1], above]),
            (Layout::Hall710, vec![floor[0]]),
            (Layout::Hall510, vec![floor[1]]),
        ] {
            let table = None;
            assert_eq!(told(&Setup { layout, table }), wanted);
        }
    }

    #[test]
    fn a_zero_is_a_zero_and_all_else_is_apart() {
        let mut places = *HallTable::BUILT_IN.places();
        places[Speaker::Center.channel()].y = -0.0;
        places[Speaker::FrontRight.channel()].z = 1.0f32.next_down();
        places[Speaker::SurroundLeft.channel()].y = -f32::MIN_POSITIVE;
        let table = HallTable::new(places).ok();
        let wanted = [
            "y -1.1754944e-38: SL",
            "y 0: FL FC | FR | SR | BL BR",
            "y 1: TFL TFR | TBL TBR",
        ];
        let layout = Layout::Hall714;
        assert_eq!(told(&Setup { layout, table }), wanted);
    }
}
