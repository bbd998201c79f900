/// Floats at which an operation changes its ways: zeros, subnormals, infinities, extremes, NaN
/// patterns, values around 1, and the speakers' coordinates.
pub const EDGES: [u32; 24] = [
    0x0000_0000,
    0x8000_0000,
    0x0000_0001,
    0x8000_0001,
    0x007f_ffff,
    0x807f_ffff,
    0x0080_0000,
    0x8080_0000,
    0x7f7f_ffff,
    0xff7f_ffff,
    0x7f80_0000,
    0xff80_0000,
    0x7fc0_0000,
    0xffc0_0000,
    0x7f80_0001,
    0xffff_ffff,
    0x3f7f_ffff,
    0x3f80_0000,
    0x3f80_0001,
    0xbf80_0000,
    0x3f00_0000,
    0x4000_0000,
    0x3f35_04f3,
    0xbef7_a627,
];

/// A seeded generator of inputs (splitmix64).
pub struct Generator(u64);

impl Generator {
    pub fn new(seed: u64) -> Self {
        Generator(seed)
    }

    pub fn bits(&mut self) -> u64 {
        self.0 = self.0.wrapping_add(0x9e37_79b9_7f4a_7c15);
        let z = (self.0 ^ self.0 >> 30).wrapping_mul(0xbf58_476d_1ce4_e5b9);
        let z = (z ^ z >> 27).wrapping_mul(0x94d0_49bb_1331_11eb);
        z ^ z >> 31
    }

    /// A number below `bound`, which is above 0.
    pub fn below(&mut self, bound: u64) -> u64 {
        self.bits() % bound
    }

    /// True one time in `of`.
    pub fn chance(&mut self, of: u64) -> bool {
        self.below(of) == 0
    }

    pub fn pick<T: Copy>(&mut self, choices: &[T]) -> T {
        choices[self.below(choices.len() as u64) as usize]
    }

    /// Absent one time in three.
    pub fn maybe<T>(&mut self, make: impl FnOnce(&mut Self) -> T) -> Option<T> {
        if self.chance(3) {
            None
        } else {
            Some(make(self))
        }
    }

    /// Any bit pattern, one time in four an edge.
    pub fn float(&mut self) -> f32 {
        let bits = if self.chance(4) {
            self.pick(&EDGES)
        } else {
            self.bits() as u32
        };
        f32::from_bits(bits)
    }

    /// A float from `low` to `high`, evenly spread.
    pub fn between(&mut self, low: f32, high: f32) -> f32 {
        let share = (self.bits() >> 40) as f32 / (1u64 << 24) as f32;
        low + (high - low) * share
    }

    /// Mostly from `low` to `high`, one time in eight any float.
    pub fn near(&mut self, low: f32, high: f32) -> f32 {
        if self.chance(8) {
            self.float()
        } else {
            self.between(low, high)
        }
    }
}
