//! Random numbers that a seed determines (splitmix64), and the edge values that inputs lean to.

pub struct Random(u64);

/// Extents at which a type or a rule ends.
pub const EXTENTS: [u64; 14] = [
    0, 1, 2, 3, (1 << 31) - 1, 1 << 31, 1 << 32, 1 << 62, (1 << 63) - 1, 1 << 63, (1 << 63) + 1, (1 << 63) + 2, u64::MAX - 1, u64::MAX,
];

/// Strides and offsets at which a type or a rule ends.
pub const STEPS: [i64; 18] = [
    0, 1, -1, 2, -2, 1 << 31, -(1 << 31), 1 << 61, 1 << 62, -(1 << 62), (1 << 62) - 1, 1 - (1 << 62), (1 << 62) + 1,
    i64::MAX, i64::MAX - 1, i64::MIN, i64::MIN + 1, i64::MIN + 2,
];

impl Random {
    pub fn new(seed: u64) -> Random {
        Random(seed)
    }

    pub fn word(&mut self) -> u64 {
        self.0 = self.0.wrapping_add(0x9e37_79b9_7f4a_7c15);
        let mut z = self.0;
        z = (z ^ (z >> 30)).wrapping_mul(0xbf58_476d_1ce4_e5b9);
        z = (z ^ (z >> 27)).wrapping_mul(0x94d0_49bb_1331_11eb);
        z ^ (z >> 31)
    }

    /// Below `n`, which is above 0.
    pub fn below(&mut self, n: u64) -> u64 {
        ((self.word() as u128 * n as u128) >> 64) as u64
    }

    /// From `low` to `high`, both included.
    pub fn between(&mut self, low: u64, high: u64) -> u64 {
        low + self.below(high - low + 1)
    }

    /// Once in `n`.
    pub fn once_in(&mut self, n: u64) -> bool {
        self.below(n) == 0
    }

    pub fn pick<T: Copy>(&mut self, from: &[T]) -> T {
        from[self.below(from.len() as u64) as usize]
    }

    /// A number of up to `bits` bits, each width as likely as another.
    pub fn of_width(&mut self, bits: u64) -> u64 {
        let width = self.between(1, bits);
        self.word() >> (64 - width)
    }

    pub fn extent(&mut self) -> u64 {
        match self.below(4) {
            0 => self.pick(&EXTENTS),
            1 => self.of_width(64),
            _ => self.below(6),
        }
    }

    pub fn step(&mut self) -> i64 {
        match self.below(4) {
            0 => self.pick(&STEPS),
            1 => self.of_width(64) as i64,
            _ => self.below(17) as i64 - 8,
        }
    }

    /// A rank or the length of a list: up to 16, mostly short.
    pub fn rank(&mut self) -> usize {
        (if self.below(4) < 3 { self.below(6) } else { self.below(17) }) as usize
    }

    /// The length of a list that need not fit: up to 20.
    pub fn length(&mut self) -> usize {
        (if self.once_in(2) { self.below(21) } else { self.between(15, 18) }) as usize
    }
}
