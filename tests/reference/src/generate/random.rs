//! A small seeded source of numbers (splitmix64).

/// The source; equal seeds give equal numbers.
#[derive(Clone, Debug)]
pub struct Random {
    state: u64,
}

impl Random {
    pub fn new(seed: u64) -> Self {
        Random { state: seed }
    }

    /// Any 64 bits.
    pub fn bits(&mut self) -> u64 {
        self.state = self.state.wrapping_add(0x9E37_79B9_7F4A_7C15);
        let mut mixed = self.state;
        mixed = (mixed ^ (mixed >> 30)).wrapping_mul(0xBF58_476D_1CE4_E5B9);
        mixed = (mixed ^ (mixed >> 27)).wrapping_mul(0x94D0_49BB_1331_11EB);
        mixed ^ (mixed >> 31)
    }

    /// A number from 0 up to but not including the limit, which is above 0.
    pub fn below(&mut self, limit: u64) -> u64 {
        self.bits() % limit
    }

    /// A number from the least to the greatest, both included.
    pub fn between(&mut self, least: i64, greatest: i64) -> i64 {
        let width = (i128::from(greatest) - i128::from(least) + 1) as u128;
        (i128::from(least) + (u128::from(self.bits()) % width) as i128) as i64
    }

    /// True once in so many times.
    pub fn once_in(&mut self, times: u64) -> bool {
        self.below(times) == 0
    }

    /// One of some things.
    pub fn pick<T: Copy>(&mut self, things: &[T]) -> T {
        things[self.below(things.len() as u64) as usize]
    }

    /// A 32-bit number, often at one of the ends of its range.
    pub fn word(&mut self) -> u32 {
        match self.below(6) {
            0 => 0,
            1 => u32::MAX,
            2 => self.below(4) as u32,
            3 => u32::MAX - self.below(4) as u32,
            4 => self.below(2_000) as u32,
            _ => self.bits() as u32,
        }
    }

    /// A signed 32-bit number, often at one of the ends of its range or near 0.
    pub fn signed_word(&mut self) -> i32 {
        match self.below(5) {
            0 => i32::MIN,
            1 => i32::MAX,
            2 => self.between(-3, 3) as i32,
            3 => self.between(-2_000, 2_000) as i32,
            _ => self.bits() as i32,
        }
    }
}
