//! A small generator of random numbers (splitmix64).

/// A generator, deterministic from its seed.
#[derive(Clone, Debug)]
pub struct Random {
    seed: u64,
    state: u64,
}

impl Random {
    /// A generator from a seed.
    pub fn new(seed: u64) -> Random {
        Random { seed, state: seed }
    }

    /// The seed it was made from, to be printed.
    pub fn seed(&self) -> u64 {
        self.seed
    }

    /// The next 64 bits.
    pub fn bits(&mut self) -> u64 {
        self.state = self.state.wrapping_add(0x9E37_79B9_7F4A_7C15);
        let mut z = self.state;
        z = (z ^ (z >> 30)).wrapping_mul(0xBF58_476D_1CE4_E5B9);
        z = (z ^ (z >> 27)).wrapping_mul(0x94D0_49BB_1331_11EB);
        z ^ (z >> 31)
    }

    /// A number below `n`, which is at least 1. (The bias of the remainder
    /// does not matter for the small numbers used here.)
    pub fn below(&mut self, n: u64) -> u64 {
        self.bits() % n
    }

    /// A number from `low` to `high`, both included.
    pub fn from_to(&mut self, low: u64, high: u64) -> u64 {
        low + self.below(high - low + 1)
    }

    /// A byte below `n`, which is at least 1.
    pub fn byte_below(&mut self, n: u8) -> u8 {
        self.below(u64::from(n)) as u8
    }

    /// A byte from `low` to `high`, both included.
    pub fn byte_from_to(&mut self, low: u8, high: u8) -> u8 {
        self.from_to(u64::from(low), u64::from(high)) as u8
    }

    /// Any byte.
    pub fn byte(&mut self) -> u8 {
        self.bits() as u8
    }

    /// True in `percent` of 100 cases.
    pub fn chance(&mut self, percent: u64) -> bool {
        self.below(100) < percent
    }

    /// One of these.
    pub fn pick<T: Copy>(&mut self, list: &[T]) -> T {
        list[self.below(list.len() as u64) as usize]
    }
}
