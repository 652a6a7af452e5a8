//! Numbers that look random and can be had again from their seed.

/// A generator (splitmix64).
pub struct Random {
    state: u64,
}

impl Random {
    /// A generator of its own for a seed and two further numbers.
    pub fn new(seed: u64, round: u64, kind: u64) -> Random {
        let mut random = Random { state: seed };
        for number in [round, kind] {
            random.state = random.number() ^ number;
        }
        random
    }

    /// The next number.
    pub fn number(&mut self) -> u64 {
        self.state = self.state.wrapping_add(0x9E37_79B9_7F4A_7C15);
        let mut mixed = self.state;
        mixed = (mixed ^ (mixed >> 30)).wrapping_mul(0xBF58_476D_1CE4_E5B9);
        mixed = (mixed ^ (mixed >> 27)).wrapping_mul(0x94D0_49BB_1331_11EB);
        mixed ^ (mixed >> 31)
    }

    /// A number below a limit; 0 where the limit is 0.
    pub fn below(&mut self, limit: usize) -> usize {
        ((self.number() >> 11) % limit.max(1) as u64) as usize
    }

    /// True once in so many.
    pub fn once_in(&mut self, many: usize) -> bool {
        self.below(many) == 0
    }

    /// One of some values.
    pub fn one_of<T: Copy>(&mut self, values: &[T]) -> T {
        values[self.below(values.len())]
    }

    /// A number near another one, or any.
    pub fn near(&mut self, number: usize) -> u16 {
        let moved = match self.below(4) {
            0 => self.number() as usize,
            _ => (number + self.below(11)).saturating_sub(5),
        };
        (moved & 0xFFFF) as u16
    }

    /// A byte.
    pub fn byte(&mut self) -> u8 {
        (self.number() >> 24) as u8
    }

    /// Some bytes.
    pub fn bytes(&mut self, length: usize) -> Vec<u8> {
        (0..length).map(|_| self.byte()).collect()
    }
}
