//! Numbers that look random and are always the same for the same seed.

/// The generator known as splitmix64: one 64-bit state, one addition and three mixings for each number.
pub struct Numbers {
    state: u64,
}

impl Numbers {
    pub fn new(seed: u64) -> Numbers {
        Numbers { state: seed }
    }

    fn next(&mut self) -> u64 {
        self.state = self.state.wrapping_add(0x9e37_79b9_7f4a_7c15);
        let mut mixed = self.state;
        mixed = (mixed ^ (mixed >> 30)).wrapping_mul(0xbf58_476d_1ce4_e5b9);
        mixed = (mixed ^ (mixed >> 27)).wrapping_mul(0x94d0_49bb_1331_11eb);
        mixed ^ (mixed >> 31)
    }

    /// A number from 0 up to, not including, the limit, which is at least 1.
    pub fn below(&mut self, limit: usize) -> usize {
        (self.next() % limit as u64) as usize
    }

    /// A number from low to high, both included.
    pub fn between(&mut self, low: usize, high: usize) -> usize {
        low + self.below(high - low + 1)
    }

    /// True once in so many times.
    pub fn one_in(&mut self, times: usize) -> bool {
        self.below(times) == 0
    }

    /// One of the items, of which there is at least one.
    pub fn pick<T: Copy>(&mut self, items: &[T]) -> T {
        items[self.below(items.len())]
    }

    /// The place of one of these weights, each taken as often as it is heavy.
    pub fn weighted(&mut self, weights: &[usize]) -> usize {
        let mut rest = self.below(weights.iter().sum());
        let mut place = 0;
        while rest >= weights[place] {
            rest -= weights[place];
            place += 1;
        }
        place
    }

    pub fn byte(&mut self) -> u8 {
        self.below(256) as u8
    }

    pub fn word(&mut self) -> u16 {
        self.below(65_536) as u16
    }

    /// A word from low to high, both included.
    pub fn word_between(&mut self, low: u16, high: u16) -> u16 {
        self.between(usize::from(low), usize::from(high)) as u16
    }
}
