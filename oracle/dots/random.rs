//! Random numbers: the same seed and index give the same ones.

/// Splitmix64.
pub struct Random {
    state: u64,
}

impl Random {
    /// A stream of its own for each index.
    pub fn new(seed: u64, index: u64) -> Random {
        let mut random = Random { state: seed };
        random.state = random.number() ^ index;
        random.state = random.number();
        random
    }

    pub fn number(&mut self) -> u64 {
        self.state = self.state.wrapping_add(0x9e37_79b9_7f4a_7c15);
        let mut z = self.state;
        z = (z ^ (z >> 30)).wrapping_mul(0xbf58_476d_1ce4_e5b9);
        z = (z ^ (z >> 27)).wrapping_mul(0x94d0_49bb_1331_11eb);
        z ^ (z >> 31)
    }

    /// Both ends included.
    pub fn between(&mut self, least: u32, most: u32) -> u32 {
        least + (self.number() % (u64::from(most - least) + 1)) as u32
    }

    /// Below n, which is not 0.
    pub fn index(&mut self, n: usize) -> usize {
        (self.number() % n as u64) as usize
    }

    pub fn percent(&mut self, times: u32) -> bool {
        self.between(0, 99) < times
    }

    pub fn pick<T: Copy>(&mut self, from: &[T]) -> T {
        from[self.index(from.len())]
    }
}
