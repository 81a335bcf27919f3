//! A small seeded generator (splitmix64).

pub struct Random {
    state: u64,
}

impl Random {
    /// A generator of its own for each kind of case and each part of it.
    pub fn new(seed: u64, kind: &str, part: usize) -> Random {
        let mut random = Random { state: seed.wrapping_mul(0x2545_F491_4F6C_DD1D) ^ part as u64 };
        for byte in kind.bytes() {
            random.state ^= u64::from(byte) << 32;
            random.next();
        }
        random
    }

    pub fn next(&mut self) -> u64 {
        self.state = self.state.wrapping_add(0x9E37_79B9_7F4A_7C15);
        let mut z = self.state;
        z = (z ^ (z >> 30)).wrapping_mul(0xBF58_476D_1CE4_E5B9);
        z = (z ^ (z >> 27)).wrapping_mul(0x94D0_49BB_1331_11EB);
        z ^ (z >> 31)
    }

    /// From 0 up to but not including the bound, which is not 0.
    pub fn below(&mut self, bound: usize) -> usize {
        (self.next() % bound as u64) as usize
    }

    /// From least to most, both possible.
    pub fn between(&mut self, least: usize, most: usize) -> usize {
        least + self.below(most - least + 1)
    }

    pub fn byte(&mut self) -> u8 {
        self.next() as u8
    }

    pub fn word(&mut self) -> u32 {
        self.next() as u32
    }

    /// True once in so many times.
    pub fn once_in(&mut self, times: usize) -> bool {
        self.below(times) == 0
    }

    pub fn pick<T: Copy>(&mut self, list: &[T]) -> T {
        list[self.below(list.len())]
    }
}
