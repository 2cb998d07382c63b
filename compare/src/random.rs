//! Numbers at random, the same for the same seed: splitmix64.

pub struct Random {
    state: u64,
}

impl Random {
    pub fn new(seed: u64) -> Random {
        Random { state: seed }
    }

    pub fn bits(&mut self) -> u64 {
        self.state = self.state.wrapping_add(0x9E37_79B9_7F4A_7C15);
        let mut z = self.state;
        z = (z ^ (z >> 30)).wrapping_mul(0xBF58_476D_1CE4_E5B9);
        z = (z ^ (z >> 27)).wrapping_mul(0x94D0_49BB_1331_11EB);
        z ^ (z >> 31)
    }

    // From 0 to one less than `count`.
    pub fn below(&mut self, count: u64) -> u64 {
        self.bits() % count
    }

    pub fn between(&mut self, least: u64, most: u64) -> u64 {
        least + self.below(most - least + 1)
    }

    pub fn pick<T: Copy>(&mut self, from: &[T]) -> T {
        from[self.below(from.len() as u64) as usize]
    }

    pub fn byte(&mut self) -> u8 {
        self.bits() as u8
    }

    // A number of as many binary digits as chance has it, up to `most`.
    pub fn any_length(&mut self, most: u64) -> u64 {
        match self.between(0, most) {
            0 => 0,
            digits => self.bits() >> (64 - digits),
        }
    }
}
