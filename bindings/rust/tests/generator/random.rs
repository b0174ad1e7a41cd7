//! SplitMix64: small, and any seed is a good one.

#[derive(Clone)]
pub struct Random {
    state: u64,
}

impl Random {
    pub fn new(seed: u64) -> Random {
        Random { state: seed }
    }

    pub fn word(&mut self) -> u64 {
        self.state = self.state.wrapping_add(0x9e37_79b9_7f4a_7c15);
        let mut word = self.state;
        word = (word ^ (word >> 30)).wrapping_mul(0xbf58_476d_1ce4_e5b9);
        word = (word ^ (word >> 27)).wrapping_mul(0x94d0_49bb_1331_11eb);
        word ^ (word >> 31)
    }

    /// Under `count`, which is not 0.
    pub fn below(&mut self, count: usize) -> usize {
        (self.word() % count as u64) as usize
    }

    pub fn between(&mut self, low: usize, high: usize) -> usize {
        low + self.below(high - low + 1)
    }

    /// True once in `count` times.
    pub fn once_in(&mut self, count: usize) -> bool {
        self.below(count) == 0
    }

    pub fn flip(&mut self) -> bool {
        self.once_in(2)
    }

    pub fn pick<T: Clone>(&mut self, choices: &[T]) -> T {
        choices[self.below(choices.len())].clone()
    }

    pub fn bytes(&mut self, count: usize) -> Vec<u8> {
        (0..count).map(|_| self.word() as u8).collect()
    }

    /// A number to `top`, often at an edge: of a size in octets or bits, of the range, or small.
    pub fn number(&mut self, top: u64) -> u64 {
        let power = 1u64 << self.below(64);
        let number = match self.below(8) {
            0 => 0,
            1 => top,
            2 => power,
            3 => power - 1,
            4 => power.wrapping_add(self.word() & 3),
            5 => self.word(),
            6 => self.pick(&[127, 128, 255, 256, 32767, 32768, 65535, 65536, u64::from(u32::MAX)]),
            _ => self.word() & 15,
        };
        if number <= top {
            number
        } else {
            self.word() & top
        }
    }

    /// `number` or a number beside it.
    pub fn beside(&mut self, number: u64) -> u64 {
        match self.below(4) {
            0 => number.wrapping_sub(1),
            1 => number.wrapping_add(1),
            _ => number,
        }
    }
}
