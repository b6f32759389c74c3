//! Random numbers from a seed (SplitMix64).

pub struct Random {
    state: u64,
}

impl Random {
    pub fn new(seed: u64) -> Random {
        Random { state: seed }
    }

    pub fn word(&mut self) -> u64 {
        self.state = self.state.wrapping_add(0x9E37_79B9_7F4A_7C15);
        let z = self.state;
        let z = (z ^ (z >> 30)).wrapping_mul(0xBF58_476D_1CE4_E5B9);
        let z = (z ^ (z >> 27)).wrapping_mul(0x94D0_49BB_1331_11EB);
        z ^ (z >> 31)
    }

    /// A number from `low` to `high`, both included.
    pub fn between(&mut self, low: usize, high: usize) -> usize {
        let count = (high - low + 1) as u64;
        low + (self.word() % count) as usize
    }

    /// As `between`, but often `low` or `high` itself.
    pub fn edged(&mut self, low: usize, high: usize) -> usize {
        match self.between(0, 5) {
            0 => low,
            1 => high,
            _ => self.between(low, high),
        }
    }

    /// A number from `low` to `high` that is not `other`.
    pub fn other_than(&mut self, other: usize, low: usize, high: usize) -> usize {
        loop {
            let n = self.edged(low, high);
            if n != other {
                return n;
            }
        }
    }

    pub fn byte(&mut self) -> u8 {
        self.word() as u8
    }

    pub fn bytes(&mut self, count: usize) -> Vec<u8> {
        (0..count).map(|_| self.byte()).collect()
    }

    /// True once in `turns` on average.
    pub fn once_in(&mut self, turns: usize) -> bool {
        self.between(1, turns) == 1
    }

    pub fn pick<T: Copy>(&mut self, list: &[T]) -> T {
        list[self.between(0, list.len() - 1)]
    }

    pub fn shuffle<T>(&mut self, list: &mut [T]) {
        for i in (1..list.len()).rev() {
            list.swap(i, self.between(0, i));
        }
    }
}
