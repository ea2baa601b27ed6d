//! A small generator of random numbers (splitmix64), a helper for tests: the
//! same seed gives the same cases.

pub struct Random {
    state: u64,
}

impl Random {
    /// Each family has its own numbers, so that a change to one family leaves
    /// the cases of the others as they are.
    pub fn new(seed: u64, family: &str) -> Random {
        let mut random = Random { state: seed };
        for byte in family.bytes() {
            random.state = random.draw() ^ u64::from(byte);
        }
        random
    }

    pub fn draw(&mut self) -> u64 {
        self.state = self.state.wrapping_add(0x9E37_79B9_7F4A_7C15);
        let mut z = self.state;
        z = (z ^ (z >> 30)).wrapping_mul(0xBF58_476D_1CE4_E5B9);
        z = (z ^ (z >> 27)).wrapping_mul(0x94D0_49BB_1331_11EB);
        z ^ (z >> 31)
    }

    /// 0 to `count` - 1; 0 for a count of 0.
    pub fn below(&mut self, count: u64) -> u64 {
        self.draw().checked_rem(count).unwrap_or(0)
    }

    /// `low` to `high`; `low` where `high` is below it.
    pub fn between(&mut self, low: u64, high: u64) -> u64 {
        low + self.below(high.saturating_sub(low).saturating_add(1))
    }

    pub fn percent(&mut self, percent: u64) -> bool {
        self.below(100) < percent
    }

    pub fn pick<T: Copy>(&mut self, list: &[T]) -> T {
        list[self.below(list.len() as u64) as usize]
    }

    pub fn index(&mut self, length: usize) -> usize {
        self.below(length as u64) as usize
    }

    /// A value of a range, its ends and small values more often than others.
    pub fn edgy(&mut self, low: u64, high: u64) -> u64 {
        match self.below(10) {
            0 => low,
            1 => high.max(low),
            2..=5 => {
                let bits = self.below(34);
                self.between(low, high.min(low.saturating_add(1 << bits)))
            }
            _ => self.between(low, high),
        }
    }

    pub fn shuffle<T>(&mut self, list: &mut [T]) {
        for last in (1..list.len()).rev() {
            list.swap(last, self.index(last + 1));
        }
    }
}
