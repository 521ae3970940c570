//! Numbers by chance from a seed (the generator "splitmix64"): the same seed gives the same numbers on every machine, and no clock is read.

pub struct Chance {
    state: u64,
}

impl Chance {
    /// The numbers of one case: they depend on the seed and the case's number alone, so that a case can be drawn again by itself.
    pub fn of_case(seed: u64, number: u64) -> Chance {
        let mut of_seed = Chance { state: seed };
        Chance { state: of_seed.next() ^ number.wrapping_mul(0xD1B5_4A32_D192_ED03) }
    }

    fn next(&mut self) -> u64 {
        self.state = self.state.wrapping_add(0x9E37_79B9_7F4A_7C15);
        let mut z = self.state;
        z = (z ^ (z >> 30)).wrapping_mul(0xBF58_476D_1CE4_E5B9);
        z = (z ^ (z >> 27)).wrapping_mul(0x94D0_49BB_1331_11EB);
        z ^ (z >> 31)
    }

    /// One of 0, 1, .. up to and without the limit.
    pub fn below(&mut self, limit: usize) -> usize {
        (self.next() % limit as u64) as usize
    }

    pub fn between(&mut self, least: i128, greatest: i128) -> i128 {
        least + self.below((greatest - least + 1) as usize) as i128
    }

    /// True once in so many times.
    pub fn once_in(&mut self, times: usize) -> bool {
        self.below(times) == 0
    }

    pub fn pick<T: Clone>(&mut self, from: &[T]) -> T {
        from[self.below(from.len())].clone()
    }

    pub fn shuffle<T>(&mut self, things: &mut [T]) {
        for n in (1..things.len()).rev() {
            things.swap(n, self.below(n + 1));
        }
    }
}
