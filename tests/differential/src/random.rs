//! Numbers without a pattern that are the same in every run with the same seed (splitmix64).

pub struct Random {
    state: u64,
}

impl Random {
    /// The numbers of one round, which do not depend on any other round.
    pub fn for_round(seed: u64, round: u64) -> Random {
        let mut of_seed = Random { state: seed };
        let mut of_round = Random {
            state: of_seed.next() ^ round,
        };
        Random {
            state: of_round.next(),
        }
    }

    pub fn next(&mut self) -> u64 {
        self.state = self.state.wrapping_add(0x9e37_79b9_7f4a_7c15);
        let mut mixed = self.state;
        mixed = (mixed ^ (mixed >> 30)).wrapping_mul(0xbf58_476d_1ce4_e5b9);
        mixed = (mixed ^ (mixed >> 27)).wrapping_mul(0x94d0_49bb_1331_11eb);
        mixed ^ (mixed >> 31)
    }

    /// Any 64-bit number.
    pub fn any(&mut self) -> i64 {
        self.next() as i64
    }

    /// A number from 0 to `bound` - 1, for a bound above 0.
    pub fn below(&mut self, bound: usize) -> usize {
        ((u128::from(self.next()) * bound as u128) >> 64) as usize
    }

    /// A number from `low` to `high`, both included.
    pub fn between(&mut self, low: i64, high: i64) -> i64 {
        let width = (i128::from(high) - i128::from(low) + 1) as u128;
        let offset = (u128::from(self.next()) * width) >> 64;
        (i128::from(low) + offset as i128) as i64
    }

    /// An index from `low` to `high`, both included.
    pub fn index(&mut self, low: usize, high: usize) -> usize {
        low + self.below(high - low + 1)
    }

    /// True once in `times` on average.
    pub fn one_in(&mut self, times: usize) -> bool {
        self.below(times) == 0
    }

    pub fn pick<T: Copy>(&mut self, choices: &[T]) -> T {
        choices[self.below(choices.len())]
    }
}
