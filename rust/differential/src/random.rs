//! A small seeded generator of random words (splitmix64), so that a run can be repeated from its seed.

/// The step between two states of splitmix64: an odd number, so that the states run through all words.
const STEP: u64 = 0x9e37_79b9_7f4a_7c15;

/// The finishing steps of splitmix64: each word goes to another word, and no two words to the same one.
fn mix(word: u64) -> u64 {
    let word = (word ^ (word >> 30)).wrapping_mul(0xbf58_476d_1ce4_e5b9);
    let word = (word ^ (word >> 27)).wrapping_mul(0x94d0_49bb_1331_11eb);
    word ^ (word >> 31)
}

/// A stream of random words.
pub struct Random {
    state: u64,
}

impl Random {
    /// The stream of one sheet. It depends on the seed and the sheet's index alone, so that any sheet can be made again
    /// without those before it.
    pub fn of_sheet(seed: u64, index: u64) -> Random {
        let start = mix(seed.wrapping_add(STEP));
        Random {
            state: mix(start.wrapping_add(index)),
        }
    }

    /// The next word; all words are equally likely.
    pub fn word(&mut self) -> u64 {
        self.state = self.state.wrapping_add(STEP);
        mix(self.state)
    }

    /// A number from 0 to `bound` − 1; `bound` is at least 1.
    pub fn below(&mut self, bound: u64) -> u64 {
        ((u128::from(self.word()) * u128::from(bound)) >> 64) as u64
    }

    /// A number from `low` to `high`, both included.
    pub fn between(&mut self, low: u64, high: u64) -> u64 {
        low + self.below(high - low + 1)
    }

    /// True once in `times`, on average.
    pub fn once_in(&mut self, times: u64) -> bool {
        self.below(times) == 0
    }

    /// One entry of a list that is not empty.
    pub fn pick<T: Copy>(&mut self, list: &[T]) -> T {
        list[self.below(list.len() as u64) as usize]
    }

    /// A number from 1 to `high` whose length in bits is drawn first, so that small and large numbers come about
    /// equally often.
    pub fn spread(&mut self, high: u64) -> u64 {
        let bits = self.below(u64::from(64 - high.leading_zeros()));
        let low = 1 << bits;
        self.between(low, high.min(2 * low - 1))
    }

    /// Puts a list in a random order.
    pub fn shuffle<T>(&mut self, list: &mut [T]) {
        for last in (1..list.len()).rev() {
            list.swap(last, self.below(last as u64 + 1) as usize);
        }
    }
}

#[cfg(test)]
mod tests {
    use super::*;

    /// The first words of splitmix64 from state 1234567, as its authors' C program prints them.
    #[test]
    fn words_are_those_of_splitmix64() {
        let mut random = Random { state: 1_234_567 };
        let words = [random.word(), random.word(), random.word()];
        assert_eq!(
            words,
            [
                6_457_827_717_110_365_317,
                3_203_168_211_198_807_973,
                9_817_491_932_198_370_423
            ]
        );
    }

    /// Seed and index both matter, and the same pair gives the same stream.
    #[test]
    fn streams_follow_seed_and_index() {
        let first = |seed, index| Random::of_sheet(seed, index).word();
        assert_eq!(first(1, 2), first(1, 2));
        assert_ne!(first(1, 2), first(2, 1));
        assert_ne!(first(1, 2), first(1, 3));
    }

    /// Drawn numbers reach both ends of their range and stay inside it.
    #[test]
    fn ranges_keep_their_ends() {
        let mut random = Random::of_sheet(5, 0);
        let drawn: Vec<u64> = (0..2_000).map(|_| random.between(3, 9)).collect();
        assert_eq!((drawn.iter().min(), drawn.iter().max()), (Some(&3), Some(&9)));
        let drawn: Vec<u64> = (0..2_000).map(|_| random.spread(20)).collect();
        assert_eq!((drawn.iter().min(), drawn.iter().max()), (Some(&1), Some(&20)));
    }
}
