//! Random numbers by seed (SplitMix64): the same on every machine.

/// A stream of random numbers.
#[derive(Clone, Debug)]
pub struct Random {
    state: u64,
}

impl Random {
    /// The stream of a seed and a case, so that each case can be had without those before it.
    pub fn new(seed: u64, case: u64) -> Self {
        let mut stream = Self { state: seed };
        stream.state = stream.bits() ^ case;
        stream
    }

    /// 64 random bits.
    pub fn bits(&mut self) -> u64 {
        self.state = self.state.wrapping_add(0x9e37_79b9_7f4a_7c15);
        let z = (self.state ^ (self.state >> 30)).wrapping_mul(0xbf58_476d_1ce4_e5b9);
        let z = (z ^ (z >> 27)).wrapping_mul(0x94d0_49bb_1331_11eb);
        z ^ (z >> 31)
    }

    /// 32 random bits.
    pub fn bits32(&mut self) -> u32 {
        // The low half; the shift leaves nothing above it.
        (self.bits() >> 32) as u32
    }

    /// A number of `low..=high`. (`low` where the range is empty.)
    pub fn between(&mut self, low: usize, high: usize) -> usize {
        let width = high.saturating_sub(low) as u64 + 1;
        // A remainder below `width` fits where `high` did.
        low + (self.bits() % width) as usize
    }

    /// A byte of `0..=high`.
    pub fn byte(&mut self, high: u8) -> u8 {
        // A remainder below 256 fits a byte.
        (self.bits() % (u64::from(high) + 1)) as u8
    }

    /// Yes, in so many of a hundred cases.
    pub fn chance(&mut self, percent: u64) -> bool {
        self.bits() % 100 < percent
    }

    /// One of the values, each as often as its weight says; nothing where all weights are 0.
    pub fn weighted<T: Copy>(&mut self, choices: &[(u64, T)]) -> Option<T> {
        let total: u64 = choices.iter().map(|(weight, _)| weight).sum();
        let mut left = self.bits().checked_rem(total)?;
        for &(weight, value) in choices {
            if left < weight {
                return Some(value);
            }
            left -= weight;
        }
        None
    }

    /// One of the values, each as often as the others. There has to be one.
    pub fn one_of<T: Copy>(&mut self, values: &[T]) -> T {
        values[self.between(0, values.len() - 1)]
    }

    /// Shares of a whole: each at least what is asked for it, with the sum `whole` (or that of `least`, if it is more).
    pub fn share(&mut self, whole: usize, least: &[usize]) -> Vec<usize> {
        let mut shares = least.to_vec();
        let (Some(last), asked) = (least.len().checked_sub(1), least.iter().sum()) else {
            return shares;
        };
        // Some shares are even and some lopsided, so that trees are broad as well as deep.
        let favourite = self.between(0, last);
        let lopsided = self.chance(50);
        for _ in asked..whole {
            let at = if lopsided && self.chance(80) { favourite } else { self.between(0, last) };
            shares[at] += 1;
        }
        shares
    }
}

#[cfg(test)]
mod tests {
    use super::*;

    #[test]
    fn streams_repeat_and_differ() {
        let first = |seed, case| Random::new(seed, case).bits();
        assert_eq!(first(1, 2), first(1, 2));
        assert_ne!(first(1, 2), first(1, 3));
        assert_ne!(first(1, 2), first(2, 2));
    }

    #[test]
    fn shares_have_the_sum() {
        let mut random = Random::new(1, 1);
        for (whole, least, sum) in
            [(0, vec![], 0), (9, vec![], 0), (9, vec![1], 9), (9, vec![1, 3], 9), (2, vec![2, 1], 3)]
        {
            let shares = random.share(whole, &least);
            assert_eq!((shares.len(), shares.iter().sum::<usize>()), (least.len(), sum));
            assert!(shares.iter().zip(&least).all(|(share, least)| share >= least));
        }
    }

    #[test]
    fn weights_of_0_are_never_chosen() {
        let mut random = Random::new(1, 1);
        assert!((0..100).all(|_| random.weighted(&[(0, 'a'), (1, 'b'), (0, 'c')]) == Some('b')));
        assert_eq!(random.weighted(&[(0, 'a')]), None);
    }
}
