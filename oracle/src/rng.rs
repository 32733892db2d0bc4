//! A small generator of numbers that gives the same ones on every machine (SplitMix64).

pub struct Rng {
    state: u64,
}

fn mixed(word: u64) -> u64 {
    let word = (word ^ (word >> 30)).wrapping_mul(0xBF58_476D_1CE4_E5B9);
    let word = (word ^ (word >> 27)).wrapping_mul(0x94D0_49BB_1331_11EB);
    word ^ (word >> 31)
}

impl Rng {
    /// The seed is mixed first, since callers count seeds up one by one.
    pub fn new(seed: u64) -> Rng {
        Rng {
            state: mixed(seed.wrapping_add(0x5851_F42D_4C95_7F2D)),
        }
    }

    pub fn word(&mut self) -> u64 {
        self.state = self.state.wrapping_add(0x9E37_79B9_7F4A_7C15);
        mixed(self.state)
    }

    /// A number below `limit`, which isn't 0.
    pub fn below(&mut self, limit: usize) -> usize {
        ((u128::from(self.word()) * limit as u128) >> 64) as usize
    }

    /// A number from `low` to `high`, both included.
    pub fn from_to(&mut self, low: usize, high: usize) -> usize {
        low + self.below(high - low + 1)
    }

    pub fn one_in(&mut self, limit: usize) -> bool {
        self.below(limit) == 0
    }

    pub fn percent(&mut self, share: usize) -> bool {
        self.below(100) < share
    }

    pub fn pick<T: Copy>(&mut self, list: &[T]) -> T {
        list[self.below(list.len())]
    }

    /// A place of the list, as often as its weight says.
    pub fn weighted(&mut self, weights: &[u8]) -> usize {
        let total = weights.iter().map(|&weight| weight as usize).sum();
        let mut rest = self.below(total);
        for (place, &weight) in weights.iter().enumerate() {
            if rest < weight as usize {
                return place;
            }
            rest -= weight as usize;
        }
        unreachable!("the rest is below the sum of the weights")
    }

    pub fn shuffle<T>(&mut self, list: &mut [T]) {
        for place in (1..list.len()).rev() {
            list.swap(place, self.below(place + 1));
        }
    }
}

#[cfg(test)]
mod tests {
    use super::*;

    #[test]
    fn weighted_leaves_out_what_has_no_weight() {
        let mut rng = Rng::new(7);
        let mut counts = [0; 3];
        for _ in 0..1000 {
            counts[rng.weighted(&[1, 0, 3])] += 1;
        }
        assert_eq!(counts[1], 0);
        assert!(counts[0] > 150 && counts[2] > 600);
    }

    #[test]
    fn from_to_reaches_both_ends() {
        let mut rng = Rng::new(8);
        let mut seen = [false; 4];
        for _ in 0..200 {
            seen[rng.from_to(2, 5) - 2] = true;
        }
        assert_eq!(seen, [true; 4]);
    }
}
