//! Numbers that look random and come out the same for the same seed and list, on every machine (splitmix64).

#[derive(Clone)]
pub struct Dice {
    state: u64,
}

impl Dice {
    /// The dice of one list. Each list has its own, so that it can be drawn again without those before it.
    pub fn new(seed: u64, list: u64) -> Dice {
        let mut of_the_seed = Dice { state: seed };
        Dice { state: of_the_seed.number().wrapping_add(list) }
    }

    /// Any number.
    pub fn number(&mut self) -> u64 {
        self.state = self.state.wrapping_add(0x9e37_79b9_7f4a_7c15);
        let mixed = (self.state ^ self.state >> 30).wrapping_mul(0xbf58_476d_1ce4_e5b9);
        let mixed = (mixed ^ mixed >> 27).wrapping_mul(0x94d0_49bb_1331_11eb);
        mixed ^ mixed >> 31
    }

    /// A number below the limit, which is not 0.
    pub fn below(&mut self, limit: u64) -> u64 {
        self.number() % limit
    }

    /// True so many times in 100.
    pub fn percent(&mut self, times: u64) -> bool {
        self.below(100) < times
    }

    pub fn among<T: Copy>(&mut self, choices: &[T]) -> T {
        choices[self.below(choices.len() as u64) as usize]
    }

    /// A place in the list of weights, each as often as its weight says.
    pub fn weighted(&mut self, weights: &[u64]) -> usize {
        let mut left = self.below(weights.iter().sum());
        for (place, &weight) in weights.iter().enumerate() {
            if left < weight {
                return place;
            }
            left -= weight;
        }
        unreachable!("the number drawn is below the sum of the weights")
    }
}

#[cfg(test)]
mod tests {
    use super::*;

    #[test]
    fn the_same_seed_and_list_give_the_same_numbers() {
        let drawn = |seed, list| Dice::new(seed, list).number();
        assert_eq!(drawn(1, 7), drawn(1, 7));
        assert_ne!(drawn(1, 7), drawn(1, 8));
        assert_ne!(drawn(1, 7), drawn(2, 7));
    }

    #[test]
    fn weights_count() {
        let mut dice = Dice::new(1, 1);
        let mut drawn = [0; 3];
        (0..4000).for_each(|_| drawn[dice.weighted(&[1, 0, 3])] += 1);
        assert!(drawn[0] > 800 && drawn[1] == 0 && drawn[2] > 2800, "{drawn:?}");
    }
}
