//! A small generator of numbers that look random and are the same for the same seed (splitmix64).

pub struct Random {
    state: u64,
}

impl Random {
    pub fn new(seed: u64) -> Self {
        Random { state: seed }
    }

    pub fn word(&mut self) -> u64 {
        self.state = self.state.wrapping_add(0x9E37_79B9_7F4A_7C15);
        let mut mixed = self.state;
        mixed = (mixed ^ (mixed >> 30)).wrapping_mul(0xBF58_476D_1CE4_E5B9);
        mixed = (mixed ^ (mixed >> 27)).wrapping_mul(0x94D0_49BB_1331_11EB);
        mixed ^ (mixed >> 31)
    }

    /// A number from 0 to `bound` - 1. The slight leaning to small numbers does no harm here.
    pub fn below(&mut self, bound: u64) -> u64 {
        self.word() % bound
    }

    /// Yes, in so many cases of a hundred.
    pub fn percent(&mut self, cases: u64) -> bool {
        self.below(100) < cases
    }

    pub fn pick<T: Copy>(&mut self, from: &[T]) -> T {
        from[self.below(from.len() as u64) as usize]
    }

    /// One of the choices, each as often as its weight says.
    pub fn weighted<T: Copy>(&mut self, choices: &[(T, u64)]) -> T {
        let all = choices.iter().map(|(_, weight)| weight).sum();
        let mut point = self.below(all);
        for &(choice, weight) in choices {
            if point < weight {
                return choice;
            }
            point -= weight;
        }
        unreachable!("the point lies below the sum of the weights")
    }

    pub fn bytes(&mut self, length: usize) -> Vec<u8> {
        (0..length).map(|_| self.below(256) as u8).collect()
    }
}

#[cfg(test)]
mod tests {
    use super::*;

    #[test]
    fn the_first_numbers_of_seed_0_are_those_of_splitmix64() {
        let mut random = Random::new(0);
        assert_eq!(random.word(), 0xE220_A839_7B1D_CDAF);
        assert_eq!(random.word(), 0x6E78_9E6A_A1B9_65F4);
    }

    #[test]
    fn weights_of_nothing_are_never_chosen() {
        let mut random = Random::new(1);
        for _ in 0..1000 {
            assert_ne!(random.weighted(&[('a', 1), ('b', 0), ('c', 2)]), 'b');
        }
    }
}
