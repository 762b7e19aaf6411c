//! Numbers drawn from a seed. The same seed gives the same numbers on every machine, so a session
//! can be made again.

/// The splitmix64 generator of Steele, Lea and Flood.
pub struct Random {
    state: u64,
}

impl Random {
    pub fn from_seed(seed: u64) -> Random {
        Random { state: seed }
    }

    /// A generator for one part of a run. Neighbouring parts share no numbers, as the part is mixed
    /// before it is added.
    pub fn for_part(seed: u64, part: u64) -> Random {
        let mixed = Random::from_seed(part).next();
        Random::from_seed(Random::from_seed(seed ^ mixed).next())
    }

    pub fn next(&mut self) -> u64 {
        self.state = self.state.wrapping_add(0x9e37_79b9_7f4a_7c15);
        let mut mixed = self.state;
        mixed = (mixed ^ (mixed >> 30)).wrapping_mul(0xbf58_476d_1ce4_e5b9);
        mixed = (mixed ^ (mixed >> 27)).wrapping_mul(0x94d0_49bb_1331_11eb);
        mixed ^ (mixed >> 31)
    }

    /// A number below `bound`, which is not 0. The bounds used are small, so the remainder's bias
    /// does not matter.
    pub fn below(&mut self, bound: usize) -> usize {
        (self.next() % bound as u64) as usize
    }

    pub fn between(&mut self, lowest: i64, highest: i64) -> i64 {
        lowest + (self.next() % (highest - lowest + 1) as u64) as i64
    }

    pub fn chance(&mut self, percent: usize) -> bool {
        self.below(100) < percent
    }

    pub fn pick<T: Copy>(&mut self, choices: &[T]) -> T {
        choices[self.below(choices.len())]
    }
}

#[cfg(test)]
mod tests {
    use super::*;

    #[test]
    fn the_first_numbers_are_those_of_splitmix64() {
        let mut random = Random::from_seed(1234567);
        assert_eq!(random.next(), 6457827717110365317);
        assert_eq!(random.next(), 3203168211198807973);
    }

    #[test]
    fn parts_of_a_run_differ() {
        let first = Random::for_part(1, 0).next();
        assert_ne!(first, Random::for_part(1, 1).next());
        assert_ne!(first, Random::for_part(2, 0).next());
        assert_eq!(first, Random::for_part(1, 0).next());
    }

    #[test]
    fn between_reaches_both_ends() {
        let mut random = Random::from_seed(7);
        let drawn: Vec<i64> = (0..200).map(|_| random.between(-2, 2)).collect();
        assert_eq!(drawn.iter().min(), Some(&-2));
        assert_eq!(drawn.iter().max(), Some(&2));
    }
}
