//! The generator behind every test: splitmix64, so that a printed seed repeats a run exactly.

pub struct Random {
    state: u64,
}

impl Random {
    pub fn new(seed: u64) -> Random {
        Random { state: seed }
    }

    /// A generator of its own for each part of a run, so that a part can be run alone.
    pub fn of_part(seed: u64, part: &str) -> Random {
        let mixed = part.bytes().fold(seed, |state, byte| Random::new(state ^ u64::from(byte)).draw());
        Random::new(mixed)
    }

    pub fn draw(&mut self) -> u64 {
        self.state = self.state.wrapping_add(0x9E37_79B9_7F4A_7C15);
        let mut z = self.state;
        z = (z ^ (z >> 30)).wrapping_mul(0xBF58_476D_1CE4_E5B9);
        z = (z ^ (z >> 27)).wrapping_mul(0x94D0_49BB_1331_11EB);
        z ^ (z >> 31)
    }

    /// A number below `limit`, which is at least 1. The slight unevenness does no harm here.
    pub fn below(&mut self, limit: u32) -> u32 {
        (((self.draw() >> 32) * u64::from(limit)) >> 32) as u32
    }

    /// A number from `low` to `high`, both possible.
    pub fn between(&mut self, low: u32, high: u32) -> u32 {
        low + self.below(high - low + 1)
    }

    /// True once in `times` calls, on average.
    pub fn one_in(&mut self, times: u32) -> bool {
        self.below(times) == 0
    }

    pub fn pick<T: Copy>(&mut self, choices: &[T]) -> T {
        choices[self.below(choices.len() as u32) as usize]
    }

    pub fn shuffle<T>(&mut self, items: &mut [T]) {
        for last in (1..items.len()).rev() {
            let other = self.below(last as u32 + 1) as usize;
            items.swap(last, other);
        }
    }
}

#[cfg(test)]
mod tests {
    use super::*;

    #[test]
    fn known_first_number() {
        assert_eq!(Random::new(0).draw(), 0xE220_A839_7B1D_CDAF);
    }

    #[test]
    fn parts_and_seeds_have_unlike_numbers() {
        let first = |seed, part| Random::of_part(seed, part).draw();
        assert_eq!(first(1, "bounds"), first(1, "bounds"));
        assert!(first(1, "bounds") != first(2, "bounds") && first(1, "bounds") != first(1, "damaged"));
    }

    #[test]
    fn numbers_stay_below_their_limit_and_reach_both_ends() {
        let mut random = Random::new(1);
        let mut seen = [false; 5];
        for _ in 0..1000 {
            seen[random.below(5) as usize] = true;
        }
        assert_eq!(seen, [true; 5]);
        assert_eq!(random.between(7, 7), 7);
    }
}
