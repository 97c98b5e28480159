//! A small generator with a fixed seed: the same seed gives the same inputs on every machine.

/// SplitMix64: a counter that goes up by an odd step, and a mix of its bits.
pub struct Random {
    counter: u64,
}

impl Random {
    pub fn new(seed: u64) -> Random {
        Random { counter: seed }
    }

    /// Any 64 bits.
    pub fn number(&mut self) -> u64 {
        self.counter = self.counter.wrapping_add(0x9E37_79B9_7F4A_7C15);
        let mut bits = self.counter;
        bits = (bits ^ (bits >> 30)).wrapping_mul(0xBF58_476D_1CE4_E5B9);
        bits = (bits ^ (bits >> 27)).wrapping_mul(0x94D0_49BB_1331_11EB);
        bits ^ (bits >> 31)
    }

    /// A number from 0 up to the limit, which is left out.
    pub fn below(&mut self, limit: usize) -> usize {
        let scaled = (u128::from(self.number()) * limit as u128) >> 64;
        scaled as usize
    }

    /// A number from the low to the high one, both taken in.
    pub fn between(&mut self, low: i128, high: i128) -> i128 {
        assert!(low <= high, "nothing lies between {low} and {high}");
        low + self.below((high - low + 1) as usize) as i128
    }

    pub fn one_in(&mut self, count: usize) -> bool {
        self.below(count) == 0
    }

    pub fn byte(&mut self) -> u8 {
        self.number() as u8
    }

    pub fn bytes(&mut self, count: usize) -> Vec<u8> {
        let mut bytes = Vec::with_capacity(count + 7);
        while bytes.len() < count {
            bytes.extend_from_slice(&self.number().to_le_bytes());
        }
        bytes.truncate(count);
        bytes
    }

    pub fn pick<T: Copy>(&mut self, choices: &[T]) -> T {
        choices[self.below(choices.len())]
    }
}

#[cfg(test)]
mod tests {
    use super::*;

    #[test]
    fn the_same_seed_gives_the_same_numbers() {
        let (mut one, mut other) = (Random::new(7), Random::new(7));
        assert_eq!(one.bytes(100), other.bytes(100));
        assert_ne!(one.number(), Random::new(8).number());
    }

    #[test]
    fn numbers_stay_between_their_ends_and_reach_them() {
        let mut random = Random::new(1);
        let mut met = [false; 5];
        for _ in 0..1000 {
            met[(random.between(-2, 2) + 2) as usize] = true;
        }
        assert_eq!(met, [true; 5]);
    }
}
