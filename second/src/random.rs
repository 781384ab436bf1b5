//! Drawn numbers that are the same for the same seed on every machine: xoshiro256** started by splitmix64.
//! Each log of a seed's sequence has its own numbers, so that one log can be drawn without the others.

#[derive(Clone, Debug)]
pub struct Random {
    state: [u64; 4],
}

const STEP: u64 = 0x9E37_79B9_7F4A_7C15;

fn mixed(number: u64) -> u64 {
    let number = (number ^ (number >> 30)).wrapping_mul(0xBF58_476D_1CE4_E5B9);
    let number = (number ^ (number >> 27)).wrapping_mul(0x94D0_49BB_1331_11EB);
    number ^ (number >> 31)
}

impl Random {
    /// The numbers of one log of a seed's sequence.
    pub fn new(seed: u64, log: u64) -> Random {
        let mut start = mixed(seed.wrapping_add(STEP)) ^ mixed(log.wrapping_mul(STEP));
        let state = [0; 4].map(|_: u64| {
            start = start.wrapping_add(STEP);
            mixed(start)
        });
        Random { state }
    }

    pub fn number(&mut self) -> u64 {
        let state = &mut self.state;
        let result = state[1].wrapping_mul(5).rotate_left(7).wrapping_mul(9);
        let shifted = state[1] << 17;
        state[2] ^= state[0];
        state[3] ^= state[1];
        state[1] ^= state[2];
        state[0] ^= state[3];
        state[2] ^= shifted;
        state[3] = state[3].rotate_left(45);
        result
    }

    /// A number from 0 to one less than the bound, which is not 0.
    pub fn below(&mut self, bound: usize) -> usize {
        assert!(bound > 0, "nothing to draw from");
        ((u128::from(self.number()) * bound as u128) >> 64) as usize
    }

    /// A number from the first to the last, both included.
    pub fn between(&mut self, first: usize, last: usize) -> usize {
        first + self.below(last - first + 1)
    }

    pub fn chance(&mut self, percent: usize) -> bool {
        self.below(100) < percent
    }

    pub fn pick<Item: Clone>(&mut self, items: &[Item]) -> Item {
        items[self.below(items.len())].clone()
    }

    /// The place of a weight, drawn in proportion to the weights.
    pub fn weighted(&mut self, weights: &[usize]) -> usize {
        let mut left = self.below(weights.iter().sum());
        for (place, weight) in weights.iter().enumerate() {
            if left < *weight {
                return place;
            }
            left -= weight;
        }
        unreachable!("the drawn number is below the sum of the weights")
    }

    pub fn octet(&mut self) -> u8 {
        self.number() as u8
    }

    pub fn octets(&mut self, length: usize) -> Vec<u8> {
        let mut octets = Vec::with_capacity(length + 8);
        while octets.len() < length {
            octets.extend_from_slice(&self.number().to_be_bytes());
        }
        octets.truncate(length);
        octets
    }

    pub fn eight(&mut self) -> [u8; 8] {
        self.number().to_be_bytes()
    }
}
