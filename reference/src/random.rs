//! A small random generator (splitmix64), so that a seed gives the same sessions everywhere.

/// The generator's state.
#[derive(Clone, Debug)]
pub struct Random(u64);

/// The step of splitmix64: 2^64 over the golden ratio, odd.
const STEP: u64 = 0x9E37_79B9_7F4A_7C15;

impl Random {
    /// The generator of one session of a seed.
    pub fn new(seed: u64, session: u64) -> Random {
        let mut random = Random(seed);
        let mixed = random.bits() ^ session;
        Random(Random(mixed).bits())
    }

    /// 64 random bits.
    pub fn bits(&mut self) -> u64 {
        self.0 = self.0.wrapping_add(STEP);
        let mut mixed = self.0;
        mixed = (mixed ^ (mixed >> 30)).wrapping_mul(0xBF58_476D_1CE4_E5B9);
        mixed = (mixed ^ (mixed >> 27)).wrapping_mul(0x94D0_49BB_1331_11EB);
        mixed ^ (mixed >> 31)
    }

    /// A number under `limit`, which is not 0.
    pub fn below(&mut self, limit: usize) -> usize {
        (self.bits() % limit as u64) as usize
    }

    /// A number from `low` to `high`, both included.
    pub fn between(&mut self, low: usize, high: usize) -> usize {
        low + self.below(high - low + 1)
    }

    /// A byte from `low` to `high`, both included.
    pub fn byte(&mut self, low: u8, high: u8) -> u8 {
        self.between(usize::from(low), usize::from(high)) as u8
    }

    /// 32 random bits.
    pub fn word(&mut self) -> u32 {
        self.bits() as u32
    }

    /// True in so many of a hundred cases.
    pub fn chance(&mut self, percent: usize) -> bool {
        self.below(100) < percent
    }

    /// One of `choices`, which is not empty.
    pub fn pick<Choice: Copy>(&mut self, choices: &[Choice]) -> Choice {
        choices[self.below(choices.len())]
    }

    /// The place of one weight, each as likely as it is large; their sum is not 0.
    pub fn weighted(&mut self, weights: &[usize]) -> usize {
        let mut left = self.below(weights.iter().sum());
        for (place, weight) in weights.iter().enumerate() {
            if left < *weight {
                return place;
            }
            left -= weight;
        }
        unreachable!("the rest is below the sum of the weights")
    }

    /// So many random bytes.
    pub fn bytes(&mut self, length: usize) -> Vec<u8> {
        (0..length).map(|_| self.byte(0, u8::MAX)).collect()
    }

    /// Brings `list` into a random order.
    pub fn shuffle<Item>(&mut self, list: &mut [Item]) {
        for last in (1..list.len()).rev() {
            list.swap(last, self.below(last + 1));
        }
    }
}
