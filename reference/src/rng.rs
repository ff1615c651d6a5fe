//! A small generator of random numbers (SplitMix64): the same seed gives the same numbers on every
//! machine, so that everything made from a seed can be made again byte for byte.

pub struct Rng {
    state: u64,
}

const STEP: u64 = 0x9E37_79B9_7F4A_7C15;

impl Rng {
    pub fn new(seed: u64) -> Rng {
        Rng { state: seed }
    }

    /// The generator numbered `index` among those of one seed.
    pub fn numbered(seed: u64, index: u64) -> Rng {
        let mut mixer = Rng::new(seed);
        let base = mixer.draw();
        Rng::new(base ^ Rng::new(index.wrapping_mul(STEP)).draw())
    }

    /// The next 64 random bits.
    pub fn draw(&mut self) -> u64 {
        self.state = self.state.wrapping_add(STEP);
        let mut z = self.state;
        z = (z ^ (z >> 30)).wrapping_mul(0xBF58_476D_1CE4_E5B9);
        z = (z ^ (z >> 27)).wrapping_mul(0x94D0_49BB_1331_11EB);
        z ^ (z >> 31)
    }

    /// A number from 0 to `bound` − 1.
    pub fn below(&mut self, bound: usize) -> usize {
        assert!(bound > 0, "no number lies below 0");
        ((u128::from(self.draw()) * bound as u128) >> 64) as usize
    }

    /// A number from `low` to `high`.
    pub fn from_to(&mut self, low: i128, high: i128) -> i128 {
        assert!(low <= high, "nothing lies from {low} to {high}");
        low + self.below((high - low + 1) as usize) as i128
    }

    /// True `percent` times in a hundred.
    pub fn chance(&mut self, percent: usize) -> bool {
        self.below(100) < percent
    }

    pub fn pick<T: Copy>(&mut self, items: &[T]) -> T {
        items[self.below(items.len())]
    }
}
