//! A small pseudo random generator (splitmix64) with a seed that can be set, so that a failing run can be repeated.
use std::env;

pub struct Random {
    state: u64,
}

impl Random {
    pub fn new(seed: u64) -> Self {
        Random { state: seed }
    }

    /// The seed of OY_SEED, or a fixed one; it is printed with the name of the test that uses it.
    pub fn seeded(test: &str) -> Self {
        let seed = match env::var("OY_SEED") {
            Ok(text) => text.parse().expect("OY_SEED is a decimal number"),
            Err(_) => 2008,
        };
        println!("{test}: OY_SEED={seed}");
        // tests that run beside each other do not share their numbers
        let own = test.bytes().fold(seed, |hash, b| (hash ^ u64::from(b)).wrapping_mul(0x100_0000_01b3));
        Random::new(own)
    }

    pub fn number(&mut self) -> u64 {
        self.state = self.state.wrapping_add(0x9e37_79b9_7f4a_7c15);
        let mut z = self.state;
        z = (z ^ (z >> 30)).wrapping_mul(0xbf58_476d_1ce4_e5b9);
        z = (z ^ (z >> 27)).wrapping_mul(0x94d0_49bb_1331_11eb);
        z ^ (z >> 31)
    }

    /// A number below `limit`; 0 where the limit is 0.
    pub fn below(&mut self, limit: usize) -> usize {
        (self.number() % limit.max(1) as u64) as usize
    }

    /// A number from `low` to `high`, both included.
    pub fn between(&mut self, low: usize, high: usize) -> usize {
        low + self.below(high - low + 1)
    }

    /// True `percent` times of a hundred.
    pub fn chance(&mut self, percent: usize) -> bool {
        self.below(100) < percent
    }

    pub fn pick<T: Copy>(&mut self, from: &[T]) -> T {
        from[self.below(from.len())]
    }

    /// A number at most two away from the limit.
    pub fn around(&mut self, limit: usize) -> usize {
        (limit + self.below(5)).saturating_sub(2)
    }

    /// A small number, now and then a larger one.
    pub fn small(&mut self) -> usize {
        let most = self.pick(&[1, 2, 4, 8, 20]);
        self.below(most + 1)
    }

    /// `len` bytes, each one of `from`.
    pub fn text(&mut self, from: &[u8], len: usize) -> Vec<u8> {
        (0..len).map(|_| self.pick(from)).collect()
    }

    /// `len` bytes of any value.
    pub fn bytes(&mut self, len: usize) -> Vec<u8> {
        (0..len).map(|_| self.number() as u8).collect()
    }
}
