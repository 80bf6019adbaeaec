//! Pseudo-random numbers: SplitMix64 (Steele, Lea and Flood 2014). The same seed gives the same numbers everywhere.

pub struct Rng(u64);

impl Rng {
    /// The numbers of one block of inputs: they depend on the seed, on which inputs are made and on the block alone,
    /// so that the threads may take the blocks in any order.
    pub fn new(seed: u64, stream: &str, block: u64) -> Rng {
        let mut rng = Rng(seed);
        for b in stream.bytes() {
            rng.0 = rng.next() ^ b as u64;
        }
        rng.0 = rng.next() ^ block;
        rng
    }

    pub fn next(&mut self) -> u64 {
        self.0 = self.0.wrapping_add(0x9e37_79b9_7f4a_7c15);
        let z = self.0;
        let z = (z ^ (z >> 30)).wrapping_mul(0xbf58_476d_1ce4_e5b9);
        let z = (z ^ (z >> 27)).wrapping_mul(0x94d0_49bb_1331_11eb);
        z ^ (z >> 31)
    }

    /// A number below n, for an n far below 2^64.
    pub fn below(&mut self, n: u64) -> u64 {
        self.next() % n
    }

    /// A number from low to high, both ends included.
    pub fn between(&mut self, low: i64, high: i64) -> i64 {
        low + self.below((high - low + 1) as u64) as i64
    }

    /// One time in n.
    pub fn one_in(&mut self, n: u64) -> bool {
        self.below(n) == 0
    }

    /// An element of a list.
    pub fn pick<T: Copy>(&mut self, list: &[T]) -> T {
        list[self.below(list.len() as u64) as usize]
    }
}
