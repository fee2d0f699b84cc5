//! A small generator of pseudo-random numbers: the same seed gives the same files everywhere.

pub struct Random(u64);

impl Random {
    /// Each file has its own sequence, so that one can be made again alone.
    pub fn new(seed: u64, index: u64) -> Random {
        let mut mixed = Random(seed);
        let start = mixed.next() ^ index.wrapping_mul(0xd134_2543_de82_ef95);
        Random(start)
    }

    pub fn next(&mut self) -> u64 {
        self.0 = self.0.wrapping_add(0x9e37_79b9_7f4a_7c15);
        let mut z = self.0;
        z = (z ^ (z >> 30)).wrapping_mul(0xbf58_476d_1ce4_e5b9);
        z = (z ^ (z >> 27)).wrapping_mul(0x94d0_49bb_1331_11eb);
        z ^ (z >> 31)
    }

    /// From 0 up to below n.
    pub fn below(&mut self, n: usize) -> usize {
        (self.next() % n as u64) as usize
    }

    /// Both ends included.
    pub fn between(&mut self, least: i64, greatest: i64) -> i64 {
        let span = greatest.abs_diff(least) + 1;
        least + (self.next() % span) as i64
    }

    pub fn percent(&mut self, chance: usize) -> bool {
        self.below(100) < chance
    }

    pub fn pick<T: Copy>(&mut self, choices: &[T]) -> T {
        choices[self.below(choices.len())]
    }
}
