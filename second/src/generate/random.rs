//! A small generator of random numbers (SplitMix64).

#[derive(Clone, Debug)]
pub struct Random(u64);

impl Random {
    pub fn new(seed: u64) -> Random {
        Random(seed)
    }

    pub fn bits(&mut self) -> u64 {
        self.0 = self.0.wrapping_add(0x9e37_79b9_7f4a_7c15);
        let mut z = self.0;
        z = (z ^ (z >> 30)).wrapping_mul(0xbf58_476d_1ce4_e5b9);
        z = (z ^ (z >> 27)).wrapping_mul(0x94d0_49bb_1331_11eb);
        z ^ (z >> 31)
    }

    pub fn wide(&mut self) -> i128 {
        (i128::from(self.bits() as i64) << 64) | i128::from(self.bits())
    }

    /// From low to high, both ends included.
    pub fn between(&mut self, low: i64, high: i64) -> i64 {
        let span = i128::from(high) - i128::from(low) + 1;
        let offset = i128::from(self.bits()) % span;
        i64::try_from(i128::from(low) + offset).expect("between two i64")
    }

    /// An index below the given length.
    pub fn index(&mut self, length: usize) -> usize {
        self.between(0, length as i64 - 1) as usize
    }

    pub fn one_in(&mut self, chances: u64) -> bool {
        self.bits().is_multiple_of(chances)
    }

    pub fn pick<T: Copy>(&mut self, list: &[T]) -> T {
        list[self.index(list.len())]
    }

    pub fn signed(&mut self, magnitude: i64) -> i64 {
        if self.one_in(2) {
            -magnitude
        } else {
            magnitude
        }
    }

    /// From 0 to the given number, every order of magnitude alike.
    pub fn up_to(&mut self, greatest: i64) -> i64 {
        let shift = self.between(0, 62);
        self.between(0, greatest >> shift)
    }
}
