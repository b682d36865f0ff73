//! What is converted, judged, read and written: the same in every run.

/// Numbers without a pattern, by SplitMix64.
pub struct Random(pub u64);

impl Random {
    fn next(&mut self) -> u64 {
        self.0 = self.0.wrapping_add(0x9e37_79b9_7f4a_7c15);
        let z = (self.0 ^ (self.0 >> 30)).wrapping_mul(0xbf58_476d_1ce4_e5b9);
        let z = (z ^ (z >> 27)).wrapping_mul(0x94d0_49bb_1331_11eb);
        z ^ (z >> 31)
    }

    /// From the least up to, and without, the end.
    pub fn between(&mut self, least: i64, end: i64) -> i64 {
        let width = end.wrapping_sub(least) as u64;
        least.wrapping_add(((u128::from(self.next()) * u128::from(width)) >> 64) as i64)
    }
}

/// So many ticks at random.
pub fn at_random(many: usize, least: i64, end: i64) -> Vec<i64> {
    let mut random = Random(1);
    (0..many).map(|_| random.between(least, end)).collect()
}

/// The same, in order.
pub fn in_order(many: usize, least: i64, end: i64) -> Vec<i64> {
    let mut ticks = at_random(many, least, end);
    ticks.sort_unstable();
    ticks
}

/// So many lines `from to tick`, each conversion possible.
pub fn lines(many: usize, least: i64, end: i64) -> String {
    let mut random = Random(2);
    let mut text = String::new();
    for _ in 0..many {
        let from = random.between(1, 7);
        let to = random.between(1, 7);
        let tick = random.between(least, end);
        text += &format!("{from} {to} {tick}\n");
    }
    text
}
