//! A decoded table, and the step between TT and TDB over it.

/// S, H, G and n, and the coefficients of every granule, c_0 first.
pub struct Table {
    pub start: i64,
    pub length: i64,
    pub count: u32,
    pub degree: u32,
    pub coefficients: Vec<i64>,
}

/// u·b/2^bits, to the nearest
fn scaled(u: i64, b: i64, bits: u32) -> i64 {
    ((i128::from(u) * i128::from(b) + (1 << (bits - 1))) >> bits) as i64
}

impl Table {
    pub fn last(&self) -> i64 {
        self.start + i64::from(self.count) * self.length
    }

    pub fn covers(&self, tt: i64) -> bool {
        (self.start..=self.last()).contains(&tt)
    }

    /// D at a tick of the table.
    fn delay(&self, tt: i64) -> i64 {
        let since = (tt - self.start) as u64;
        let length = self.length as u64;
        let granule = (since / length).min(u64::from(self.count) - 1);
        let into = since - granule * length;
        let width = self.degree as usize + 1;
        let from = granule as usize * width;
        let c = &self.coefficients[from..from + width];

        let doubled = 2 * u128::from(length);
        let u = (((u128::from(into) << 32) + u128::from(length)) / doubled) as i64 - (1 << 30);
        let (mut b1, mut b2) = (0, 0);
        for c_k in c[1..].iter().rev() {
            (b1, b2) = (c_k + scaled(u, b1, 29) - b2, b1);
        }
        let v = c[0] + scaled(u, b1, 30) - b2;
        (v + (1 << 15)) >> 16
    }

    /// TDB at a tick of the table.
    pub fn tdb(&self, tt: i64) -> i64 {
        tt - self.delay(tt)
    }

    /// The earliest tick whose TDB is at or after the one asked, if the table reaches it. D hardly
    /// moves, so the first guess is a tick off at most.
    pub fn earliest(&self, asked: i64) -> Option<i64> {
        let last = self.last();
        let near = asked.clamp(self.start, last);
        let mut tt = (asked + self.delay(near)).clamp(self.start, last);
        let mut tdb = self.tdb(tt);
        while tdb < asked {
            if tt == last {
                return None;
            }
            tt += 1;
            tdb = self.tdb(tt);
        }
        while tt > self.start {
            let before = self.tdb(tt - 1);
            if before < asked {
                return Some(tt);
            }
            tt -= 1;
            tdb = before;
        }
        (tdb == asked).then_some(tt)
    }
}
