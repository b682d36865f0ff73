//! The granule rule: one granule's exact sum, and its fixed point.

use crate::exact::{Fraction, Whole, nearest};

/// A granule: its first tick, its length H, and its coefficients c_0..c_n in
/// units of 1/65536 tick.
#[derive(Clone, Copy, Debug)]
pub struct Granule<'a> {
    pub start: i64,
    pub length: i64,
    pub coefficients: &'a [i64],
}

/// How many units make a tick.
pub const UNITS: i128 = 65_536;

impl Granule<'_> {
    fn coefficient(&self, k: usize) -> i128 {
        i128::from(self.coefficients[k])
    }

    pub fn degree(&self) -> usize {
        self.coefficients.len() - 1
    }

    /// "with p = 2(t − start) − H"
    fn p(&self, tick: i64) -> i128 {
        2 * (i128::from(tick) - i128::from(self.start)) - i128::from(self.length)
    }

    /// "Over whole numbers: with p = 2(t − start) − H, E_0 = 1, E_1 = p and
    /// E_(k+1) = 2p·E_k − H²·E_(k−1), H^n times the exact sum is
    /// Σ c_k·H^(n−k)·E_k".
    pub fn exact_sum(&self, tick: i64) -> Fraction {
        let n = self.degree();
        let p = Whole::from(self.p(tick));
        let h = Whole::from(i128::from(self.length));
        let h_squared = h.power(2);
        let twice_p = &Whole::from(2) * &p;
        let mut sum = Whole::from(0);
        let (mut e, mut e_next) = (Whole::from(1), p);
        for k in 0..=n {
            let scaled = &Whole::from(self.coefficient(k)) * &h.power((n - k) as u32);
            sum = &sum + &(&scaled * &e);
            let e_after = &(&twice_p * &e_next) - &(&h_squared * &e);
            (e, e_next) = (e_next, e_after);
        }
        Fraction::new(sum, h.power(n as u32))
    }

    /// "u is 2^30·s rounded", with s = p/H. Since p lies from −H to H and H is
    /// at most 2^50, 81 bits and a sign are wide enough.
    pub fn u(&self, tick: i64) -> i128 {
        nearest(self.p(tick) << 30, i128::from(self.length))
    }

    /// "With b_(n+1) = b_(n+2) = 0, for k from n down to 1:
    /// b_k = c_k + rounded(u·b_(k+1)/2^29) − b_(k+2). The value
    /// v = c_0 + rounded(u·b_1/2^30) − b_2."
    ///
    /// |u| is at most 2^30, and |b_k| is at most the sum of (j−k+1)·(|c_j| + 1)
    /// over j from k to n, below 16·16·(2^40 + 1): the product is below 2^79.
    pub fn value(&self, tick: i64) -> i128 {
        let u = self.u(tick);
        let (mut b, mut b_above) = (0, 0);
        for k in (1..=self.degree()).rev() {
            let b_below = self.coefficient(k) + nearest(u * b, 1 << 29) - b_above;
            (b, b_above) = (b_below, b);
        }
        self.coefficient(0) + nearest(u * b, 1 << 30) - b_above
    }

    /// "D = v/65536 rounded."
    pub fn d(&self, tick: i64) -> i64 {
        i64::try_from(nearest(self.value(tick), UNITS)).expect("D is below 2^26")
    }

    /// "Call the sum of k²·|c_k| the weight."
    pub fn weight(&self) -> i128 {
        (0..=self.degree())
            .map(|k| (k * k) as i128 * self.coefficient(k).abs())
            .sum()
    }

    /// "plain sum of c_k": the exact sum at s = 1.
    pub fn plain_sum(&self) -> i128 {
        (0..=self.degree()).map(|k| self.coefficient(k)).sum()
    }

    /// "alternating sum": the exact sum at s = −1.
    pub fn alternating_sum(&self) -> i128 {
        (0..=self.degree())
            .map(|k| self.coefficient(k) * if k % 2 == 0 { 1 } else { -1 })
            .sum()
    }
}
