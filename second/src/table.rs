//! A table's numbers and what makes them acceptable: refusals 13 to 16.

use crate::granule::Granule;
use crate::refusal::{self, Refusal};
use crate::scales::is_valid_epoch;

/// "A table has a first tick S (TT), a granule length H ticks, a count G and a
/// degree n", and G·(n+1) coefficients granule by granule.
#[derive(Clone, Debug, PartialEq, Eq)]
pub struct Table {
    pub start: i64,
    pub length: i64,
    pub count: u32,
    pub degree: u32,
    pub coefficients: Vec<i64>,
}

/// A table's bytes, judged once: the table, or the refusal they get.
pub type Judged = Result<Table, Refusal>;

pub const GREATEST_DEGREE: u32 = 15;
pub const LEAST_LENGTH: i64 = 1_000_000_000;
pub const GREATEST_LENGTH: i64 = 1 << 50;
pub const GREATEST_COUNT: u32 = 360;
pub const GREATEST_COEFFICIENT: i64 = 1 << 40;
pub const GREATEST_WEIGHT: i64 = 1 << 40;
pub const GREATEST_GAP: i128 = 1024;

impl Table {
    pub fn first_tick(&self) -> i64 {
        self.start
    }

    /// S+GH. A table that keeps its bounds has a valid epoch there.
    pub fn last_tick(&self) -> i64 {
        self.start + i64::from(self.count) * self.length
    }

    pub fn holds(&self, tt: i64) -> bool {
        (self.first_tick()..=self.last_tick()).contains(&tt)
    }

    pub fn granule_coefficients(&self, g: usize) -> &[i64] {
        let size = self.degree as usize + 1;
        &self.coefficients[g * size..(g + 1) * size]
    }

    pub fn granule(&self, g: usize) -> Granule<'_> {
        Granule {
            start: self.start + g as i64 * self.length,
            length: self.length,
            coefficients: self.granule_coefficients(g),
        }
    }

    pub fn granules(&self) -> impl Iterator<Item = Granule<'_>> {
        (0..self.count as usize).map(|g| self.granule(g))
    }

    /// "Granule g covers S+gH up to the tick before S+(g+1)H; the very last
    /// tick S+GH belongs to the last granule."
    pub fn granule_at(&self, tt: i64) -> Granule<'_> {
        assert!(self.holds(tt), "only ticks of the table have a granule");
        let g = (tt - self.start) / self.length;
        self.granule((g as usize).min(self.count as usize - 1))
    }

    /// "Bounds: n 0..15, H from 10^9 to 2^50, G 1..360, S and S+GH valid
    /// epochs." In i128, since writing may be given any numbers.
    pub fn keeps_bounds(&self) -> bool {
        let last = i128::from(self.start) + i128::from(self.count) * i128::from(self.length);
        self.degree <= GREATEST_DEGREE
            && (LEAST_LENGTH..=GREATEST_LENGTH).contains(&self.length)
            && (1..=GREATEST_COUNT).contains(&self.count)
            && is_valid_epoch(i128::from(self.start))
            && is_valid_epoch(last)
    }

    /// Refusals 14, 15 and 16, each over all granules before the next.
    pub fn judge_granules(&self) -> Result<(), Refusal> {
        let lowest = |number, wrong: &dyn Fn(usize) -> bool| match (0..self.count as usize)
            .find(|g| wrong(*g))
        {
            Some(g) => Err(Refusal::new(number, g as u64)),
            None => Ok(()),
        };
        lowest(refusal::COEFFICIENT, &|g| self.has_large_coefficient(g))?;
        lowest(refusal::WEIGHT, &|g| self.has_large_weight(g))?;
        lowest(refusal::JOIN, &|g| g > 0 && self.has_wide_join(g))
    }

    /// "a coefficient beyond 2^40 either way"
    fn has_large_coefficient(&self, g: usize) -> bool {
        let beyond = |c: &i64| c.unsigned_abs() > GREATEST_COEFFICIENT as u64;
        self.granule(g).coefficients.iter().any(beyond)
    }

    /// "weight above 2^40 or above H"
    fn has_large_weight(&self, g: usize) -> bool {
        let weight = self.granule(g).weight();
        weight > i128::from(GREATEST_WEIGHT) || weight > i128::from(self.length)
    }

    /// "at a join, plain sum of c_k and alternating sum of the next granule
    /// differ by over 1024 units"
    fn has_wide_join(&self, later: usize) -> bool {
        let plain = self.granule(later - 1).plain_sum();
        let alternating = self.granule(later).alternating_sum();
        (plain - alternating).abs() > GREATEST_GAP
    }
}
