//! What changed between two tables (request 2026-03): each granule that differs,
//! or the refusal and whose it is.

use crate::refusal::{self, Refusal};
use crate::table::{Judged, Table};

/// "An entry is three whole numbers: granule, largest, sum."
#[derive(Clone, Copy, Debug, PartialEq, Eq)]
pub struct Entry {
    pub granule: i64,
    /// "the largest coefficient difference", of the absolute ones
    pub largest: i64,
    /// "the sum of the absolute differences"
    pub sum: i64,
}

/// How many numbers an entry takes in the buffer.
pub const ENTRY_NUMBERS: usize = 3;

impl Entry {
    pub fn numbers(&self) -> [i64; ENTRY_NUMBERS] {
        [self.granule, self.largest, self.sum]
    }
}

/// A refusal, and "0 or 1, the table that was refused; else 0".
#[derive(Clone, Copy, Debug, PartialEq, Eq)]
pub struct PairRefusal {
    pub refusal: Refusal,
    pub which: u32,
}

const FIRST: u32 = 0;
const SECOND: u32 = 1;

/// 20 and 8, which neither table is refused with by itself; their place is 0.
fn of_neither(number: u32) -> PairRefusal {
    PairRefusal {
        refusal: Refusal::new(number, 0),
        which: 0,
    }
}

fn accepted(judged: &Judged, which: u32) -> Result<&Table, PairRefusal> {
    let of_this = |refusal: &Refusal| PairRefusal {
        refusal: *refusal,
        which,
    };
    judged.as_ref().map_err(of_this)
}

/// "both tables judged in turn by 10 to 16, then 20 where S, H or G differ, then
/// 8 exactly when the buffer is shorter than the list". The room of the buffer is
/// in numbers.
pub fn compare_tables(
    first: &Judged,
    second: &Judged,
    room: usize,
) -> Result<Vec<Entry>, PairRefusal> {
    let first = accepted(first, FIRST)?;
    let second = accepted(second, SECOND)?;
    if (first.start, first.length, first.count) != (second.start, second.length, second.count) {
        return Err(of_neither(refusal::TABLES_APART));
    }
    let list = changes(first, second);
    match room < ENTRY_NUMBERS * list.len() {
        true => Err(of_neither(refusal::LENT_LENGTHS)),
        false => Ok(list),
    }
}

/// "each granule that differs, in rising order", of two accepted tables with
/// equal S, H and G
pub fn changes(first: &Table, second: &Table) -> Vec<Entry> {
    let one = |g: usize| {
        let granules = [first, second].map(|table| table.granule_coefficients(g));
        change(g, granules)
    };
    (0..first.count as usize).filter_map(one).collect()
}

/// One granule's entry; None where both mean the same, which is that no
/// coefficient differs.
fn change(g: usize, granules: [&[i64]; 2]) -> Option<Entry> {
    let differences = differences(granules);
    let largest = *differences.iter().max().expect("a granule has c_0");
    (largest > 0).then(|| Entry {
        granule: g as i64,
        largest,
        sum: differences.iter().sum(),
    })
}

/// The absolute differences, "a missing coefficient counting as zero". Those of
/// accepted tables are at most 2^41, so that 16 of them are far below 2^63.
fn differences([first, second]: [&[i64]; 2]) -> Vec<i64> {
    let coefficient = |granule: &[i64], k: usize| granule.get(k).copied().unwrap_or(0);
    (0..first.len().max(second.len()))
        .map(|k| (coefficient(first, k) - coefficient(second, k)).abs())
        .collect()
}
