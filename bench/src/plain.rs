//! Plain Rust for the same answers, as a good engineer would write it from the rule book: products
//! in 128 bits, a table decoded once, no proofs, no tricks.

pub mod batch;
pub mod changes;
pub mod convert;
pub mod dates;
pub mod judge;
pub mod line;
pub mod scales;
pub mod table;
pub mod utc;

/// A refusal: its number, its place, and for a batch the index of the entry.
#[derive(Clone, Copy, Debug, PartialEq)]
pub struct Refusal {
    pub number: u32,
    pub place: u64,
    pub index: u64,
}

impl Refusal {
    pub fn new(number: u32, place: u64) -> Refusal {
        Refusal {
            number,
            place,
            index: 0,
        }
    }
}

/// "Nearest", with "an exact half" going "to the greater".
pub fn nearest(numerator: i128, denominator: i128) -> i64 {
    (numerator + denominator / 2).div_euclid(denominator) as i64
}
