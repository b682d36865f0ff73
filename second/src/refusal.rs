//! "Numbers the desk says no with": each refusal has a number and a place.

#[derive(Clone, Copy, Debug, PartialEq, Eq)]
pub struct Refusal {
    pub number: u32,
    pub place: u64,
}

/// Scale code above 6; the place is 0 from, 1 to. "Code 7 with another kind of
/// reading, or this kind with another code, is 1", too.
pub const SCALE_CODE: u32 = 1;
/// NaN or infinite; the place is the part, 0 or 1.
pub const NOT_FINITE: u32 = 2;
/// Date part beyond 5,000,000 days either way, seconds beyond 10^10; the part.
pub const BEYOND: u32 = 3;
/// Epoch outside the range; the steps done, the one that led outside counted.
pub const OUTSIDE_RANGE: u32 = 4;
/// "A day, or a TAI tick to be written, before the list's first day, or ticks
/// negative or at or past the day's end"; 0.
pub const OUTSIDE_UTC: u32 = 5;
/// Outside the table; the steps done.
pub const OUTSIDE_TABLE: u32 = 6;
/// The list of TAI−UTC breaks a rule; 0.
pub const LEAPS_BROKEN: u32 = 7;
/// Lent lengths don't fit; 0.
pub const LENT_LENGTHS: u32 = 8;
/// Text line not understood; the line, from 1.
pub const NOT_UNDERSTOOD: u32 = 9;
/// Bytes not 2 to 121 whole blocks; 0.
pub const NOT_WHOLE_BLOCKS: u32 = 10;
/// Check wrong; the lowest block.
pub const CHECK_WRONG: u32 = 11;
/// Kind, edition, number, count or zero byte wrong; the lowest block.
pub const BYTE_WRONG: u32 = 12;
/// A bound broken, or the blocks aren't 1 plus G/3 rounded up; 0.
pub const BOUND_BROKEN: u32 = 13;
/// A coefficient beyond 2^40 either way; the lowest granule.
pub const COEFFICIENT: u32 = 14;
/// Weight above 2^40 or above H; the lowest granule.
pub const WEIGHT: u32 = 15;
/// At a join, the sums differ by over 1024 units; the later granule.
pub const JOIN: u32 = 16;
/// Two tables to be compared "where S, H or G differ"; 0.
pub const TABLES_APART: u32 = 20;

impl Refusal {
    pub fn new(number: u32, place: u64) -> Refusal {
        Refusal { number, place }
    }
}
