//! An independent second program for Colliedash, the timing desk: every rule of
//! documents 01 and 02 in one place, in their words. It judges the proved library.

pub mod blocks;
pub mod bridge;
pub mod changes;
pub mod compare;
pub mod dates;
pub mod desk;
pub mod ephemeris;
pub mod exact;
pub mod fuzz;
pub mod generate;
pub mod granule;
pub mod line;
pub mod refusal;
pub mod scales;
pub mod table;
pub mod utc;
pub mod values;
