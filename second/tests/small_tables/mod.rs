//! Small tables.

use second::table::Table;

pub fn table(degree: u32, length: i64, granules: &[&[i64]]) -> Table {
    Table {
        start: 0,
        length,
        count: granules.len() as u32,
        degree,
        coefficients: granules.concat(),
    }
}

/// A table of zeros.
pub fn flat(degree: u32, count: u32) -> Table {
    Table {
        start: 0,
        length: 1_000_000_000,
        count,
        degree,
        coefficients: vec![0; count as usize * (degree as usize + 1)],
    }
}
