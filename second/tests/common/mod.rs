//! Small tables, and a refusal of writing and judging at once.

#[path = "../small_tables/mod.rs"]
mod small_tables;

use second::blocks::{self, BLOCK, image, judge};
use second::refusal::Refusal;
use second::table::Table;
pub use small_tables::{flat, table};

pub fn refused<T>(number: u32, place: u64) -> Result<T, Refusal> {
    Err(Refusal::new(number, place))
}

/// Writing and reading judge a table's own numbers alike.
#[track_caller]
pub fn both_refuse(table: &Table, number: u32, place: u64) {
    let size = blocks::blocks_needed(table.count) as usize * BLOCK;
    assert_eq!(blocks::write(table, size), refused(number, place));
    assert_eq!(judge(&image(table)), refused(number, place));
}
