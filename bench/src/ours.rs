//! The library's functions, as `include/colliedash.h` declares them.

#[repr(C)]
#[derive(Clone, Copy, Debug, PartialEq)]
pub struct Answer {
    pub number: u32,
    pub steps: u32,
    pub place: u64,
    pub index: u64,
    pub tick: i64,
}

#[repr(C)]
#[derive(Clone, Copy, Debug, PartialEq)]
pub struct Date {
    pub number: u32,
    pub place: u64,
    pub first: f64,
    pub second: f64,
}

#[repr(C)]
#[derive(Clone, Copy, Debug, PartialEq)]
pub struct Utc {
    pub number: u32,
    pub steps: u32,
    pub place: u64,
    pub day: i64,
    pub ticks: i64,
}

#[repr(C)]
#[derive(Clone, Copy, Debug, PartialEq)]
pub struct Table {
    pub number: u32,
    pub count: u32,
    pub degree: u32,
    pub place: u64,
    pub start: i64,
    pub length: i64,
}

#[repr(C)]
#[derive(Clone, Copy, Debug, PartialEq)]
pub struct Changes {
    pub number: u32,
    pub which: u32,
    pub place: u64,
    pub entries: u64,
}

mod archive {
    use super::{Answer, Changes, Date, Table, Utc};

    unsafe extern "C" {
        pub fn colliedash_judge(table: *const u8, table_len: usize) -> Table;
        pub fn colliedash_write_table(
            start: i64,
            length: i64,
            count: u32,
            degree: u32,
            coefficients: *const i64,
            coefficients_len: usize,
            image: *mut u8,
            image_len: usize,
        ) -> Answer;
        pub safe fn colliedash_write_date(tick: i64) -> Date;
        pub fn colliedash_convert_ticks(
            from: u32,
            to: u32,
            tick: i64,
            table: *const u8,
            table_len: usize,
        ) -> Answer;
        pub fn colliedash_convert_date(
            from: u32,
            to: u32,
            first: f64,
            second: f64,
            table: *const u8,
            table_len: usize,
        ) -> Answer;
        pub fn colliedash_convert_utc(
            from: u32,
            to: u32,
            day: i64,
            ticks: i64,
            leaps: *const i64,
            leaps_len: usize,
            table: *const u8,
            table_len: usize,
        ) -> Answer;
        pub fn colliedash_write_utc(
            from: u32,
            to: u32,
            tick: i64,
            leaps: *const i64,
            leaps_len: usize,
            table: *const u8,
            table_len: usize,
        ) -> Utc;
        pub fn colliedash_batch(
            from: u32,
            to: u32,
            ticks: *const i64,
            ticks_len: usize,
            answers: *mut i64,
            answers_len: usize,
            table: *const u8,
            table_len: usize,
        ) -> Answer;
        pub fn colliedash_compare_tables(
            first: *const u8,
            first_len: usize,
            second: *const u8,
            second_len: usize,
            entries: *mut i64,
            entries_len: usize,
        ) -> Changes;
    }
}

pub use archive::colliedash_write_date as write_date;

// Each function below lends what its slices are: the pointer and the length of one slice always go
// together.

pub fn judge(table: &[u8]) -> Table {
    unsafe { archive::colliedash_judge(table.as_ptr(), table.len()) }
}

/// The image of a table's first granules, with the numbers of the table itself.
pub fn write_table(table: Table, coefficients: &[i64]) -> Vec<u8> {
    let mut image = vec![0; 512 * (1 + (table.count as usize).div_ceil(3))];
    let answer = unsafe {
        archive::colliedash_write_table(
            table.start,
            table.length,
            table.count,
            table.degree,
            coefficients.as_ptr(),
            coefficients.len(),
            image.as_mut_ptr(),
            image.len(),
        )
    };
    assert_eq!(answer.number, 0);
    image
}

pub fn convert_ticks(from: u32, to: u32, tick: i64, table: &[u8]) -> Answer {
    unsafe { archive::colliedash_convert_ticks(from, to, tick, table.as_ptr(), table.len()) }
}

/// A date, along a path that looks at no table.
pub fn convert_date(from: u32, to: u32, first: f64, second: f64) -> Answer {
    unsafe { archive::colliedash_convert_date(from, to, first, second, std::ptr::null(), 0) }
}

/// A UTC reading, along a path that looks at no table.
pub fn convert_utc(from: u32, to: u32, day: i64, ticks: i64, leaps: &[i64]) -> Answer {
    let (list, many) = (leaps.as_ptr(), leaps.len());
    unsafe {
        archive::colliedash_convert_utc(from, to, day, ticks, list, many, std::ptr::null(), 0)
    }
}

/// A tick written as UTC, along such a path.
pub fn write_utc(from: u32, to: u32, tick: i64, leaps: &[i64]) -> Utc {
    let (list, many) = (leaps.as_ptr(), leaps.len());
    unsafe { archive::colliedash_write_utc(from, to, tick, list, many, std::ptr::null(), 0) }
}

pub fn batch(from: u32, to: u32, ticks: &[i64], answers: &mut [i64], table: &[u8]) -> Answer {
    unsafe {
        archive::colliedash_batch(
            from,
            to,
            ticks.as_ptr(),
            ticks.len(),
            answers.as_mut_ptr(),
            answers.len(),
            table.as_ptr(),
            table.len(),
        )
    }
}

pub fn compare_tables(first: &[u8], second: &[u8], entries: &mut [i64]) -> Changes {
    unsafe {
        archive::colliedash_compare_tables(
            first.as_ptr(),
            first.len(),
            second.as_ptr(),
            second.len(),
            entries.as_mut_ptr(),
            entries.len(),
        )
    }
}
