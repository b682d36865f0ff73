//! The functions of `plain.c`.

use crate::plain;

#[repr(C)]
#[derive(Clone, Copy, Debug, PartialEq)]
pub struct Refusal {
    pub number: u32,
    pub place: u64,
    pub index: u64,
}

#[repr(C)]
pub struct Table {
    start: i64,
    length: i64,
    count: u32,
    degree: u32,
    coefficients: *const i64,
}

pub type Batch = unsafe extern "C" fn(*const i64, usize, *mut i64, *const Table) -> Refusal;

macro_rules! batches {
    ($($name:ident)*) => {
        unsafe extern "C" {
            $(pub fn $name(
                ticks: *const i64,
                length: usize,
                answers: *mut i64,
                table: *const Table,
            ) -> Refusal;)*
        }
    };
}
batches! {
    plain_tcg_to_tt plain_tt_to_tcg plain_tcb_to_tdb plain_tdb_to_tcb
    plain_tt_to_tdb plain_tdb_to_tt plain_gps_to_tcb
}

unsafe extern "C" {
    pub safe fn plain_write_date(tick: i64) -> crate::ours::Date;
}

/// Two lists of one length, and the table as C has it.
pub fn batch(
    name: Batch,
    ticks: &[i64],
    answers: &mut [i64],
    table: &plain::table::Table,
) -> Refusal {
    assert_eq!(ticks.len(), answers.len());
    let table = Table {
        start: table.start,
        length: table.length,
        count: table.count,
        degree: table.degree,
        coefficients: table.coefficients.as_ptr(),
    };
    unsafe { name(ticks.as_ptr(), ticks.len(), answers.as_mut_ptr(), &table) }
}
