//! Batches: "All are tried first; the earliest refusal is the batch's, with its index, and nothing
//! is written".

use super::Refusal;
use super::convert::Path;
use super::scales::{gps_to_tai, tai_to_tt, tdb_to_tcb, valid};
use super::table::Table;

fn of_one_length(ticks: &[i64], answers: &[i64]) -> Result<(), Refusal> {
    if ticks.len() == answers.len() {
        Ok(())
    } else {
        Err(Refusal::new(8, 0))
    }
}

/// Converts every tick, first into a list of our own, so that a refusal finds nothing written.
fn batch(
    ticks: &[i64],
    answers: &mut [i64],
    convert: impl Fn(i64) -> Result<i64, Refusal>,
) -> Result<(), Refusal> {
    of_one_length(ticks, answers)?;
    let mut converted = Vec::with_capacity(ticks.len());
    for (index, &tick) in ticks.iter().enumerate() {
        match convert(tick) {
            Ok(answer) => converted.push(answer),
            Err(refusal) => {
                return Err(Refusal {
                    index: index as u64,
                    ..refusal
                });
            }
        }
    }
    answers.copy_from_slice(&converted);
    Ok(())
}

/// A tick that so many steps have led to.
fn ranged(tick: i64, steps: u64) -> Result<i64, Refusal> {
    if valid(tick) {
        Ok(tick)
    } else {
        Err(Refusal::new(4, steps))
    }
}

/// One linear step.
#[inline(always)]
pub fn linear(
    ticks: &[i64],
    answers: &mut [i64],
    step: impl Fn(i64) -> i64,
) -> Result<(), Refusal> {
    batch(ticks, answers, |tick| ranged(step(ranged(tick, 0)?), 1))
}

fn cross(table: &Table, tt: i64, steps: u64) -> Result<i64, Refusal> {
    if !table.covers(tt) {
        return Err(Refusal::new(6, steps));
    }
    ranged(table.tdb(tt), steps + 1)
}

pub fn tt_to_tdb(ticks: &[i64], answers: &mut [i64], table: &Table) -> Result<(), Refusal> {
    batch(ticks, answers, |tt| cross(table, ranged(tt, 0)?, 0))
}

pub fn tdb_to_tt(ticks: &[i64], answers: &mut [i64], table: &Table) -> Result<(), Refusal> {
    batch(ticks, answers, |tdb| {
        table.earliest(ranged(tdb, 0)?).ok_or(Refusal::new(6, 0))
    })
}

pub fn gps_to_tcb(ticks: &[i64], answers: &mut [i64], table: &Table) -> Result<(), Refusal> {
    batch(ticks, answers, |gps| {
        let tai = ranged(gps_to_tai(ranged(gps, 0)?), 1)?;
        let tt = ranged(tai_to_tt(tai), 2)?;
        let tdb = cross(table, tt, 2)?;
        ranged(tdb_to_tcb(tdb), 4)
    })
}

/// Along any path, over the table that the bytes hold, which is judged in the call.
#[inline(never)]
pub fn over_bytes(
    from: u32,
    to: u32,
    ticks: &[i64],
    answers: &mut [i64],
    bytes: &[u8],
) -> Result<(), Refusal> {
    let path = Path::new(from, to)?;
    of_one_length(ticks, answers)?;
    let table = path.table(bytes)?;
    batch(ticks, answers, |tick| {
        let (tick, _) = path.walk(ranged(tick, 0)?, table.as_ref())?;
        Ok(tick)
    })
}
