//! Conversions, written UTC and batches, in the order of 01's last paragraphs on
//! refusals and of request 2026-01.

use crate::dates::Reading;
use crate::ephemeris::{tdb_from_tt, tt_from_tdb};
use crate::refusal::{self, Refusal};
use crate::scales::{
    Scale, crosses_table, is_valid_epoch, linear_step, path_between, scale_of_code,
    scale_of_utc_code,
};
use crate::table::{Judged, Table};
use crate::utc::{Leaps, Utc};

/// "Its answer carries the tick and the number of steps walked (0 to 4)."
#[derive(Clone, Copy, Debug, PartialEq, Eq)]
pub struct Converted {
    pub tick: i64,
    pub steps: u32,
}

/// "A path that doesn't cross never looks at the table".
fn table_for<'a>(path: &[Scale], table: &'a Judged) -> Result<Option<&'a Table>, Refusal> {
    match table {
        _ if !crosses_table(path) => Ok(None),
        Ok(table) => Ok(Some(table)),
        Err(refusal) => Err(*refusal),
    }
}

/// One step; None is refusal 6, which only the table can give.
fn step(from: Scale, to: Scale, tick: i64, table: Option<&Table>) -> Option<i64> {
    let table = || table.expect("a path that crosses has its table");
    match (from, to) {
        (Scale::Tt, Scale::Tdb) => tdb_from_tt(table(), tick),
        (Scale::Tdb, Scale::Tt) => tt_from_tdb(table(), tick),
        _ => Some(linear_step(from, to, tick)),
    }
}

/// "then step by step, 6 before 4". The place of 6 is the steps done before;
/// that of 4 counts the step that led outside.
fn walk(path: &[Scale], epoch: i64, table: Option<&Table>) -> Result<Converted, Refusal> {
    let mut answer = Converted {
        tick: epoch,
        steps: 0,
    };
    for pair in path.windows(2) {
        let done = u64::from(answer.steps);
        let tick = step(pair[0], pair[1], answer.tick, table)
            .ok_or(Refusal::new(refusal::OUTSIDE_TABLE, done))?;
        if !is_valid_epoch(i128::from(tick)) {
            return Err(Refusal::new(refusal::OUTSIDE_RANGE, done + 1));
        }
        answer = Converted {
            tick,
            steps: answer.steps + 1,
        };
    }
    Ok(answer)
}

/// "Order: 1 (from, then to), 8, then the table 10 to 16 if the path crosses TT
/// to TDB, [...] then 2 over both parts, 3 over both parts [...], 4, then step
/// by step". The list of TAI−UTC is judged, "7 [...] after 8 and before 10", for
/// a UTC reading alone: "nor any path at a lent list it has no use for". Its 5
/// comes "after 3". An answer that is a tick has no code 7.
pub fn convert(
    from: u32,
    to: u32,
    reading: Reading,
    leaps: &[i64],
    table: &Judged,
) -> Result<Converted, Refusal> {
    let path = path_between(reading.scale_of_code(from), scale_of_code(to))?;
    let leaps = match reading {
        Reading::Utc(_) => Some(Leaps::judge(leaps)?),
        _ => None,
    };
    let table = table_for(&path, table)?;
    walk(&path, reading.epoch(leaps.as_ref())?, table)
}

/// A conversion that answers a written UTC. "Reading or writing UTC counts no
/// step."
#[derive(Clone, Copy, Debug, PartialEq, Eq)]
pub struct Written {
    pub utc: Utc,
    pub steps: u32,
}

/// The same order, and 5 for "a written one after the steps". This answer has no
/// other code than 7; 7 to 7 is a UTC reading written again, "over one list".
pub fn write_utc(
    from: u32,
    to: u32,
    reading: Reading,
    leaps: &[i64],
    table: &Judged,
) -> Result<Written, Refusal> {
    let path = path_between(reading.scale_of_code(from), scale_of_utc_code(to))?;
    let leaps = Leaps::judge(leaps)?;
    let table = table_for(&path, table)?;
    let Converted { tick, steps } = walk(&path, reading.epoch(Some(&leaps))?, table)?;
    let utc = leaps.write(tick)?;
    Ok(Written { utc, steps })
}

/// An accepted batch: the second list, and the path's steps.
#[derive(Clone, Debug, PartialEq, Eq)]
pub struct Batch {
    pub ticks: Vec<i64>,
    pub steps: u32,
}

/// "the earliest refusal is the batch's, with its index"
#[derive(Clone, Copy, Debug, PartialEq, Eq)]
pub struct BatchRefusal {
    pub refusal: Refusal,
    pub index: u64,
}

/// "for 1, 8 and the table's numbers the index is 0"
impl From<Refusal> for BatchRefusal {
    fn from(refusal: Refusal) -> BatchRefusal {
        BatchRefusal { refusal, index: 0 }
    }
}

/// "A batch converts a list of ticks into a second list of equal length. All
/// are tried first"; "An empty batch still gets checks 1, 8 and the table." "Code
/// 7 in a batch [...] is still 1".
pub fn batch(
    from: u32,
    to: u32,
    ticks: &[i64],
    answers_length: usize,
    table: &Judged,
) -> Result<Batch, BatchRefusal> {
    let path = path_between(scale_of_code(from), scale_of_code(to))?;
    if ticks.len() != answers_length {
        return Err(Refusal::new(refusal::LENT_LENGTHS, 0).into());
    }
    let table = table_for(&path, table)?;
    let mut answers = Vec::new();
    for (index, tick) in ticks.iter().enumerate() {
        let converted = Reading::Ticks(*tick)
            .epoch(None)
            .and_then(|epoch| walk(&path, epoch, table));
        answers.push(converted.map_err(|refusal| BatchRefusal {
            refusal,
            index: index as u64,
        })?);
    }
    Ok(Batch {
        ticks: answers.iter().map(|answer| answer.tick).collect(),
        steps: path.len() as u32 - 1,
    })
}
