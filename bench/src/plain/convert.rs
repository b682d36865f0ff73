//! A conversion along any path: its codes, its table if it crosses, its reading, its walk, in the
//! rule book's order.

use super::Refusal;
use super::dates::read;
use super::judge::judge;
use super::scales::{gps_to_tai, tai_to_tt, tcb_to_tdb, tcg_to_tt, tdb_to_tcb, tt_to_tcg, valid};
use super::table::Table;
use super::utc::Leaps;

const GPS: u32 = 1;
const TAI: u32 = 2;
const TT: u32 = 3;
const TCG: u32 = 4;
const TDB: u32 = 5;
const TCB: u32 = 6;
const UTC: u32 = 7;

/// From a scale to a scale.
#[derive(Clone, Copy)]
pub struct Path {
    from: u32,
    to: u32,
}

fn scale(code: u32, place: u64) -> Result<u32, Refusal> {
    match code {
        0 => Ok(TT),
        1..=6 => Ok(code),
        _ => Err(Refusal::new(1, place)),
    }
}

/// UTC is read as a tick of TAI, and written from one.
fn utc(code: u32, place: u64) -> Result<u32, Refusal> {
    match code {
        UTC => Ok(TAI),
        _ => Err(Refusal::new(1, place)),
    }
}

impl Path {
    pub fn new(from: u32, to: u32) -> Result<Path, Refusal> {
        Ok(Path {
            from: scale(from, 0)?,
            to: scale(to, 1)?,
        })
    }

    pub fn crosses(self) -> bool {
        (self.from >= TDB) != (self.to >= TDB)
    }

    /// The table of the bytes, if it crosses.
    pub fn table(self, bytes: &[u8]) -> Result<Option<Table>, Refusal> {
        match self.crosses() {
            true => Ok(Some(judge(bytes)?)),
            false => Ok(None),
        }
    }

    /// The next step: where it leads, in how many ticks; none outside the table.
    fn step(self, tick: i64, table: Option<&Table>) -> Option<(u32, i64)> {
        Some(match (self.from, self.to) {
            (GPS, _) => (TAI, gps_to_tai(tick)),
            (TAI, GPS) => (GPS, tick - gps_to_tai(0)),
            (TAI, _) => (TT, tai_to_tt(tick)),
            (TT, GPS | TAI) => (TAI, tick - tai_to_tt(0)),
            (TT, TCG) => (TCG, tt_to_tcg(tick)),
            (TT, _) if !table?.covers(tick) => return None,
            (TT, _) => (TDB, table?.tdb(tick)),
            (TCG, _) => (TT, tcg_to_tt(tick)),
            (TDB, TCB) => (TCB, tdb_to_tcb(tick)),
            (TDB, _) => (TT, table?.earliest(tick)?),
            _ => (TDB, tcb_to_tdb(tick)),
        })
    }

    /// The tick and the steps from a tick on.
    #[inline(always)]
    pub fn walk(mut self, mut tick: i64, table: Option<&Table>) -> Result<(i64, u32), Refusal> {
        let mut steps = 0;
        while self.from != self.to {
            let step = self.step(tick, table);
            (self.from, tick) = step.ok_or(Refusal::new(6, steps.into()))?;
            steps += 1;
            if !valid(tick) {
                return Err(Refusal::new(4, steps.into()));
            }
        }
        Ok((tick, steps))
    }
}

#[inline(never)]
pub fn convert_ticks(from: u32, to: u32, tick: i64, bytes: &[u8]) -> Result<(i64, u32), Refusal> {
    let path = Path::new(from, to)?;
    let table = path.table(bytes)?;
    if !valid(tick) {
        return Err(Refusal::new(4, 0));
    }
    path.walk(tick, table.as_ref())
}

#[inline(never)]
pub fn convert_date(
    from: u32,
    to: u32,
    first: f64,
    second: f64,
    bytes: &[u8],
) -> Result<(i64, u32), Refusal> {
    let path = Path::new(from, to)?;
    let table = path.table(bytes)?;
    path.walk(read(first, second)?, table.as_ref())
}

#[inline(never)]
pub fn convert_utc(
    from: u32,
    to: u32,
    day: i64,
    ticks: i64,
    leaps: &[i64],
    bytes: &[u8],
) -> Result<(i64, u32), Refusal> {
    let path = Path {
        from: utc(from, 0)?,
        to: scale(to, 1)?,
    };
    let leaps = Leaps::judge(leaps)?;
    let table = path.table(bytes)?;
    path.walk(leaps.read(day, ticks)?, table.as_ref())
}

/// Its day, its ticks and the steps.
#[inline(never)]
pub fn write_utc(
    from: u32,
    to: u32,
    tick: i64,
    leaps: &[i64],
    bytes: &[u8],
) -> Result<(i64, i64, u32), Refusal> {
    let path = Path {
        from: scale(from, 0)?,
        to: utc(to, 1)?,
    };
    let leaps = Leaps::judge(leaps)?;
    let table = path.table(bytes)?;
    if !valid(tick) {
        return Err(Refusal::new(4, 0));
    }
    let (tai, steps) = path.walk(tick, table.as_ref())?;
    let (day, ticks) = leaps.write(tai)?;
    Ok((day, ticks, steps))
}
