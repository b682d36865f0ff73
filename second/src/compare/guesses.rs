//! The comparisons of what a desk may guess before it works it out: the
//! argument u where it is a half of a unit or nearly one, and, on the way back
//! over a table, where a tick lies that is near the one before it.

use super::buffers::blank_ticks;
use super::interface::{Asked, Lent};
use super::stage::{Stage, Staged};
use super::trial::Trial;
use crate::blocks;
use crate::dates::Reading;
use crate::desk;
use crate::generate::Random;
use crate::table::Table;

const TT: u32 = 3;
const TDB: u32 = 5;
/// "u is 2^30·s rounded", so that it has 2^31 units over a granule, and as many
/// halves of one between them.
const UNITS: i128 = 1 << 31;
/// Lengths of which a half of a unit can be a whole number of ticks.
const LENGTHS: [i64; 4] = [1 << 33, 1 << 34, 1 << 41, 1 << 50];
/// How much later than the one before it a tick of a batch can be.
const RISES: [i64; 6] = [1, 3, 100, 5_000, 20_000, 10_000_000];

/// TT to TDB at ticks around halves of a unit of u, over a few tables whose
/// value hangs on u as much as it can, and whose delay changes there.
pub fn halves_of_u(stage: &Stage, trial: &mut Trial) -> Result<(), String> {
    let mut random = Random::new(stage.seed ^ 0x0a1f);
    for length in LENGTHS {
        for _ in 0..1 + stage.size.tables / 20 {
            let table = steep_table(&mut random, length);
            let bytes = blocks::image(&table);
            for _ in 0..stage.size.conversions {
                let half = 2 * i128::from(random.between(0, (UNITS - 1) as i64)) + 1;
                let place = (half * i128::from(length) / (2 * UNITS)) as i64;
                let reading = Reading::Ticks(table.start + place + random.between(-1, 1));
                let (from, to) = (TT, TDB);
                trial.ask(Asked::Convert { from, to, reading }, Lent::table(&bytes))?;
            }
        }
    }
    Ok(())
}

/// One granule in which v rises by a unit, or by nearly one, for each of u.
fn steep_table(random: &mut Random, length: i64) -> Table {
    let slope = random.pick(&[1 << 30, 1 << 29, (1 << 30) - 1]);
    Table {
        start: random.signed(1 << 40),
        length,
        count: 1,
        degree: 1,
        coefficients: vec![random.signed(1 << 31), slope],
    }
}

/// Batches of ticks that rise, by little and by more, over every accepted table
/// and both ways.
pub fn rising(stage: &Stage, trial: &mut Trial) -> Result<(), String> {
    let mut random = Random::new(stage.seed ^ 0x5e9e);
    for staged in stage.staged.iter().filter(|staged| staged.judged.is_ok()) {
        for rise in RISES {
            for codes in [(TT, TDB), (TDB, TT)] {
                let ticks = rising_ticks(&mut random, stage, staged, (codes, rise));
                let lent = Lent {
                    list: &ticks,
                    buffer: blank_ticks(ticks.len()),
                    ..Lent::table(&staged.bytes)
                };
                let (from, to) = codes;
                trial.ask(Asked::Batch { from, to }, lent)?;
            }
        }
    }
    Ok(())
}

/// From one of the table's ticks on, those that the path accepts.
fn rising_ticks(
    random: &mut Random,
    stage: &Stage,
    staged: &Staged,
    ((from, to), rise): ((u32, u32), i64),
) -> Vec<i64> {
    let mut tick = random.pick(&staged.ticks);
    let mut ticks = Vec::new();
    for _ in 0..stage.size.conversions / 2 {
        let reading = Reading::Ticks(tick);
        if desk::convert(from, to, reading, &[], &staged.judged).is_ok() {
            ticks.push(tick);
        }
        tick = tick.saturating_add(random.between(0, rise));
    }
    ticks
}
