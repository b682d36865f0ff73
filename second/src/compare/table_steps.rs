//! The comparisons of the one step over the table, forward and back: ticks
//! converted from TT to TDB and from TDB to TT.

use super::interface::{Asked, Lent};
use super::stage::Stage;
use super::trial::Trial;
use crate::dates::Reading;
use crate::ephemeris::tdb_from_tt;
use crate::generate::{Random, edge_ticks, random_tick, tdb_ticks, tt_ticks};
use crate::scales::Scale;
use crate::table::Table;

/// "0 is read as TT."
const TT: [u32; 2] = [0, 3];
const TDB: u32 = 5;
/// A table of more granules is a large one.
const LARGE: u32 = 60;

pub fn tt_to_tdb(stage: &Stage, trial: &mut Trial) -> Result<(), String> {
    step(stage, trial, Scale::Tt)
}

pub fn tdb_to_tt(stage: &Stage, trial: &mut Trial) -> Result<(), String> {
    step(stage, trial, Scale::Tdb)
}

/// Many ticks on one table after the other: a table that stays the same is not
/// sent again.
fn step(stage: &Stage, trial: &mut Trial, leaves: Scale) -> Result<(), String> {
    let mut random = Random::new(stage.seed ^ 0x57e9);
    let inside = stage.size.conversions / 6;
    for staged in &stage.staged {
        let ticks = match &staged.judged {
            Ok(table) if table == &stage.accepted[0] => {
                // The real table is drawn from more often than the others.
                let rounds = 1 + stage.size.tables / 40;
                ticks_over(&mut random, table, leaves, (rounds, inside))
            }
            Ok(table) => {
                let mut ticks = ticks_over(&mut random, table, leaves, (1, inside));
                // A large table is judged slowly, so it is asked about less.
                ticks.retain(|_| table.count <= LARGE || random.one_in(6));
                ticks
            }
            // The table is told first, whatever the tick.
            Err(_) => (0..3).map(|_| random.pick(&staged.ticks)).collect(),
        };
        for tick in ticks {
            let tt = random.pick(&TT);
            let (from, to) = match leaves {
                Scale::Tdb => (TDB, tt),
                _ => (tt, TDB),
            };
            let reading = Reading::Ticks(tick);
            let asked = Asked::Convert { from, to, reading };
            trial.ask(asked, Lent::table(&staged.bytes))?;
        }
    }
    Ok(())
}

/// The table's own ticks in the scale that the step leaves, so many of them
/// anywhere inside, and some of all.
fn ticks_over(
    random: &mut Random,
    table: &Table,
    leaves: Scale,
    (rounds, inside): (usize, usize),
) -> Vec<i64> {
    let (first, last) = (table.first_tick(), table.last_tick());
    let tt: Vec<i64> = (0..rounds).flat_map(|_| tt_ticks(random, table)).collect();
    let others = (0..rounds * inside).map(|_| random.between(first, last));
    let mut ticks: Vec<i64> = match leaves {
        Scale::Tdb => others.filter_map(|tt| tdb_from_tt(table, tt)).collect(),
        _ => others.collect(),
    };
    ticks.extend(match leaves {
        Scale::Tdb => tdb_ticks(table, &tt),
        _ => tt,
    });
    let edges = edge_ticks();
    ticks.extend((0..5).map(|_| random.pick(&edges)));
    ticks.extend((0..3).map(|_| random_tick(random)));
    ticks.extend([i64::MIN, i64::MAX]);
    ticks.sort();
    ticks.dedup();
    ticks
}
