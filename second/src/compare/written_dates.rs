//! The comparison of writing a tick as a date.

use super::interface::{Asked, Lent};
use super::stage::Stage;
use super::trial::Trial;
use crate::dates;
use crate::generate::{Random, edge_ticks, random_tick};

pub fn write_date(stage: &Stage, trial: &mut Trial) -> Result<(), String> {
    let mut random = Random::new(stage.seed ^ 0xda7e);
    let mut ticks = edge_ticks();
    ticks.extend(day_ends(&mut random));
    ticks.extend((0..stage.size.readings()).map(|_| random_tick(&mut random)));
    for tick in ticks {
        trial.ask(Asked::WriteDate { tick }, Lent::default())?;
    }
    Ok(())
}

/// Ticks on both sides of a Julian date ending in .5.
fn day_ends(random: &mut Random) -> Vec<i64> {
    let first = -32_184_000_000;
    let day = dates::DAY as i64;
    (0..200)
        .map(|_| first + random.between(-69_000, 69_000) * day)
        .flat_map(|end| [end - 1, end, end + 1])
        .collect()
}
