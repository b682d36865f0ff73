//! The comparisons of single conversions: ticks, dates and seconds, over every
//! pair of codes and every kind of table.

use super::interface::{Asked, Lent};
use super::stage::{Stage, Staged, codes_in_turn};
use super::trial::Trial;
use crate::dates::Reading;
use crate::generate::{Random, date_pairs, seconds_past_j2000};

/// Asks about the readings that suit each table, the table staying the same.
fn convert(
    stage: &Stage,
    trial: &mut Trial,
    mut random: Random,
    readings: impl Fn(&mut Random, &Staged) -> Vec<Reading>,
) -> Result<(), String> {
    for staged in &stage.staged {
        for reading in readings(&mut random, staged) {
            let (from, to) = codes_in_turn(&mut random, trial.ledger.cases);
            let asked = Asked::Convert { from, to, reading };
            trial.ask(asked, Lent::table(&staged.bytes))?;
        }
    }
    Ok(())
}

pub fn convert_ticks(stage: &Stage, trial: &mut Trial) -> Result<(), String> {
    let random = Random::new(stage.seed ^ 0x71c5);
    convert(stage, trial, random, |random, staged| {
        (0..stage.size.conversions)
            .map(|_| Reading::Ticks(random.pick(&staged.ticks)))
            .collect()
    })
}

pub fn convert_date(stage: &Stage, trial: &mut Trial) -> Result<(), String> {
    let random = Random::new(stage.seed ^ 0xda7e5);
    convert(stage, trial, random, |random, staged| {
        date_pairs(random, &staged.ticks, stage.size.conversions)
            .into_iter()
            .map(|(first, second)| Reading::TwoPart(first, second))
            .collect()
    })
}

pub fn convert_j2000(stage: &Stage, trial: &mut Trial) -> Result<(), String> {
    let random = Random::new(stage.seed ^ 0x2000);
    convert(stage, trial, random, |random, staged| {
        seconds_past_j2000(random, &staged.ticks, stage.size.conversions)
            .into_iter()
            .map(Reading::SinceJ2000)
            .collect()
    })
}
