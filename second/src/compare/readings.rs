//! The comparisons of readings by themselves: dates and seconds converted from
//! a scale to itself, so that the reading alone decides.

use super::interface::{Asked, Lent};
use super::stage::Stage;
use super::trial::Trial;
use crate::dates::Reading;
use crate::generate::{Random, read_dates, read_seconds, splits};

/// A reading needs no table and is soon answered, so there are more of them.
fn how_many(stage: &Stage) -> usize {
    3 * stage.size.readings()
}

/// No step is walked, so no table is looked at.
fn reading_alone(random: &mut Random, reading: Reading) -> Asked {
    let code = random.index(7) as u32;
    let (from, to) = random.pick(&[(code, code), (3, 3), (0, 3), (3, 0)]);
    Asked::Convert { from, to, reading }
}

fn read(
    stage: &Stage,
    trial: &mut Trial,
    random: &mut Random,
    reading: Reading,
) -> Result<(), String> {
    let asked = reading_alone(random, reading);
    let lent = Lent::table(stage.any_table(random));
    trial.ask(asked, lent)
}

pub fn read_date(stage: &Stage, trial: &mut Trial) -> Result<(), String> {
    let mut random = Random::new(stage.seed ^ 0x4ead);
    for (first, second) in read_dates(&mut random, how_many(stage)) {
        read(stage, trial, &mut random, Reading::TwoPart(first, second))?;
    }
    Ok(())
}

pub fn read_j2000(stage: &Stage, trial: &mut Trial) -> Result<(), String> {
    let mut random = Random::new(stage.seed ^ 0x5ec0);
    for seconds in read_seconds(&mut random, how_many(stage)) {
        read(stage, trial, &mut random, Reading::SinceJ2000(seconds))?;
    }
    Ok(())
}

/// There are millions of them, so some hundred are asked at a time.
pub fn read_splits(stage: &Stage, trial: &mut Trial) -> Result<(), String> {
    let mut random = Random::new(stage.seed ^ 0x5b11);
    while trial.ledger.cases < stage.size.splits {
        let two = |_| {
            let dates = splits(&mut random).map(|(first, second)| Reading::TwoPart(first, second));
            dates.map(|reading| reading_alone(&mut random, reading))
        };
        let asked: Vec<Asked> = (0..100).flat_map(two).collect();
        trial.ask_all(&asked, Lent::table(stage.any_table(&mut random)))?;
    }
    Ok(())
}
