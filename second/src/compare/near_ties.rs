//! The comparisons of the drifting linear steps where the exact value is a half
//! of a tick or nearly one: by single conversions, and in batches.

use super::buffers::blank_ticks;
use super::interface::{Asked, Lent};
use super::stage::Stage;
use super::trial::Trial;
use crate::dates::Reading;
use crate::generate::{Random, ticks_around_ties};
use crate::scales::{DRIFTING_STEPS, Scale, is_valid_epoch, linear_step};

/// So many ticks are asked at a time, or stand in one batch.
const TOGETHER: usize = 100;

/// "0 is read as TT."
fn code(random: &mut Random, scale: Scale) -> u32 {
    match scale {
        Scale::Gps => 1,
        Scale::Tai => 2,
        Scale::Tt => random.pick(&[0, 3]),
        Scale::Tcg => 4,
        Scale::Tdb => 5,
        Scale::Tcb => 6,
    }
}

pub fn convert_ticks(stage: &Stage, trial: &mut Trial) -> Result<(), String> {
    let mut random = Random::new(stage.seed ^ 0x7135);
    for (from, to) in DRIFTING_STEPS {
        for ticks in ticks_around_ties(from, to).chunks(TOGETHER) {
            let convert = |tick: &i64| Asked::Convert {
                from: code(&mut random, from),
                to: code(&mut random, to),
                reading: Reading::Ticks(*tick),
            };
            let asked: Vec<Asked> = ticks.iter().map(convert).collect();
            trial.ask_all(&asked, Lent::table(stage.any_table(&mut random)))?;
        }
    }
    Ok(())
}

/// Of those ticks that the step accepts, since one that it refuses refuses all.
pub fn batch(stage: &Stage, trial: &mut Trial) -> Result<(), String> {
    let mut random = Random::new(stage.seed ^ 0x7136);
    for (from, to) in DRIFTING_STEPS {
        let is_valid = |tick: i64| is_valid_epoch(i128::from(tick));
        let mut ticks = ticks_around_ties(from, to);
        ticks.retain(|tick| is_valid(*tick) && is_valid(linear_step(from, to, *tick)));
        for ticks in ticks.chunks(TOGETHER) {
            let asked = Asked::Batch {
                from: code(&mut random, from),
                to: code(&mut random, to),
            };
            let lent = Lent {
                list: ticks,
                buffer: blank_ticks(ticks.len()),
                ..Lent::table(stage.any_table(&mut random))
            };
            trial.ask(asked, lent)?;
        }
    }
    Ok(())
}
