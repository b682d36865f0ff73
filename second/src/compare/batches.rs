//! The comparison of batches: short ones over every pair of codes and every
//! kind of table, one of every length up to some hundreds, and large ones.

use super::buffers::blank_ticks;
use super::interface::{Asked, Lent};
use super::stage::{Stage, Staged, codes_in_turn};
use super::trial::Trial;
use crate::dates::Reading;
use crate::desk;
use crate::generate::Random;

/// Where a batch is refused, but for what refuses it as a whole.
#[derive(Clone, Copy)]
enum RefusedAt {
    Nowhere,
    First,
    Middle,
    Last,
    /// The earliest of these is told.
    Several,
}

use RefusedAt::{First, Last, Middle, Nowhere, Several};

const ANY: [RefusedAt; 8] = [
    Nowhere, Nowhere, Nowhere, Nowhere, First, Middle, Last, Several,
];
/// Those in which many entries are accepted before.
const LATE: [RefusedAt; 4] = [Nowhere, Middle, Last, Several];
/// Over the table both ways, by itself and among linear steps, and beside it.
const LARGE_CODES: [(u32, u32); 6] = [(3, 5), (5, 0), (1, 6), (6, 4), (2, 4), (4, 4)];

pub fn batch(stage: &Stage, trial: &mut Trial) -> Result<(), String> {
    let mut random = Random::new(stage.seed ^ 0xba7c);
    for staged in &stage.staged {
        for _ in 0..stage.size.conversions / 2 {
            let codes = codes_in_turn(&mut random, trial.ledger.cases);
            let length = random.pick(&[0, 1, 2, 3, 10, 30]);
            let at = random.pick(&ANY);
            let ticks = ticks(&mut random, staged, codes, (length, at));
            let answers = match random.index(16) {
                0 => length + 1,
                1 => length.saturating_sub(1),
                2 => 0,
                3 => 2 * length,
                _ => length,
            };
            ask(trial, staged, codes, &ticks, answers)?;
        }
    }
    every_length(stage, trial, &mut random)?;
    large(stage, trial, &mut random)
}

fn over_accepted_tables(stage: &Stage) -> impl Iterator<Item = &Staged> {
    stage.staged.iter().filter(|staged| staged.judged.is_ok())
}

/// Three lengths for each accepted table, from 0 on.
fn every_length(stage: &Stage, trial: &mut Trial, random: &mut Random) -> Result<(), String> {
    for (i, staged) in over_accepted_tables(stage).enumerate() {
        for length in 3 * i..3 * i + 3 {
            let codes = codes_in_turn(random, trial.ledger.cases);
            let at = random.pick(&LATE);
            let ticks = ticks(random, staged, codes, (length, at));
            ask(trial, staged, codes, &ticks, length)?;
        }
    }
    Ok(())
}

/// Up to some thousands, on the real table and a few others.
fn large(stage: &Stage, trial: &mut Trial, random: &mut Random) -> Result<(), String> {
    for staged in over_accepted_tables(stage).step_by(16) {
        for codes in LARGE_CODES {
            for at in LATE {
                let length = stage.size.conversions * random.between(5, 30) as usize;
                let ticks = ticks(random, staged, codes, (length, at));
                ask(trial, staged, codes, &ticks, length)?;
            }
            let ticks = ticks(
                random,
                staged,
                codes,
                (stage.size.conversions * 20, Nowhere),
            );
            ask(trial, staged, codes, &ticks, ticks.len() - 1)?;
        }
    }
    Ok(())
}

fn ask(
    trial: &mut Trial,
    staged: &Staged,
    (from, to): (u32, u32),
    ticks: &[i64],
    answers: usize,
) -> Result<(), String> {
    let lent = Lent {
        list: ticks,
        buffer: blank_ticks(answers),
        ..Lent::table(&staged.bytes)
    };
    trial.ask(Asked::Batch { from, to }, lent)
}

/// Ticks that the path accepts, where it accepts any, and others at the places
/// asked.
fn ticks(
    random: &mut Random,
    staged: &Staged,
    (from, to): (u32, u32),
    (length, at): (usize, RefusedAt),
) -> Vec<i64> {
    let is_accepted = |tick: &i64| {
        let reading = Reading::Ticks(*tick);
        desk::convert(from, to, reading, &[], &staged.judged).is_ok()
    };
    let (accepted, mut refused): (Vec<i64>, Vec<i64>) = (0..length.clamp(8, 64))
        .map(|_| random.pick(&staged.ticks))
        .partition(is_accepted);
    // No epoch at all, so that there is one to be refused.
    refused.push(i64::MAX);
    let most = match accepted[..] {
        [] => &staged.ticks,
        _ => &accepted,
    };
    let mut ticks: Vec<i64> = (0..length).map(|_| random.pick(most)).collect();
    for place in places(random, length, at) {
        ticks[place] = random.pick(&refused);
    }
    ticks
}

fn places(random: &mut Random, length: usize, at: RefusedAt) -> Vec<usize> {
    match at {
        _ if length == 0 => vec![],
        Nowhere => vec![],
        First => vec![0],
        Middle => vec![length / 2],
        Last => vec![length - 1],
        Several => (0..5).map(|_| random.index(length)).collect(),
    }
}
