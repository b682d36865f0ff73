//! The comparisons of UTC: readings converted and ticks written, over every kind
//! of list, code and table; and both by themselves, where no step is walked.

use super::interface::{Asked, Lent};
use super::stage::{Stage, Staged};
use super::trial::Trial;
use crate::dates::{DAY, Reading};
use crate::desk;
use crate::generate::{
    BrokenLeaps, REAL_LEAPS, Random, accepted_leaps, broken_leaps, random_tick, random_utc,
    tai_edges, utc_edges,
};
use crate::refusal;
use crate::scales::GREATEST_EPOCH;
use crate::utc::{FIRST_DAY, Leaps, Utc};

/// "UTC is code 7"; its path is that of TAI, code 2.
const UTC: u32 = 7;
const TAI: u32 = 2;
/// Codes that are not UTC's, though some end in the same bits.
const NOT_UTC: [u32; 12] = [0, 1, 2, 3, 4, 5, 6, 8, 263, 65_543, (1 << 31) + 7, u32::MAX];
/// Codes that a tick does not have, 7 among them.
const NO_TICK: [u32; 7] = [7, 7, 8, 258, 65_538, 1 << 31, u32::MAX];

/// The codes of a case, UTC's and the other: all of 0 to 6 in turn, then a wrong
/// one in either place or in both.
fn codes_in_turn(random: &mut Random, case: u64) -> (u32, u32) {
    let (not_utc, no_tick) = (random.pick(&NOT_UTC), random.pick(&NO_TICK));
    match case % 17 {
        right @ 0..14 => (UTC, right as u32 % 7),
        14 => (UTC, no_tick),
        15 => (not_utc, random.index(7) as u32),
        _ => (not_utc, no_tick),
    }
}

/// Readings and TAI ticks around the days of a list, and at the range's ends.
struct Edges {
    readings: Vec<Utc>,
    ticks: Vec<i64>,
}

impl Edges {
    fn of(list: &[i64]) -> Edges {
        let (least, most) = (-GREATEST_EPOCH, GREATEST_EPOCH);
        let mut ticks = tai_edges(list);
        ticks.extend([i64::MIN, least - 1, least, most, most + 1, i64::MAX]);
        Edges {
            readings: utc_edges(list),
            ticks,
        }
    }
}

/// A list, with what suits it. Its first day is an end, too, and so is asked
/// about more often than its others.
struct Listed {
    list: Vec<i64>,
    edges: Edges,
    ends: Edges,
}

impl Listed {
    fn new(list: Vec<i64>) -> Listed {
        Listed {
            edges: Edges::of(&list),
            ends: Edges::of(&list[..2]),
            list,
        }
    }

    fn any_reading(&self, random: &mut Random) -> Utc {
        let edge = random.pick(&self.edges.readings);
        match random.index(8) {
            0 => random_utc(random),
            1 => random.pick(&self.ends.readings),
            2 | 3 => Utc {
                ticks: random.between(0, DAY as i64),
                ..edge
            },
            _ => edge,
        }
    }

    fn any_tick(&self, random: &mut Random) -> i64 {
        match random.index(8) {
            0 => random_tick(random),
            1 => random.pick(&self.ends.ticks),
            _ => random.pick(&self.edges.ticks),
        }
    }
}

fn lent<'a>(list: &'a [i64], table: &'a [u8]) -> Lent<'a> {
    Lent {
        list,
        ..Lent::table(table)
    }
}

/// The real list, lists from the first days on, and some that change where the
/// range ends.
fn list_in_turn(random: &mut Random, case: usize) -> Vec<i64> {
    let near = random.pick(&[FIRST_DAY, 41_400, 43_144, 60_000, 112_588]);
    match case {
        0 => REAL_LEAPS.to_vec(),
        _ => accepted_leaps(random, near),
    }
}

/// Many calls over each accepted list, and one over each broken from it.
fn over_lists(
    stage: &Stage,
    random: &mut Random,
    mut ask: impl FnMut(&mut Random, &Listed, &[i64]) -> Result<(), String>,
) -> Result<(), String> {
    for case in 0..stage.size.tables {
        let listed = Listed::new(list_in_turn(random, case));
        for _ in 0..stage.size.conversions {
            ask(random, &listed, &listed.list)?;
        }
        for broken in broken_leaps(random, &listed.list) {
            ask(random, &listed, &broken.list)?;
        }
    }
    Ok(())
}

/// From UTC to TAI: no step is walked, and no table looked at.
pub fn read_utc(stage: &Stage, trial: &mut Trial) -> Result<(), String> {
    let mut random = Random::new(stage.seed ^ 0x4e07c);
    over_lists(stage, &mut random, |random, listed, list| {
        let asked = Asked::Convert {
            from: UTC,
            to: TAI,
            reading: Reading::Utc(listed.any_reading(random)),
        };
        trial.ask(asked, lent(list, stage.any_table(random)))
    })
}

/// From TAI to UTC.
pub fn write_tai(stage: &Stage, trial: &mut Trial) -> Result<(), String> {
    let mut random = Random::new(stage.seed ^ 0x37a1);
    over_lists(stage, &mut random, |random, listed, list| {
        let asked = Asked::WriteUtc {
            from: TAI,
            to: UTC,
            tick: listed.any_tick(random),
        };
        trial.ask(asked, lent(list, stage.any_table(random)))
    })
}

/// A list that changes in the days of the table, where there is one.
fn list_over(random: &mut Random, staged: &Staged) -> Vec<i64> {
    let tick = match &staged.judged {
        Ok(table) => random.between(table.first_tick(), table.last_tick()),
        Err(_) => random.pick(&staged.ticks),
    };
    accepted_leaps(random, 43_144 + tick / DAY as i64)
}

/// A broken list, 8 as likely as 7.
fn any_broken(random: &mut Random, broken: &[BrokenLeaps]) -> Vec<i64> {
    let number = random.pick(&[refusal::LENT_LENGTHS, refusal::LEAPS_BROKEN]);
    let of_number: Vec<&BrokenLeaps> = broken.iter().filter(|b| b.number == number).collect();
    random.pick(&of_number).list.clone()
}

/// Calls over each table and a list that suits it; at times over one broken from
/// this, so that 8 and 7 come before the table's numbers.
fn over_tables(
    stage: &Stage,
    random: &mut Random,
    mut ask: impl FnMut(&mut Random, &Listed, (&[i64], &Staged)) -> Result<(), String>,
) -> Result<(), String> {
    for staged in &stage.staged {
        let listed = Listed::new(list_over(random, staged));
        let broken = broken_leaps(random, &listed.list);
        for _ in 0..stage.size.conversions / 2 {
            let list = match random.index(8) {
                0 => any_broken(random, &broken),
                _ => listed.list.clone(),
            };
            ask(random, &listed, (&list, staged))?;
        }
    }
    Ok(())
}

/// A reading at an edge of the table, or at one of the list.
fn reading_over(random: &mut Random, listed: &Listed, staged: &Staged) -> Utc {
    let tick = random.pick(&staged.ticks);
    let at_table = Leaps::judge(&listed.list).and_then(|leaps| leaps.write(tick));
    match at_table {
        Ok(utc) if random.one_in(2) => utc,
        _ => listed.any_reading(random),
    }
}

pub fn convert_utc(stage: &Stage, trial: &mut Trial) -> Result<(), String> {
    let mut random = Random::new(stage.seed ^ 0xc07c);
    over_tables(stage, &mut random, |random, listed, (list, staged)| {
        let (from, to) = codes_in_turn(random, trial.ledger.cases);
        let reading = Reading::Utc(reading_over(random, listed, staged));
        let asked = Asked::Convert { from, to, reading };
        trial.ask(asked, lent(list, &staged.bytes))
    })
}

/// A tick at an edge of the table, or one that is near an edge of the list once
/// it is TAI: as the scale of the code counts that edge, or a tick beside it.
fn tick_over(random: &mut Random, listed: &Listed, staged: &Staged, from: u32) -> i64 {
    let tai = Reading::Ticks(listed.any_tick(random));
    let at_list = desk::convert(TAI, from, tai, &[], &staged.judged);
    match at_list {
        Ok(there) if random.one_in(2) => there.tick + random.between(-1, 1),
        _ => random.pick(&staged.ticks),
    }
}

pub fn write_utc(stage: &Stage, trial: &mut Trial) -> Result<(), String> {
    let mut random = Random::new(stage.seed ^ 0x307c);
    over_tables(stage, &mut random, |random, listed, (list, staged)| {
        let (to, from) = codes_in_turn(random, trial.ledger.cases);
        let tick = tick_over(random, listed, staged, from);
        let asked = Asked::WriteUtc { from, to, tick };
        trial.ask(asked, lent(list, &staged.bytes))
    })
}

#[cfg(test)]
mod tests {
    use super::*;
    use std::collections::BTreeSet;

    #[test]
    fn every_code_comes_and_wrong_ones_in_either_place() {
        let mut random = Random::new(71);
        let codes: BTreeSet<(u32, u32)> = (0..3_400)
            .map(|case| codes_in_turn(&mut random, case))
            .collect();
        assert!((0..8).all(|other| codes.contains(&(7, other))));
        for wrong in NOT_UTC {
            assert!(codes.iter().any(|(utc, other)| *utc == wrong && *other < 7));
            assert!(codes.iter().any(|(utc, other)| *utc == wrong && *other > 6));
        }
    }
}
