//! The comparison of comparing tables: fresh ones that mean the same or do not,
//! tables apart in S, H or G, and refused ones on either side and on both.

use super::buffers::blank_ticks;
use super::interface::{Asked, Lent};
use super::stage::Stage;
use super::trial::Trial;
use crate::blocks;
use crate::changes::{ENTRY_NUMBERS, changes};
use crate::generate::{Broken, Random, broken_tables, fresh_tables, moved_tables, widest_tables};
use crate::refusal;
use crate::table::{GREATEST_COUNT, Table};

/// No list has as many numbers.
const MORE_THAN_ENOUGH: usize = ENTRY_NUMBERS * GREATEST_COUNT as usize + 7;
/// Rooms for two tables that are refused, whatever the room.
const ANY_ROOM: [usize; 6] = [0, 0, 1, 3, 30, MORE_THAN_ENOUGH];

pub fn compare_tables(stage: &Stage, trial: &mut Trial) -> Result<(), String> {
    let mut random = Random::new(stage.seed ^ 0xc4a6);
    for table in stage.accepted.iter().chain(&widest_tables()) {
        let sides = Sides::of(&mut random, table);
        sides.ask_fresh(trial)?;
        sides.ask_moved(trial, &mut random)?;
        sides.ask_broken(trial, &mut random)?;
    }
    Ok(())
}

/// Two tables' bytes, as they are lent.
type Two<'a> = [&'a [u8]; 2];

fn ask(trial: &mut Trial, [table, second_table]: Two, room: usize) -> Result<(), String> {
    let lent = Lent {
        second_table,
        buffer: blank_ticks(room),
        ..Lent::table(table)
    };
    trial.ask(Asked::CompareTables, lent)
}

/// Rooms for a list of so many numbers: one that it fills, and in turn one that is
/// longer or, where there is a list, shorter. Many of these are so by one number.
fn rooms_in_turn(numbers: usize, case: u64) -> [usize; 2] {
    let longer = [1, 2, 3, 4, MORE_THAN_ENOUGH];
    let shorter = [1, 2, 1, 3, 1, numbers - numbers / 3, numbers];
    let turn = case as usize / 2;
    let other = match numbers > 0 && case.is_multiple_of(2) {
        true => numbers - shorter[turn % shorter.len()],
        false => numbers + longer[turn % longer.len()],
    };
    [numbers, other]
}

/// The bytes of an accepted table, and of what it is compared with.
struct Sides {
    /// Whether the table is lent as the second. It stays what it is, since a table
    /// that stays in its place is not sent again.
    turned: bool,
    image: Vec<u8>,
    /// Each with how many numbers the list of what changed has. One is the table.
    fresh: Vec<(Vec<u8>, usize)>,
    moved: Vec<Vec<u8>>,
    broken: Vec<Broken>,
}

impl Sides {
    fn of(random: &mut Random, table: &Table) -> Sides {
        let listed = |fresh: &Table| {
            let numbers = ENTRY_NUMBERS * changes(table, fresh).len();
            (blocks::image(fresh), numbers)
        };
        Sides {
            turned: random.one_in(2),
            image: blocks::image(table),
            fresh: fresh_tables(random, table).iter().map(listed).collect(),
            moved: moved_tables(table).iter().map(blocks::image).collect(),
            broken: broken_tables(random, table),
        }
    }

    fn turned<'a>(&self, [one, other]: Two<'a>) -> Two<'a> {
        match self.turned {
            true => [other, one],
            false => [one, other],
        }
    }

    fn any_fresh(&self, random: &mut Random) -> &[u8] {
        &self.fresh[random.index(self.fresh.len())].0
    }

    fn any_moved(&self, random: &mut Random) -> &[u8] {
        &self.moved[random.index(self.moved.len())]
    }

    fn ask_fresh(&self, trial: &mut Trial) -> Result<(), String> {
        for (fresh, numbers) in &self.fresh {
            let two = self.turned([&self.image, fresh]);
            for room in rooms_in_turn(*numbers, trial.ledger.cases / 2) {
                ask(trial, two, room)?;
            }
        }
        Ok(())
    }

    /// Tables apart, whose granules are the same or not.
    fn ask_moved(&self, trial: &mut Trial, random: &mut Random) -> Result<(), String> {
        let fresh = self.any_fresh(random);
        for moved in &self.moved {
            let two = self.turned([fresh, moved]);
            ask(trial, two, random.pick(&ANY_ROOM))?;
        }
        Ok(())
    }

    /// Each number that a table is refused with, told of the first and of the
    /// second: beside an accepted table, moved or not, beside another that is
    /// refused, and beside none.
    fn ask_broken(&self, trial: &mut Trial, random: &mut Random) -> Result<(), String> {
        for number in refusal::NOT_WHOLE_BLOCKS..=refusal::JOIN {
            let broken = self.broken.iter().filter(|b| b.number == number);
            let broken: Vec<&[u8]> = broken.map(|b| b.bytes.as_slice()).collect();
            if broken.is_empty() {
                continue;
            }
            let one = random.pick(&broken);
            let other = &self.broken[random.index(self.broken.len())].bytes;
            let accepted = match random.one_in(2) {
                true => self.any_fresh(random),
                false => self.any_moved(random),
            };
            for two in [[one, accepted], [accepted, one], [one, other]] {
                ask(trial, two, random.pick(&ANY_ROOM))?;
            }
        }
        for two in [[&self.image, &[][..]], [&[], &self.image], [&[], &[]]] {
            ask(trial, two, random.pick(&ANY_ROOM))?;
        }
        Ok(())
    }
}
