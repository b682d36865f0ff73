//! Tables to compare an accepted one with, each accepted too: fresh ones, which
//! have its S, H and G; ones that are moved, which do not; and the widest.

use super::{Random, Shape, accepted_table};
use crate::table::{GREATEST_COEFFICIENT, GREATEST_COUNT, GREATEST_DEGREE, GREATEST_WEIGHT, Table};

/// The table with every granule's coefficients replaced.
fn with_granules(table: &Table, degree: u32, granule: impl Fn(&[i64]) -> Vec<i64>) -> Table {
    let granules = (0..table.count as usize).map(|g| granule(table.granule_coefficients(g)));
    Table {
        degree,
        coefficients: granules.flatten().collect(),
        ..table.clone()
    }
}

/// The same with zeros above its degree: it means the same.
pub fn extended(table: &Table, degree: u32) -> Table {
    with_granules(table, degree, |granule| {
        let mut granule = granule.to_vec();
        granule.resize(degree as usize + 1, 0);
        granule
    })
}

/// Each sign turned, which changes nothing of what 14 to 16 ask for.
fn negated(table: &Table) -> Table {
    with_granules(table, table.degree, |granule| {
        granule.iter().map(|c| -c).collect()
    })
}

fn zeros(table: &Table, degree: u32) -> Table {
    with_granules(table, degree, |_| vec![0; degree as usize + 1])
}

/// A table that has nothing to do with this one, but for S, H and G.
fn another(random: &mut Random, table: &Table, degree: u32) -> Table {
    let shape = Shape {
        degree,
        count: table.count,
        length: table.length,
    };
    Table {
        start: table.start,
        ..accepted_table(random, shape)
    }
}

/// A change of one granule.
type Change = fn(&mut Random, &mut [i64]);

/// By a little, or by anything that 14 might let pass.
fn any_amount(random: &mut Random) -> i64 {
    let any = random.up_to(2 * GREATEST_COEFFICIENT);
    let size = random.pick(&[1, 1, 2, 1_024, any, any]);
    random.signed(size)
}

fn change_one(random: &mut Random, granule: &mut [i64]) {
    granule[random.index(granule.len())] += any_amount(random);
}

/// From one coefficient to another, both odd or both even: the plain and the
/// alternating sum stay, and so do the joins.
fn change_two(random: &mut Random, granule: &mut [i64]) {
    let (k, amount) = (random.index(granule.len()), any_amount(random));
    let others: Vec<usize> = (k % 2..granule.len()).step_by(2).collect();
    granule[k] += amount;
    granule[random.pick(&others)] -= amount;
}

fn change_top(random: &mut Random, granule: &mut [i64]) {
    *granule.last_mut().expect("a granule has c_0") += any_amount(random);
}

/// The granule with its neighbours alone, which decide whether it may stand there.
fn neighbourhood(table: &Table, g: usize) -> Table {
    let (first, last) = (g.saturating_sub(1), (g + 1).min(table.count as usize - 1));
    let granules = (first..=last).map(|g| table.granule_coefficients(g));
    Table {
        start: table.start,
        length: table.length,
        count: (last - first + 1) as u32,
        degree: table.degree,
        coefficients: granules.flatten().copied().collect(),
    }
}

/// The table with these granules changed: those of them for which some tries find
/// a change that is accepted.
fn changed(random: &mut Random, table: &Table, granules: &[usize], change: Change) -> Table {
    let mut changed = table.clone();
    let size = table.degree as usize + 1;
    for g in granules {
        let place = g * size..(g + 1) * size;
        let before = changed.coefficients[place.clone()].to_vec();
        for _ in 0..12 {
            change(random, &mut changed.coefficients[place.clone()]);
            if neighbourhood(&changed, *g).judge_granules().is_ok() {
                break;
            }
            changed.coefficients[place.clone()].copy_from_slice(&before);
        }
    }
    changed
}

/// The first, the last or any granule; some; and all of them.
fn any_granules(random: &mut Random, table: &Table) -> [Vec<usize>; 3] {
    let count = table.count as usize;
    let any = random.index(count);
    let one = random.pick(&[0, count - 1, any]);
    let some = (0..count).filter(|_| random.one_in(3)).collect();
    [vec![one], some, (0..count).collect()]
}

/// Fresh tables of every kind: those that mean the same come first.
pub fn fresh_tables(random: &mut Random, table: &Table) -> Vec<Table> {
    let (degree, most) = (table.degree, GREATEST_DEGREE);
    let higher: Vec<u32> = (degree + 1..=most).collect();
    let mut list = vec![table.clone()];
    if !higher.is_empty() {
        let to = [higher[0], random.pick(&higher)];
        list.extend(to.map(|degree| extended(table, degree)));
    }
    list.push(negated(table));
    list.extend([0, degree, most].map(|degree| zeros(table, degree)));
    for degree in [degree, random.index(16) as u32] {
        list.push(another(random, table, degree));
    }
    for granules in any_granules(random, table) {
        for change in [change_one, change_two] {
            list.push(changed(random, table, &granules, change));
        }
        let taller = extended(table, random.between(degree.into(), most.into()) as u32);
        list.push(changed(random, &taller, &granules, change_top));
    }
    list
}

/// In 32 bits or in 8 it does not show that this was added.
const BEYOND_32_BITS: i64 = 1 << 32;
const BEYOND_8_BITS: u32 = 1 << 8;

/// As many granules as asked: the last ones are left out, or the last one is
/// followed by itself run backwards and forwards, which joins it.
fn with_count(table: &Table, count: u32) -> Table {
    let size = table.degree as usize + 1;
    let mut coefficients = table.coefficients.clone();
    coefficients.truncate(count as usize * size);
    while coefficients.len() < count as usize * size {
        let last = &coefficients[coefficients.len() - size..];
        let sign = |k: usize| if k.is_multiple_of(2) { 1 } else { -1 };
        let backwards: Vec<i64> = (0..size).map(|k| sign(k) * last[k]).collect();
        coefficients.extend(backwards);
    }
    Table {
        count,
        coefficients,
        ..table.clone()
    }
}

/// Tables of which S, H or G is another: by one, and by what few bits do not show.
/// Of some the last tick is the same.
pub fn moved_tables(table: &Table) -> Vec<Table> {
    let Table {
        start,
        length,
        count,
        ..
    } = *table;
    let at = |start: i64, length: i64| Table {
        start,
        length,
        ..table.clone()
    };
    let mut list = Vec::new();
    for by in [1, -1, BEYOND_32_BITS, -BEYOND_32_BITS] {
        list.push(at(start + by, length));
        list.push(at(start, length + by));
        list.push(at(start - by * i64::from(count), length + by));
    }
    let beyond = count.wrapping_sub(BEYOND_8_BITS);
    for count in [count + 1, count - 1, count + BEYOND_8_BITS, beyond] {
        if (1..=GREATEST_COUNT).contains(&count) {
            list.push(with_count(table, count));
        }
    }
    if count > 1 {
        let shorter = with_count(table, count - 1);
        list.push(Table {
            start: start + length,
            ..shorter
        });
    }
    list.retain(|table| table.keeps_bounds() && table.judge_granules().is_ok());
    list
}

/// Tables whose coefficients are as large as 14 and 15 let them be: beside the
/// same with turned signs they differ as far as tables can.
pub fn widest_tables() -> Vec<Table> {
    let (c, weight) = (GREATEST_COEFFICIENT, GREATEST_WEIGHT);
    let share = |k: usize, of: i64| weight / of / (k * k) as i64;
    let top = |k: usize| if k < 15 { 0 } else { share(k, 1) };
    let all = |k: usize| if k < 1 { c } else { share(k, 15) };
    let table = |(granule, count): (Vec<i64>, u32)| {
        let one = Table {
            start: 0,
            length: weight,
            count: 1,
            degree: granule.len() as u32 - 1,
            coefficients: granule,
        };
        with_count(&one, count)
    };
    // The greatest sum there is is that of c_0 and c_1: nothing weighs less.
    let granules = [
        (vec![c], 1),
        (vec![c, c], GREATEST_COUNT),
        ((0..16).map(top).collect(), 2),
        ((0..16).map(all).collect(), GREATEST_COUNT),
    ];
    granules.map(table).to_vec()
}

#[cfg(test)]
mod tests {
    use super::*;
    use crate::blocks::{image, judge};
    use crate::changes::changes;
    use crate::generate::accepted_tables;
    use std::collections::BTreeSet;

    fn tables(seed: u64) -> (Random, Vec<Table>) {
        let mut random = Random::new(seed);
        let mut tables = accepted_tables(&mut random, 64);
        tables.extend(widest_tables());
        (random, tables)
    }

    fn head(table: &Table) -> (i64, i64, u32) {
        (table.start, table.length, table.count)
    }

    #[test]
    fn every_one_is_accepted_and_has_or_has_not_the_same_head() {
        let (mut random, tables) = tables(12);
        for table in tables {
            for fresh in fresh_tables(&mut random, &table) {
                assert_eq!(judge(&image(&fresh)).as_ref(), Ok(&fresh));
                assert_eq!(head(&fresh), head(&table));
            }
            for moved in moved_tables(&table) {
                assert_eq!(judge(&image(&moved)).as_ref(), Ok(&moved));
                assert_ne!(head(&moved), head(&table));
            }
        }
    }

    /// Lists of every length that there is a word for, degrees equal and not.
    #[test]
    fn fresh_tables_differ_nowhere_in_one_in_some_and_in_all() {
        let (mut random, tables) = tables(13);
        let mut met = BTreeSet::new();
        for table in &tables {
            for fresh in fresh_tables(&mut random, table) {
                let many = match changes(table, &fresh).len() {
                    0 => "none",
                    360 => "all 360",
                    n if n == table.count as usize => "all",
                    1 => "one",
                    _ => "some",
                };
                met.insert((many, table.degree == fresh.degree));
            }
        }
        assert_eq!(met.len(), 10, "{met:?}");
    }

    /// One of S, H and G by one and beyond, up and down, by itself.
    #[test]
    fn moved_tables_move_each_number_by_itself() {
        let (_, tables) = tables(14);
        let mut met = BTreeSet::new();
        for table in &tables {
            for moved in moved_tables(table) {
                let start = moved.start - table.start;
                let length = moved.length - table.length;
                let count = i64::from(moved.count) - i64::from(table.count);
                let same_end = moved.last_tick() == table.last_tick();
                let ways = [start, length, count].map(|by| by.clamp(-257, 257));
                met.insert((ways, same_end));
            }
        }
        for by in [1, -1, 257, -257] {
            for way in [[by, 0, 0], [0, by, 0]] {
                assert!(met.contains(&(way, false)), "{way:?} {met:?}");
            }
        }
        for by in [1, -1, 256, -256] {
            assert!(met.contains(&([0, 0, by], false)), "{by}");
        }
        assert!(met.iter().any(|(ways, same)| *same && ways[1] != 0));
        assert!(met.iter().any(|(ways, same)| *same && ways[2] == -1));
    }

    /// 2^41 in one coefficient, and 2^42 in all, in each of 360 granules.
    #[test]
    fn the_widest_tables_are_as_far_apart_as_tables_can_be() {
        let (mut largest, mut sums) = (BTreeSet::new(), BTreeSet::new());
        for table in widest_tables() {
            let list = changes(&table, &negated(&table));
            assert_eq!(list.len(), table.count as usize);
            largest.extend(list.iter().map(|entry| entry.largest));
            sums.extend(list.iter().map(|entry| entry.sum));
        }
        assert_eq!(largest.last(), Some(&(1 << 41)));
        assert_eq!(sums.last(), Some(&(1 << 42)));
    }
}
