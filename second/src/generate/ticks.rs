//! Random and edge ticks: range ends, joins, table ends, where D changes.

use super::Random;
use crate::ephemeris::{tdb_from_tt, tt_from_tdb};
use crate::scales::{GREATEST_EPOCH, LINEAR_STEPS, is_valid_epoch, linear_step};
use crate::table::Table;

/// Any tick: mostly valid, every order of magnitude alike.
pub fn random_tick(random: &mut Random) -> i64 {
    match random.index(8) {
        0 => random.bits() as i64,
        1 | 2 => random.between(-GREATEST_EPOCH, GREATEST_EPOCH),
        _ => {
            let size = random.up_to(GREATEST_EPOCH);
            random.signed(size)
        }
    }
}

/// Each with those at most so far away.
pub(super) fn with_neighbours(ticks: &[i64], distance: i64) -> Vec<i64> {
    ticks
        .iter()
        .flat_map(|tick| (-distance..=distance).filter_map(|near| tick.checked_add(near)))
        .collect()
}

/// The same instants as every neighbouring scale counts them, where valid.
fn across_linear_steps(ticks: &[i64]) -> Vec<i64> {
    let valid = |tick: &&i64| is_valid_epoch(i128::from(**tick));
    let walked = |(from, to)| {
        ticks
            .iter()
            .filter(valid)
            .map(move |t| linear_step(from, to, *t))
    };
    LINEAR_STEPS.into_iter().flat_map(walked).collect()
}

/// The range's ends, zero, and the halves of the known values, with what the
/// steps make of them: a step leads outside just past these.
pub fn edge_ticks() -> Vec<i64> {
    let halves = [6_250_000_000_000_000, -6_250_000_000_000_000, 32_247_250];
    let mut ticks = vec![0, GREATEST_EPOCH, -GREATEST_EPOCH, 100_000_000_000_000_000];
    ticks.extend(halves);
    ticks.extend(across_linear_steps(&ticks));
    let twice = across_linear_steps(&ticks);
    ticks.extend(twice);
    ticks.extend([i64::MIN, i64::MAX]);
    let mut ticks = with_neighbours(&ticks, 2);
    ticks.sort();
    ticks.dedup();
    ticks
}

/// A tick of TT at which D changes, if there is one between the two.
fn where_d_changes(table: &Table, mut low: i64, mut high: i64) -> Option<i64> {
    let d = |tt: i64| table.granule_at(tt).d(tt);
    if d(low) == d(high) {
        return None;
    }
    let before = d(low);
    while high - low > 1 {
        let middle = low + (high - low) / 2;
        if d(middle) == before {
            low = middle;
        } else {
            high = middle;
        }
    }
    Some(high)
}

/// Joins, both ends of the table, and joins at which the earlier granule would
/// give another D than the later: there it shows whose tick a join is.
fn some_joins(random: &mut Random, table: &Table) -> Vec<i64> {
    let join = |g: i64| table.start + g * table.length;
    let count = i64::from(table.count);
    let mut joins = vec![join(0), join(1), join(count - 1), join(count)];
    joins.extend((0..3).map(|_| join(random.between(0, count))));
    let d = |g: i64, tt| table.granule(g as usize).d(tt);
    let tells = |g: &i64| d(*g - 1, join(*g)) != d(*g, join(*g));
    joins.extend((1..count).filter(tells).take(4).map(join));
    joins
}

/// TT ticks of the table: its ends, joins, places where D changes or the TDB
/// leaves the range, and others. Each with its neighbours, outside the table too.
pub fn tt_ticks(random: &mut Random, table: &Table) -> Vec<i64> {
    let mut ticks = some_joins(random, table);
    let range = [-GREATEST_EPOCH, GREATEST_EPOCH];
    ticks.extend(range.iter().filter_map(|end| tt_from_tdb(table, *end)));
    for _ in 0..6 {
        let low = random.between(table.first_tick(), table.last_tick());
        let near = low + random.up_to(table.last_tick() - low);
        let high = random.pick(&[table.last_tick(), near]);
        ticks.push(low);
        ticks.extend(where_d_changes(table, low, high));
    }
    with_neighbours(&ticks, 2)
}

/// The TDB of these TT ticks, and its neighbours: where D falls by one, no TT
/// gives the one that is passed over.
pub fn tdb_ticks(table: &Table, tt: &[i64]) -> Vec<i64> {
    let tdb: Vec<i64> = tt.iter().filter_map(|tt| tdb_from_tt(table, *tt)).collect();
    with_neighbours(&tdb, 1)
}

/// Ticks to convert over the table: TT, TDB, and what these are in every
/// neighbouring scale.
pub fn table_ticks(random: &mut Random, table: &Table) -> Vec<i64> {
    let mut ticks = tt_ticks(random, table);
    ticks.extend(tdb_ticks(table, &ticks));
    let across = across_linear_steps(&ticks);
    ticks.extend(across);
    ticks.sort();
    ticks.dedup();
    ticks
}

#[cfg(test)]
mod tests {
    use super::*;
    use crate::generate::accepted_tables;

    #[test]
    fn edges_hold_both_ends_and_their_neighbours() {
        let ticks = edge_ticks();
        for end in [GREATEST_EPOCH, -GREATEST_EPOCH] {
            assert!((end - 2..=end + 2).all(|tick| ticks.contains(&tick)));
        }
        assert!(ticks.contains(&i64::MIN) && ticks.contains(&i64::MAX));
        assert!(ticks.contains(&(GREATEST_EPOCH - 32_184_000_000 - 19_000_000_000)));
    }

    #[test]
    fn most_tables_show_where_d_changes() {
        let mut random = Random::new(12);
        let mut changes = 0;
        for table in accepted_tables(&mut random, 32) {
            let changed = |tick: &&i64| {
                table.holds(**tick - 1)
                    && table.holds(**tick)
                    && table.granule_at(**tick).d(**tick)
                        != table.granule_at(**tick - 1).d(**tick - 1)
            };
            changes += table_ticks(&mut random, &table)
                .iter()
                .filter(changed)
                .count();
        }
        assert!(changes > 32, "{changes}");
    }
}
