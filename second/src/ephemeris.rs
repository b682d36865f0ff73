//! The step between TT and TDB, both ways, over an accepted table.

use crate::granule::UNITS;
use crate::table::Table;

/// "TDB = TT − D." None where TT is outside the table.
pub fn tdb_from_tt(table: &Table, tt: i64) -> Option<i64> {
    table.holds(tt).then(|| tt - table.granule_at(tt).d(tt))
}

fn tdb(table: &Table, tt: i64) -> i64 {
    tdb_from_tt(table, tt).expect("a tick of the table")
}

/// "Refused (6) exactly when it is before the TDB of the first tick or after
/// that of the last."
fn is_covered(table: &Table, asked: i64) -> bool {
    (tdb(table, table.first_tick())..=tdb(table, table.last_tick())).contains(&asked)
}

/// "TT from TDB: the earliest tick of the table whose TDB is at or after the
/// one asked", by bisection.
///
/// The table was accepted, so its TDB is in order and bisection is the
/// definition: inside a granule the exact sum changes by at most
/// 2·weight/H ≤ 2 units a tick, at a join by 1024 more, and v is within 520 of
/// it; so v changes by less than 2·520 + 2 + 1024 units from one tick to the
/// next, D by at most one, and TT − D never falls.
pub fn tt_from_tdb(table: &Table, asked: i64) -> Option<i64> {
    if !is_covered(table, asked) {
        return None;
    }
    // Every tick before `low` has an earlier TDB; `high` has one that is not.
    let (mut low, mut high) = (table.first_tick(), table.last_tick());
    let (mut least, mut most) = (tdb(table, low), tdb(table, high));
    while low < high {
        let middle = low + (high - low) / 2;
        let at_middle = tdb(table, middle);
        // Should the argument fail, we stop rather than answer wrongly.
        assert!((least..=most).contains(&at_middle), "TDB is in order");
        if at_middle >= asked {
            (high, most) = (middle, at_middle);
        } else {
            (low, least) = (middle + 1, at_middle);
        }
    }
    let before = tdb_from_tt(table, low - 1);
    assert!(tdb(table, low) >= asked && before.is_none_or(|tdb| tdb < asked));
    Some(low)
}

/// The same by brute force and without any use of order: no tick is further
/// from its TDB than the greatest |D|, so the search starts that far before the
/// one asked and tries each tick in turn.
pub fn tt_from_tdb_by_brute_force(table: &Table, asked: i64) -> Option<i64> {
    if !is_covered(table, asked) {
        return None;
    }
    let earliest = (asked - greatest_d(table)).max(table.first_tick());
    (earliest..=table.last_tick()).find(|tt| tdb(table, *tt) >= asked)
}

/// |T_k| is at most 1, so v is within 520 of at most Σ|c_k|.
pub fn greatest_d(table: &Table) -> i64 {
    let sum = |list: &[i64]| list.iter().map(|c| i128::from(c.abs())).sum::<i128>();
    let greatest = table.granules().map(|g| sum(g.coefficients)).max();
    let units = greatest.expect("a table has a granule") + 520;
    i64::try_from(units / UNITS + 1).expect("a small number of ticks")
}

/// Whether the table's TDB is in order at every join, both neighbours and the
/// very last tick in: the places where the argument for order leans on 16.
pub fn is_in_order_at_joins(table: &Table) -> bool {
    (1..=i64::from(table.count)).all(|g| {
        let join = table.start + g * table.length;
        let last = table.last_tick();
        (join - 2..(join + 2).min(last)).all(|tt| tdb(table, tt) <= tdb(table, tt + 1))
    })
}
