//! Demand 3 on random accepted tables, and the definitions of the granule rule
//! held against each other.

use second::blocks;
use second::ephemeris::{
    greatest_d, is_in_order_at_joins, tdb_from_tt, tt_from_tdb, tt_from_tdb_by_brute_force,
};
use second::exact::{Fraction, Whole};
use second::generate::{Random, accepted_tables, edge_ticks, random_tick, table_ticks};
use second::granule::Granule;
use second::scales::{LINEAR_STEPS, is_valid_epoch, linear_step};
use second::table::Table;

fn fraction(numerator: i128, denominator: i128) -> Fraction {
    Fraction::new(Whole::from(numerator), Whole::from(denominator))
}

fn real_table() -> Table {
    blocks::judge(include_bytes!("../data/real.blk")).expect("the real table is accepted")
}

/// Ticks of TT that lie in the table.
fn inside(random: &mut Random, table: &Table) -> Vec<i64> {
    let mut ticks = table_ticks(random, table);
    ticks.retain(|tick| table.holds(*tick));
    ticks
}

/// Σ c_k T_k(s) by fractions from the definition of T_k, not multiplied out.
fn sum_by_fractions(granule: Granule, tick: i64) -> Fraction {
    let h = i128::from(granule.length);
    let s = fraction(2 * i128::from(tick - granule.start) - h, h);
    let (mut t, mut t_next) = (Fraction::whole(1), s.reduced());
    let mut sum = Fraction::whole(0);
    for c in granule.coefficients {
        sum = (&sum + &(&Fraction::whole(i128::from(*c)) * &t)).reduced();
        let t_after = (&(&(&Fraction::whole(2) * &s) * &t_next) - &t).reduced();
        (t, t_next) = (t_next, t_after);
    }
    sum
}

#[test]
fn the_exact_sum_is_the_chebyshev_sum() {
    let mut random = Random::new(20);
    for table in accepted_tables(&mut random, 32) {
        let tick = random.between(table.first_tick(), table.last_tick());
        let granule = table.granule_at(tick);
        assert_eq!(granule.exact_sum(tick), sum_by_fractions(granule, tick));
    }
}

#[test]
fn the_ends_of_a_granule_are_the_plain_and_the_alternating_sum() {
    let mut random = Random::new(21);
    for table in accepted_tables(&mut random, 32) {
        let granule = table.granule(random.index(table.count as usize));
        let (start, end) = (granule.start, granule.start + granule.length);
        assert_eq!(
            granule.exact_sum(start),
            Fraction::whole(granule.alternating_sum())
        );
        assert_eq!(granule.exact_sum(end), Fraction::whole(granule.plain_sum()));
        assert_eq!((granule.u(start), granule.u(end)), (-(1 << 30), 1 << 30));
    }
}

/// "Then v is within n/2 + weight/2^31 units of the exact sum, hence within 520."
#[test]
fn v_is_within_its_bound_of_the_exact_sum() {
    let mut random = Random::new(22);
    let mut greatest = Fraction::whole(0);
    for table in accepted_tables(&mut random, 160) {
        for tick in inside(&mut random, &table).into_iter().step_by(4) {
            let granule = table.granule_at(tick);
            let n = granule.degree() as i128;
            let bound = fraction((n << 30) + granule.weight(), 1 << 31);
            let v = Fraction::whole(granule.value(tick));
            let off = (&v - &granule.exact_sum(tick)).magnitude();
            assert!(off <= bound);
            assert!(bound < Fraction::whole(520));
            greatest = greatest.max(off);
        }
    }
    // The bound is not met by nothing happening: some are off by hundreds.
    assert!(greatest > Fraction::whole(100));
}

/// "within 33/64 tick of TT minus the exact sum": the exact sum is in units.
fn assert_within_33_64(table: &Table, tt: i64) {
    let tdb = tdb_from_tt(table, tt).expect("a tick of the table");
    let sum = table.granule_at(tt).exact_sum(tt);
    let sum_in_ticks = &sum * &fraction(1, 65_536);
    let off = &Fraction::whole(i128::from(tt - tdb)) - &sum_in_ticks;
    assert!(off.magnitude() <= fraction(33, 64), "TT {tt}");
}

#[test]
fn tdb_is_within_33_64_tick_of_the_exact_sum() {
    let mut random = Random::new(23);
    for table in accepted_tables(&mut random, 160) {
        for tt in inside(&mut random, &table).into_iter().step_by(3) {
            assert_within_33_64(&table, tt);
        }
    }
    let real = real_table();
    for tt in inside(&mut random, &real) {
        assert_within_33_64(&real, tt);
    }
}

#[test]
fn order_is_kept_at_joins() {
    let mut random = Random::new(24);
    for table in accepted_tables(&mut random, 320) {
        assert!(is_in_order_at_joins(&table));
    }
    assert!(is_in_order_at_joins(&real_table()));
}

/// The check of order can fail: a join that 16 refuses may turn time back.
#[test]
fn a_refused_join_may_break_the_order() {
    let table = Table {
        start: 0,
        length: 1_000_000_000,
        count: 2,
        degree: 0,
        coefficients: vec![0, 10 * 65_536],
    };
    assert!(table.judge_granules().is_err());
    assert!(!is_in_order_at_joins(&table));
}

#[test]
fn the_earlier_of_two_epochs_never_comes_out_later() {
    let mut random = Random::new(25);
    for table in accepted_tables(&mut random, 120) {
        let ticks = inside(&mut random, &table);
        for pair in ticks.windows(2) {
            assert!(tdb_from_tt(&table, pair[0]) <= tdb_from_tt(&table, pair[1]));
        }
        let first = tdb_from_tt(&table, table.first_tick()).unwrap();
        let last = tdb_from_tt(&table, table.last_tick()).unwrap();
        let mut asked: Vec<i64> = ticks
            .into_iter()
            .filter(|t| (first..=last).contains(t))
            .collect();
        asked.extend([first, last]);
        asked.sort();
        for pair in asked.windows(2) {
            let earlier = tt_from_tdb(&table, pair[0]).expect("covered");
            let later = tt_from_tdb(&table, pair[1]).expect("covered");
            assert!(earlier <= later);
        }
    }
}

#[test]
fn there_and_back_over_the_table_lands_within_one_tick() {
    let mut random = Random::new(26);
    let mut moved = 0;
    for table in accepted_tables(&mut random, 120) {
        for tick in inside(&mut random, &table) {
            let tdb = tdb_from_tt(&table, tick).unwrap();
            let back = tt_from_tdb(&table, tdb).expect("a TDB of the table is covered");
            assert!((0..=1).contains(&(tick - back)));
            moved += tick - back;
            // The other way round, where this tick as TDB is covered.
            if let Some(tt) = tt_from_tdb(&table, tick) {
                let back = tdb_from_tt(&table, tt).unwrap();
                assert!((0..=1).contains(&(back - tick)));
            }
        }
    }
    assert!(moved > 0, "some tick shares its TDB with the one before");
}

#[test]
fn linear_steps_keep_order_and_go_there_and_back() {
    let mut random = Random::new(27);
    let mut ticks = edge_ticks();
    ticks.extend((0..3_000).map(|_| random_tick(&mut random)));
    ticks.retain(|tick| is_valid_epoch(i128::from(*tick)));
    ticks.sort();
    for (from, to) in LINEAR_STEPS {
        for pair in ticks.windows(2) {
            assert!(linear_step(from, to, pair[0]) <= linear_step(from, to, pair[1]));
        }
        for tick in &ticks {
            let there = linear_step(from, to, *tick);
            if is_valid_epoch(i128::from(there)) {
                let back = linear_step(to, from, there);
                assert!((back - tick).abs() <= 1, "{from:?} to {to:?} of {tick}");
            }
        }
    }
}

/// "The earliest tick of the table whose TDB is at or after the one asked."
#[test]
fn the_earliest_tick_by_bisection_is_that_of_brute_force() {
    let mut random = Random::new(28);
    let mut compared = 0;
    for table in accepted_tables(&mut random, 160) {
        if greatest_d(&table) > 3_000 {
            continue;
        }
        for asked in table_ticks(&mut random, &table).into_iter().step_by(5) {
            let by_bisection = tt_from_tdb(&table, asked);
            assert_eq!(by_bisection, tt_from_tdb_by_brute_force(&table, asked));
            compared += usize::from(by_bisection.is_some());
        }
    }
    assert!(compared > 500, "{compared}");
}

#[test]
fn the_real_table_agrees_with_brute_force_once() {
    let table = real_table();
    let asked = table.start + 3 * table.length;
    assert_eq!(
        tt_from_tdb(&table, asked),
        tt_from_tdb_by_brute_force(&table, asked)
    );
}

/// The one found is at or after the one asked, and the tick before it is not.
#[test]
fn the_earliest_tick_keeps_its_definition_in_every_table() {
    let mut random = Random::new(29);
    for table in accepted_tables(&mut random, 160) {
        for asked in table_ticks(&mut random, &table).into_iter().step_by(3) {
            let first = tdb_from_tt(&table, table.first_tick()).unwrap();
            let last = tdb_from_tt(&table, table.last_tick()).unwrap();
            match tt_from_tdb(&table, asked) {
                None => assert!(asked < first || asked > last),
                Some(tt) => {
                    assert!(tdb_from_tt(&table, tt).unwrap() >= asked);
                    let before = tdb_from_tt(&table, tt - 1);
                    assert!(before.is_none_or(|tdb| tdb < asked));
                }
            }
        }
    }
}
