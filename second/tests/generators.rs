//! The generators bring what they promise.

mod exact_sum;

use exact_sum::exact_sum;
use second::blocks::{image, judge};
use second::dates::{DAY, GREATEST_DAYS, Reading};
use second::generate::{
    Random, accepted_tables, any_double, input, read_dates, read_seconds, splits,
};
use second::refusal::Refusal;
use second::scales::GREATEST_EPOCH;
use second::table::Table;
use std::collections::BTreeSet;

fn gaps(table: &Table) -> Vec<i128> {
    (1..table.count as usize)
        .map(|g| table.granule(g - 1).plain_sum() - table.granule(g).alternating_sum())
        .collect()
}

#[test]
fn accepted_tables_are_accepted_and_reach_every_bound() {
    let mut random = Random::new(60);
    let tables = accepted_tables(&mut random, 400);
    for table in &tables {
        assert_eq!(judge(&image(table)).as_ref(), Ok(table));
    }
    let degrees: BTreeSet<u32> = tables.iter().map(|t| t.degree).collect();
    assert_eq!(degrees.len(), 16);
    let some = |wanted: &dyn Fn(&Table) -> bool| tables.iter().any(wanted);
    assert!(some(&|t| t.length == 1_000_000_000));
    assert!(some(&|t| t.length == 1 << 50));
    assert!(
        [1, 2, 3, 4, 5, 358, 359, 360]
            .iter()
            .all(|n| some(&|t| t.count == *n))
    );
    assert!(some(&|t| t.first_tick() == -6_000_000_000_000_000_000));
    assert!(some(&|t| t.last_tick() == 6_000_000_000_000_000_000));
    for gap in [-1024, -1023, 0, 1023, 1024] {
        assert!(some(&|t| gaps(t).contains(&gap)), "{gap}");
    }
    for c in [1 << 40, -(1 << 40)] {
        assert!(some(&|t| t.granules().any(|g| g.coefficients[0] == c)));
        assert!(some(&|t| t
            .granules()
            .any(|g| g.coefficients[1..].contains(&c))));
    }
    let heaviest = |t: &Table| t.granules().map(|g| g.weight()).max().unwrap();
    assert!(some(&|t| heaviest(t) == i128::from(t.length)));
    assert!(some(&|t| heaviest(t) == 1 << 40 && t.degree == 15));
}

fn is_half(value: f64, power: i32) -> bool {
    let scaled = value * 2f64.powi(power);
    scaled.fract() == 0.0 && (scaled / 2.0).fract() != 0.0
}

#[test]
fn doubles_come_by_every_kind_of_bits() {
    let mut random = Random::new(63);
    let list: Vec<f64> = (0..4_000).map(|_| any_double(&mut random)).collect();
    for negative in [false, true] {
        let many = |wanted: &dyn Fn(f64) -> bool| {
            let signed = list.iter().filter(|x| x.is_sign_negative() == negative);
            signed.filter(|x| wanted(**x)).count()
        };
        assert!(many(&|x| x.is_nan()) > 100);
        assert!(many(&|x| x.is_infinite()) > 50);
        assert!(many(&|x| x == 0.0) > 50);
        assert!(many(&|x| x.is_subnormal()) > 100);
        assert!(many(&|x| x.abs() < GREATEST_DAYS && x.abs() > 1.0) > 100);
    }
    let payloads: BTreeSet<u64> = list
        .iter()
        .filter(|x| x.is_nan())
        .map(|x| x.to_bits())
        .collect();
    assert!(payloads.len() > 400);
}

#[test]
fn dates_to_read_reach_every_limit_and_both_ends() {
    let mut random = Random::new(64);
    let dates = read_dates(&mut random, 8_000);
    let days = |tick: i64| 2_443_144.5 + tick as f64 / DAY as f64;
    let outside = |part: f64| part < days(-GREATEST_EPOCH) || part > days(GREATEST_EPOCH);
    let read = |(first, second): &(f64, f64)| Reading::TwoPart(*first, *second).epoch(None);
    let far = |pair: &&(f64, f64)| outside(pair.0) && outside(pair.1) && pair.0.abs() > 1e5;
    let inside = dates.iter().filter(far).filter(|pair| read(pair).is_ok());
    assert!(inside.count() > 100);
    let epochs: BTreeSet<i64> = dates.iter().filter_map(|pair| read(pair).ok()).collect();
    for end in [-GREATEST_EPOCH, GREATEST_EPOCH] {
        assert!(epochs.contains(&end) && epochs.contains(&(end - end.signum())));
    }
    for limit in [GREATEST_DAYS, -GREATEST_DAYS] {
        for value in [limit, limit.next_up(), limit.next_down()] {
            assert!(dates.iter().any(|pair| pair.0 == value));
            assert!(dates.iter().any(|pair| pair.1 == value));
        }
    }
    let halves = |sign: f64| {
        dates
            .iter()
            .filter(move |p| is_half(p.1, 17) && p.1 * sign > 0.0)
    };
    assert!(halves(1.0).count() > 100 && halves(-1.0).count() > 100);
}

#[test]
fn seconds_to_read_reach_every_limit() {
    let mut random = Random::new(65);
    let list = read_seconds(&mut random, 8_000);
    for limit in [1e10, -1e10_f64] {
        for value in [limit, limit.next_up(), limit.next_down()] {
            assert!(list.contains(&value));
        }
    }
    let halves = |sign: f64| {
        list.iter()
            .filter(move |x| is_half(**x, 10) && **x * sign > 0.0)
    };
    assert!(halves(1.0).count() > 100 && halves(-1.0).count() > 100);
    let near_end = |x: &&f64| match Reading::SinceJ2000(**x).epoch(None) {
        Ok(tick) => GREATEST_EPOCH - tick.abs() < 1 << 20,
        Err(_) => false,
    };
    assert!(list.iter().filter(near_end).count() > 100);
}

type Date = (f64, f64);

fn split_dates(seed: u64, how_many: usize) -> Vec<[Date; 2]> {
    let mut random = Random::new(seed);
    (0..how_many).map(|_| splits(&mut random)).collect()
}

fn is_valid((first, second): Date) -> bool {
    Reading::TwoPart(first, second).epoch(None).is_ok()
}

fn is_half_sum(date: Date) -> bool {
    let (sum, left_off) = exact_sum(date);
    is_half(sum, 17) && left_off == 0.0
}

#[test]
fn most_split_dates_are_valid_and_others_on_both_sides() {
    let dates = split_dates(66, 10_000).concat();
    let many = |wanted: &dyn Fn(Date) -> bool| dates.iter().filter(|d| wanted(**d)).count();
    assert!(many(&is_valid) > 17_000);
    assert!(many(&|date| date.0 + date.1 < 0.0) > 200);
    assert!(many(&|date| date.0 + date.1 > 2_600_000.0) > 200);
}

/// Sums that are exact halves come of every kind of parts, in both orders.
#[test]
fn halves_of_a_tick_are_split_in_every_way() {
    let mut dates = split_dates(67, 10_000).concat();
    dates.retain(|date| is_valid(*date) && is_half_sum(*date));
    let has_digits = |part: f64, power: i32| (part * 2f64.powi(power)).fract() != 0.0;
    for greater_first in [true, false] {
        let many = |wanted: &dyn Fn(f64, f64) -> bool| {
            let ordered = dates.iter().filter(|(a, b)| (a > b) == greater_first);
            ordered
                .filter(|(a, b)| wanted(a.max(*b), a.min(*b)))
                .count()
        };
        // Noon or midnight plus a bit.
        assert!(many(&|greater, bit| !has_digits(greater, 1) && bit.abs() < 2.0) > 200);
        // No part is a half or a whole number of ticks; the lesser is near or far.
        assert!(many(&|greater, lesser| has_digits(greater, 17) && lesser.abs() < 1.0) > 200);
        assert!(many(&|greater, lesser| has_digits(greater, 17) && lesser > 1e5) > 200);
        assert!(many(&|greater, lesser| has_digits(greater, 17) && lesser < -1e5) > 100);
        assert!(many(&|greater, _| has_digits(greater, 30)) > 200);
        assert!(many(&|greater, _| greater == GREATEST_DAYS) > 100);
        assert!(many(&|greater, lesser| is_half(greater, 17) && lesser == 0.0) > 100);
    }
}

/// The other part of a half: every tiny double, in both places.
#[test]
fn halves_of_a_tick_have_every_tiny_part_beside_them() {
    let dates = split_dates(68, 20_000).concat();
    let half_first = dates.iter().filter(|(half, _)| is_half(*half, 17));
    let half_second = dates.iter().filter(|(_, half)| is_half(*half, 17));
    let after: Vec<f64> = half_first.map(|(_, tiny)| *tiny).collect();
    let before: Vec<f64> = half_second.map(|(tiny, _)| *tiny).collect();
    for mut parts in [after, before] {
        parts.retain(|part| part.abs() < 2.0 / DAY as f64);
        for sign in [1.0, -1.0] {
            let many = |wanted: &dyn Fn(f64) -> bool| {
                let signed = parts.iter().filter(|part| part.signum() == sign);
                signed.filter(|part| wanted(part.abs())).count()
            };
            assert!(many(&|part| part == 0.0) > 200);
            assert!(many(&|part| part == 5e-324) > 200);
            assert!(many(&|part| part.is_subnormal()) > 400);
            assert!(many(&|part| part.is_normal()) > 400);
        }
        let exponents: BTreeSet<u64> = parts
            .iter()
            .map(|part| part.abs().to_bits() >> 52)
            .collect();
        assert!(exponents.len() > 500);
    }
}

/// Most twos have one exact sum; the others have a half of a tick between them,
/// and some of these an end of the range.
#[test]
fn two_split_dates_belong_together() {
    let twos = split_dates(69, 20_000);
    let many = |wanted: &dyn Fn(Date, Date) -> bool| {
        twos.iter()
            .filter(|[one, other]| wanted(*one, *other))
            .count()
    };
    let is_split_anew = |one: Date, other: Date| {
        let same_parts = one == other || one == (other.1, other.0);
        exact_sum(one) == exact_sum(other) && !same_parts
    };
    assert!(many(&is_split_anew) > 8_000);
    let is_no_double = |date| exact_sum(date).1 != 0.0;
    assert!(many(&|one, other| is_split_anew(one, other) && is_no_double(one)) > 1_000);
    let read = |(first, second): Date| Reading::TwoPart(first, second).epoch(None);
    for end in [-GREATEST_EPOCH, GREATEST_EPOCH] {
        for beside in [Err(Refusal::new(4, 0)), Ok(end - end.signum())] {
            // Doubles cannot tell these two sums apart.
            let at_end = |one, other| {
                read(one) == Ok(end)
                    && read(other) == beside
                    && exact_sum(one).0 == exact_sum(other).0
            };
            assert!(many(&|one, other| at_end(one, other) || at_end(other, one)) > 100);
        }
    }
}

/// The same seed gives the same inputs, and another seed others.
#[test]
fn a_seed_fixes_the_inputs() {
    let made = |seed| {
        let mut random = Random::new(seed);
        let tables = accepted_tables(&mut random, 4);
        (tables, input(&mut random, &[1, 2, 3]))
    };
    assert_eq!(made(61), made(61));
    assert_ne!(made(61), made(62));
}
