//! Dates and seconds that are read and not converted: doubles of any bits, and
//! parts that together are near a wanted tick.

use super::{
    Random, date_pairs, edge_days, edge_seconds, edge_ticks, random_tick, seconds_past_j2000,
};
use crate::dates::{DAY, GREATEST_DAYS, GREATEST_SECONDS, J2000, ORIGIN, SECOND, nearest_tick};
use crate::scales::GREATEST_EPOCH;

/// A double by its bits. Bits at random are seldom NaN, subnormal or of a
/// reading's size, so most are made so; their sign and fraction stay random.
pub fn any_double(random: &mut Random) -> f64 {
    let bits = random.bits();
    let of_exponent = |field: u64| f64::from_bits(bits & !(0x7ff << 52) | field << 52);
    match random.index(8) {
        0 => of_exponent(0x7ff),
        1 => of_exponent(0),
        2 => random.pick(&[f64::INFINITY, f64::NEG_INFINITY, 0.0, -0.0]),
        3 | 4 => f64::from_bits(bits),
        // From 2^-60, far below half a tick, to 2^35, beyond both limits.
        _ => of_exponent(random.between(1023 - 60, 1023 + 35) as u64),
    }
}

/// One of the range's ends, or a tick at some distance on either side.
fn near_end(random: &mut Random) -> i128 {
    let greatest = random.pick(&[4, 1 << 20, 1 << 50]);
    let distance = random.up_to(greatest);
    i128::from(random.signed(GREATEST_EPOCH)) + i128::from(random.signed(distance))
}

/// Two parts that together are near the tick: the second is what the first
/// leaves. A first part far away puts both outside the range, though not their
/// sum; only one within some days leaves a part fine enough for every tick.
pub(super) fn parts_near(random: &mut Random, tick: i128) -> (f64, f64) {
    let days = (tick + ORIGIN) as f64 / DAY as f64;
    // The second part then keeps its limit, too.
    let least = (days - GREATEST_DAYS) as i64 + 1;
    let whole = random.between(least, GREATEST_DAYS as i64 - 1) as f64;
    let first = match random.index(5) {
        0 => GREATEST_DAYS,
        1 => whole,
        2 => whole + random.between(0, 1 << 30) as f64 / (1 << 30) as f64,
        _ => days.round() + random.between(-2, 2) as f64 / 2.0,
    };
    let left = tick + ORIGIN - nearest_tick(&[first], DAY);
    let second = left as f64 / DAY as f64;
    random.pick(&[(first, second), (second, first)])
}

fn some_ticks(random: &mut Random) -> Vec<i64> {
    let mut ticks = edge_ticks();
    ticks.extend((0..200).map(|_| random_tick(random)));
    ticks
}

/// Two-part dates: every edge beside a plain part, itself and its negative;
/// then so many others.
pub fn read_dates(random: &mut Random, how_many: usize) -> Vec<(f64, f64)> {
    let edges = edge_days(random);
    let plain = 2_443_144.5;
    let beside = |x: &f64| [(*x, plain), (plain, *x), (*x, -0.0), (*x, *x), (*x, -*x)];
    let mut dates: Vec<(f64, f64)> = edges.iter().flat_map(beside).collect();
    let ticks = some_ticks(random);
    dates.extend(date_pairs(random, &ticks, how_many / 2));
    dates.extend((0..how_many / 2).map(|_| match random.index(6) {
        0 => (any_double(random), any_double(random)),
        1 => (any_double(random), random.pick(&edges)),
        2 => (random.pick(&edges), any_double(random)),
        3 => {
            let tick = i128::from(random_tick(random));
            parts_near(random, tick)
        }
        _ => {
            let tick = near_end(random);
            parts_near(random, tick)
        }
    }));
    dates
}

/// So many doubles away from the one given, in the order of their values.
pub(super) fn doubles_from(value: f64, many: i64) -> f64 {
    f64::from_bits(value.to_bits().wrapping_add_signed(many))
}

/// Seconds past J2000: every edge and its negative; then so many others.
pub fn read_seconds(random: &mut Random, how_many: usize) -> Vec<f64> {
    let edges = edge_seconds(random);
    let mut list: Vec<f64> = edges.iter().flat_map(|x| [*x, -*x]).collect();
    let ticks = some_ticks(random);
    list.extend(seconds_past_j2000(random, &ticks, how_many / 2));
    list.extend((0..how_many / 2).map(|_| match random.index(4) {
        0 | 1 => any_double(random),
        2 => (near_end(random) + ORIGIN - J2000) as f64 / SECOND as f64,
        _ => {
            let many = random.between(-200, 200);
            let sign = random.pick(&[1.0, -1.0]);
            sign * doubles_from(GREATEST_SECONDS, many)
        }
    }));
    list
}
