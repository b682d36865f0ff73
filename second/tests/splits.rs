//! Request 2026-02: "From now on the exact sum of both parts is rounded once."

mod exact_sum;
mod exact_value;

use exact_sum::exact_sum;
use exact_value::exact_value;
use second::dates::{DAY, GREATEST_DAYS, ORIGIN, Reading, nearest_tick};
use second::exact::{Fraction, Whole};
use second::generate::{Random, read_dates, splits};
use second::refusal::Refusal;
use second::scales::is_valid_epoch;

const SMALLEST: f64 = 5e-324;
/// JD 2443144.5 and its tick (P12).
const MIDNIGHT: f64 = 2_443_144.5;
const MIDNIGHT_TICK: i64 = -32_184_000_000;
const HALF_DAY: i64 = 43_200_000_000_000;

fn epoch(first: f64, second: f64) -> Result<i64, Refusal> {
    Reading::TwoPart(first, second).epoch(None)
}

fn refused(number: u32, place: u64) -> Result<i64, Refusal> {
    Err(Refusal::new(number, place))
}

/// What 01 said before: "Each date part is rounded to its nearest tick (halves
/// to the greater) and the two are added".
fn by_the_old_rule(first: f64, second: f64) -> i128 {
    nearest_tick(&[first], DAY) + nearest_tick(&[second], DAY) - ORIGIN
}

/// So many times 2^-18 day, which is 329589843.75 ticks.
fn quarters(many: i32) -> f64 {
    f64::from(many) * 2f64.powi(-18)
}

/// "A crew sent one date as noon plus a bit and as midnight plus a bit and got
/// two ticks". Three quarters are 988769531.25 ticks, six are 1977539062.5.
#[test]
fn one_date_split_two_ways_is_one_tick() {
    let noon = MIDNIGHT + 0.5;
    let from_noon = (noon + quarters(3), quarters(3));
    let from_midnight = (MIDNIGHT, 0.5 + quarters(6));
    assert_eq!(exact_sum(from_noon), exact_sum(from_midnight));
    let tick = MIDNIGHT_TICK + HALF_DAY + 1_977_539_063;
    assert_eq!(tick, 43_169_793_539_063);
    for (first, second) in [from_noon, from_midnight] {
        assert_eq!(epoch(first, second), Ok(tick));
        assert_eq!(epoch(second, first), Ok(tick));
    }
    let old = [from_noon, from_midnight].map(|(first, second)| by_the_old_rule(first, second));
    assert_eq!(old, [43_169_793_539_062, 43_169_793_539_063]);
}

/// One quarter is 329589843.75 ticks, two are 659179687.5. Beside the quarters
/// of both parts the ticks past midnight; and what they were when each part was
/// rounded by itself.
#[test]
fn parts_are_not_rounded_by_themselves() {
    let near = (MIDNIGHT, 0.0);
    let far = (5_000_000.0, -2_556_855.5);
    for (whole, more, ticks, old) in [
        (near, (1, 1), 659_179_688, 659_179_688),
        (near, (2, 2), 1_318_359_375, 1_318_359_376),
        (near, (2, -2), 0, 1),
        (near, (3, 3), 1_977_539_063, 1_977_539_062),
        (near, (-1, -1), -659_179_687, -659_179_688),
        (near, (-3, -3), -1_977_539_062, -1_977_539_062),
        (far, (0, 0), 0, 0),
        (far, (-1, -1), -659_179_687, -659_179_688),
        (far, (-2, 2), 0, 1),
    ] {
        let (first, second) = (whole.0 + quarters(more.0), whole.1 + quarters(more.1));
        assert_eq!(epoch(first, second), Ok(MIDNIGHT_TICK + ticks), "{more:?}");
        assert_eq!(epoch(second, first), Ok(MIDNIGHT_TICK + ticks), "{more:?}");
        let before = by_the_old_rule(first, second) - i128::from(MIDNIGHT_TICK);
        assert_eq!(before, old, "{more:?}");
    }
}

/// "A part may be far smaller than a tick and still decide a half." 2^-17 day is
/// 659179687.5 ticks.
#[test]
fn the_smallest_part_decides_a_half() {
    let half = 2f64.powi(-17);
    for (days, greater) in [
        (MIDNIGHT + half, MIDNIGHT_TICK + 659_179_688),
        (MIDNIGHT - half, MIDNIGHT_TICK - 659_179_687),
    ] {
        for (tiny, tick) in [
            (0.0, greater),
            (-0.0, greater),
            (SMALLEST, greater),
            (-SMALLEST, greater - 1),
            (f64::MIN_POSITIVE, greater),
            (-f64::MIN_POSITIVE, greater - 1),
            (1e-100, greater),
            (-1e-100, greater - 1),
            // A tick is 1.157e-14 days.
            (1.1e-14, greater),
            (-1.1e-14, greater - 1),
            (1.2e-14, greater + 1),
            (-1.2e-14, greater - 2),
        ] {
            assert_eq!(epoch(days, tiny), Ok(tick), "{days} {tiny:e}");
            assert_eq!(epoch(tiny, days), Ok(tick), "{tiny:e} {days}");
        }
    }
}

/// No valid epoch is below zero days, but the rule holds there, too.
#[test]
fn sums_below_zero_days() {
    let half = 2f64.powi(-17);
    for (parts, tick) in [
        ([-half, 0.0], -659_179_687),
        ([-half, -0.0], -659_179_687),
        ([-half, SMALLEST], -659_179_687),
        ([-half, -SMALLEST], -659_179_688),
        ([half, -2.0 * half], -659_179_687),
        ([-1.0, -half], -86_400_659_179_687),
        ([-1.0, -half.next_up()], -86_400_659_179_688),
        ([-1.0 - quarters(3), -quarters(3)], -86_401_977_539_062),
        ([-SMALLEST, -SMALLEST], 0),
        ([-5e6, -5e6 + half], -863_999_999_999_340_820_312),
    ] {
        let [first, second] = parts;
        assert_eq!(nearest_tick(&parts, DAY), tick, "{parts:?}");
        assert_eq!(nearest_tick(&[second, first], DAY), tick, "{parts:?}");
        assert_eq!(epoch(first, second), refused(4, 0), "{parts:?}");
    }
}

/// "3 still goes by part; 4 judges the sum" (our reading): no second part makes
/// up for a wrong one, however near the sum is.
#[test]
fn refusals_2_and_3_go_by_part() {
    let beyond = GREATEST_DAYS.next_up();
    let rest = MIDNIGHT - GREATEST_DAYS;
    for sign in [1.0, -1.0] {
        assert_eq!(epoch(sign * beyond, sign * rest), refused(3, 0));
        assert_eq!(epoch(sign * rest, sign * beyond), refused(3, 1));
        assert_eq!(epoch(sign * beyond, -SMALLEST), refused(3, 0));
        assert_eq!(epoch(sign * beyond, -sign * beyond), refused(3, 0));
        assert_eq!(epoch(-SMALLEST, sign * f64::INFINITY), refused(2, 1));
        assert_eq!(epoch(sign * beyond, f64::NAN), refused(2, 1));
    }
    assert_eq!(epoch(GREATEST_DAYS, rest), Ok(MIDNIGHT_TICK));
    assert_eq!(epoch(GREATEST_DAYS, SMALLEST), refused(4, 0));
}

fn passes(pair: &(f64, f64)) -> bool {
    let within = |part: f64| part.is_finite() && part.abs() <= GREATEST_DAYS;
    within(pair.0) && within(pair.1)
}

/// Dates of every kind that pass 2 and 3.
fn dates(seed: u64, how_many: usize) -> Vec<(f64, f64)> {
    let mut random = Random::new(seed);
    let mut dates = read_dates(&mut random, how_many / 2);
    dates.extend((0..how_many / 2).flat_map(|_| splits(&mut random)));
    dates.retain(passes);
    dates
}

#[test]
fn the_tick_is_nearest_to_the_exact_sum() {
    let day = Fraction::whole(DAY);
    for (first, second) in dates(80, 4_000) {
        let sum = &exact_value(first) + &exact_value(second);
        let nearest = (&sum * &day).nearest();
        let tick = nearest_tick(&[first, second], DAY);
        assert_eq!(Whole::from(tick), nearest, "{first:e} {second:e}");
        let expected = match is_valid_epoch(tick - ORIGIN) {
            true => Ok((tick - ORIGIN) as i64),
            false => refused(4, 0),
        };
        assert_eq!(epoch(first, second), expected, "{first:e} {second:e}");
    }
}

/// The lesser sum is never the later tick.
#[test]
fn order_is_kept() {
    let mut dates = dates(81, 60_000);
    dates.sort_by(|a, b| exact_sum(*a).partial_cmp(&exact_sum(*b)).expect("finite"));
    let tick = |(first, second): (f64, f64)| nearest_tick(&[first, second], DAY);
    let ticks: Vec<i128> = dates.iter().map(|date| tick(*date)).collect();
    assert!(ticks.len() > 60_000);
    assert!(ticks.is_sorted());
}

/// "Any two splits that pass 2 and 3 and have the same exact sum give the same
/// tick, or both 4."
#[test]
fn the_same_sum_is_the_same_tick() {
    let mut random = Random::new(82);
    let (mut ticks, mut fours) = (0, 0);
    for _ in 0..40_000 {
        let [one, other] = splits(&mut random);
        if exact_sum(one) != exact_sum(other) || !passes(&one) || !passes(&other) {
            continue;
        }
        let answer = epoch(one.0, one.1);
        assert_eq!(epoch(other.0, other.1), answer, "{one:?} {other:?}");
        match answer {
            Ok(_) => ticks += 1,
            Err(refusal) => {
                assert_eq!(refusal, Refusal::new(4, 0));
                fours += 1;
            }
        }
    }
    assert!(ticks > 20_000 && fours > 500, "{ticks} {fours}");
}
