//! Dates whose exact sum is a half of a tick, lies just beside one, or comes
//! split in two ways (request 2026-02). They come in twos that belong together.

use super::readings::{doubles_from, parts_near};
use super::{Random, random_tick};
use crate::dates::{DAY, GREATEST_DAYS, ORIGIN, nearest_tick};
use crate::scales::GREATEST_EPOCH;

type Parts = (f64, f64);

/// From the first of these days to the last every epoch is valid.
const VALID_DAYS: (i64, i64) = (2_373_701, 2_512_588);

/// Days with so many binary digits behind the point: most often a valid epoch,
/// now and then anywhere within the limit.
fn some_days(random: &mut Random, digits: i32, limit: f64) -> f64 {
    let (least, greatest) = match random.index(16) {
        0 => (-limit as i64, limit as i64),
        _ => VALID_DAYS,
    };
    // The last digit is a 1, so none fewer will do.
    let count = random.between(least << digits, (greatest << digits) - 1) | 1;
    count as f64 / 2f64.powi(digits)
}

/// An odd multiple of 2^-17 day is an exact half of a tick, since a day is
/// 2^16·27·5^11 ticks.
fn half(random: &mut Random, limit: f64) -> f64 {
    some_days(random, 17, limit)
}

/// Two parts within the limit, of exactly this sum. It has up to 30 binary
/// digits behind the point. With a first part of no more, the second has none
/// beyond these either; it is below 2^23, so it is exact.
fn split(random: &mut Random, sum: f64) -> Parts {
    let least = (sum - GREATEST_DAYS).max(-GREATEST_DAYS);
    let greatest = (sum + GREATEST_DAYS).min(GREATEST_DAYS);
    let scale = 2f64.powi(30);
    let first = match random.index(5) {
        // Noon or midnight, so that the second is a bit.
        0 => (2.0 * sum).floor() / 2.0 + random.between(-2, 2) as f64 / 2.0,
        // As far away as parts can be.
        1 => random.pick(&[least, greatest]),
        // Less than a day away, by a bit of any size.
        2 => {
            let bit = random.up_to(1 << 30);
            sum - random.signed(bit) as f64 / scale
        }
        // Anywhere, with few digits or with many.
        3 => {
            let count = random.between((least * scale) as i64, (greatest * scale) as i64);
            let zeros = random.between(0, 30);
            (count >> zeros << zeros) as f64 / scale
        }
        // From half the sum to the sum, every double leaves an exact one.
        _ => sum * (0.5 + random.bits() as f64 / 2f64.powi(65)),
    };
    let first = first.clamp(least, greatest);
    (first, sum - first)
}

fn two_splits(random: &mut Random, sum: f64) -> [Parts; 2] {
    [split(random, sum), split(random, sum)]
}

/// Two splits of a sum that is no double itself: its last digit is 2^-52 day.
/// What is moved from part to part is a multiple of 2^-31 day, the last digit
/// of the greater one.
fn two_splits_of_many_digits(random: &mut Random) -> [Parts; 2] {
    let day = random.between(VALID_DAYS.0, VALID_DAYS.1) as f64;
    let bit = random.between(0, 1 << 52) as f64 / 2f64.powi(52);
    let mut moved = || {
        let zeros = random.between(0, 31);
        let count = random.between(-1 << 31, 1 << 31) >> zeros << zeros;
        count as f64 / 2f64.powi(31)
    };
    [moved(), moved()].map(|moved| (day - moved, bit + moved))
}

/// From zero and the smallest double up to about a tick, of either sign.
fn tiny(random: &mut Random) -> f64 {
    let fraction = random.bits() >> 12;
    // Up to 2^-46 day, which is 1.2 ticks.
    let exponent = random.between(1, 1023 - 46) as u64;
    let magnitude = match random.index(5) {
        0 => 0,
        1 => 1,
        2 => fraction >> random.between(0, 51),
        3 => exponent << 52,
        _ => exponent << 52 | fraction,
    };
    f64::from_bits(magnitude).copysign(random.signed(1) as f64)
}

/// One part alone is the half; the other, and its negative, decide.
fn half_and_tiny(random: &mut Random) -> [Parts; 2] {
    let (half, tiny) = (half(random, GREATEST_DAYS), tiny(random));
    [(half, tiny), (half, -tiny)]
}

/// Parts that miss a half by the last digit of one of them, either way.
fn beside_half(random: &mut Random) -> [Parts; 2] {
    let half = half(random, 2.0 * GREATEST_DAYS);
    let (first, second) = split(random, half);
    [(first, second.next_down()), (first, second.next_up())]
}

/// Around a half of a tick that no sum of doubles is: around any tick, or where
/// the range begins and ends. The last digits of one part decide.
fn around_half(random: &mut Random) -> [Parts; 2] {
    let tick = match random.index(4) {
        0 => random_tick(random),
        _ => random.signed(GREATEST_EPOCH),
    };
    let half_ticks = 2 * (i128::from(tick) + ORIGIN) + i128::from(random.signed(1));
    let scale = 2f64.powi(30);
    let days = (half_ticks as f64 / (2 * DAY) as f64 * scale).floor() / scale;
    let (first, _) = split(random, days);
    // The first part is a multiple of 2^-32 day, so its ticks are of 2^-16 tick.
    let fine_day = DAY << 16;
    let left = (half_ticks << 15) - nearest_tick(&[first], fine_day);
    let second = left as f64 / fine_day as f64;
    let many = random.between(1, 2);
    [-many, many].map(|many| (first, doubles_from(second, many)))
}

/// A part that may be far away, and what it leaves to a tick, in both orders.
fn far_and_near(random: &mut Random) -> [Parts; 2] {
    let tick = i128::from(random_tick(random));
    let (first, second) = parts_near(random, tick);
    [(first, second), (second, first)]
}

/// Two dates of one and the same exact sum, or of two with a half of a tick
/// between them.
pub fn splits(random: &mut Random) -> [(f64, f64); 2] {
    let dates = match random.index(10) {
        0..=2 => {
            let half = half(random, 2.0 * GREATEST_DAYS);
            two_splits(random, half)
        }
        3 => {
            let digits = random.between(0, 30) as i32;
            let sum = some_days(random, digits, 2.0 * GREATEST_DAYS);
            two_splits(random, sum)
        }
        4 => two_splits_of_many_digits(random),
        5 => far_and_near(random),
        6 => beside_half(random),
        7 => around_half(random),
        _ => half_and_tiny(random),
    };
    dates.map(|(first, second)| random.pick(&[(first, second), (second, first)]))
}

#[cfg(test)]
mod tests {
    use super::*;

    #[test]
    fn parts_have_exactly_the_sum_and_keep_the_limit() {
        let mut random = Random::new(71);
        for _ in 0..20_000 {
            let digits = random.between(0, 30) as i32;
            let sum = some_days(&mut random, digits, 2.0 * GREATEST_DAYS);
            let (first, second) = split(&mut random, sum);
            let left = nearest_tick(&[first, second, -sum], 1 << 120);
            assert_eq!(left, 0, "{first} + {second} = {sum}");
            assert!(first.abs() <= GREATEST_DAYS && second.abs() <= GREATEST_DAYS);
        }
    }

    #[test]
    fn two_splits_of_many_digits_have_one_sum() {
        let mut random = Random::new(72);
        for _ in 0..20_000 {
            let [(a, b), (c, d)] = two_splits_of_many_digits(&mut random);
            assert_eq!(nearest_tick(&[a, b, -c, -d], 1 << 120), 0);
        }
    }
}
