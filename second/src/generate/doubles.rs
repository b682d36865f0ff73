//! Doubles by bit pattern, with exact halves and neighbours of every limit.

use super::Random;
use crate::dates::{DAY, GREATEST_DAYS, GREATEST_SECONDS, J2000, ORIGIN, SECOND, write_date};
use crate::scales::GREATEST_EPOCH;

/// Not finite, nearly zero, and beyond every limit.
fn strange() -> Vec<f64> {
    let patterns = [
        0x7ff0_0000_0000_0000,
        0x7ff0_0000_0000_0001,
        0x7ff8_0000_0000_0000,
        0x7fff_ffff_ffff_ffff,
        0x7fef_ffff_ffff_ffff,
        0x0000_0000_0000_0000,
        0x0000_0000_0000_0001,
        0x000f_ffff_ffff_ffff,
        0x0010_0000_0000_0000,
        0x4330_0000_0000_0000,
        0x43f0_0000_0000_0000,
    ];
    patterns
        .into_iter()
        .flat_map(|bits| [f64::from_bits(bits), -f64::from_bits(bits)])
        .collect()
}

fn with_neighbours(values: Vec<f64>) -> Vec<f64> {
    values
        .into_iter()
        .flat_map(|x| {
            [
                x,
                x.next_up(),
                x.next_down(),
                -x,
                -x.next_up(),
                -x.next_down(),
            ]
        })
        .collect()
}

/// An odd multiple of 2^-17 day is an exact half of a tick, since a day is
/// 2^16·27·5^11 ticks; an odd multiple of 2^-10 second is one, since a second
/// is 2^9·5^9 ticks. So `power` is 17 or 10.
fn exact_half(random: &mut Random, power: i32, greatest: f64) -> f64 {
    let scale = 2f64.powi(power);
    let odd = 2 * random.up_to((greatest * scale) as i64 / 2) + 1;
    random.signed(odd) as f64 / scale
}

/// Near zero a double is fine enough to lie just beside half a tick.
fn near_half_tick(unit: i128) -> Vec<f64> {
    let tick = 1.0 / unit as f64;
    with_neighbours(vec![0.5 * tick, tick, 1.5 * tick, 2.5 * tick])
}

/// Days at every limit: of a part, of the range, of the origin.
pub fn edge_days(random: &mut Random) -> Vec<f64> {
    let end = |tick: i128| (tick + ORIGIN) as f64 / DAY as f64;
    let limits = vec![
        GREATEST_DAYS,
        2.0 * GREATEST_DAYS,
        end(0),
        end(i128::from(GREATEST_EPOCH)),
        end(-i128::from(GREATEST_EPOCH)),
        2_443_144.5,
        2_451_545.0,
        0.5,
        1.0,
    ];
    let mut days = with_neighbours(limits);
    days.extend(strange());
    days.extend(near_half_tick(DAY));
    for _ in 0..40 {
        let half = exact_half(random, 17, GREATEST_DAYS);
        days.extend([half, half.next_up(), half.next_down()]);
    }
    days
}

/// Seconds at every limit: of the number itself and of the range.
pub fn edge_seconds(random: &mut Random) -> Vec<f64> {
    let end = |tick: i128| (tick + ORIGIN - J2000) as f64 / SECOND as f64;
    let limits = vec![
        GREATEST_SECONDS,
        2.0 * GREATEST_SECONDS,
        end(i128::from(GREATEST_EPOCH)),
        end(-i128::from(GREATEST_EPOCH)),
        end(0),
        0.5,
        1.0,
    ];
    let mut seconds = with_neighbours(limits);
    seconds.extend(strange());
    seconds.extend(near_half_tick(SECOND));
    for _ in 0..40 {
        let half = exact_half(random, 10, GREATEST_SECONDS);
        seconds.extend([half, half.next_up(), half.next_down()]);
    }
    seconds
}

/// A date whose parts add to the tick given, or to a neighbour of it, split in
/// one of several ways.
fn date_near(random: &mut Random, tick: i64) -> (f64, f64) {
    let Ok((first, second)) = write_date(tick.clamp(-GREATEST_EPOCH, GREATEST_EPOCH)) else {
        unreachable!("a valid epoch is written")
    };
    let second = random.pick(&[second, second, second.next_up(), second.next_down()]);
    let tick_of_day = random.between(-3, 3) as f64 / DAY as f64;
    match random.index(6) {
        0 => (second, first),
        1 => (first, second + tick_of_day),
        2 => (first + 1.0, second - 1.0),
        3 => (GREATEST_DAYS, first - GREATEST_DAYS + second),
        4 => (first + exact_half(random, 17, 1.0), second),
        _ => (first, second),
    }
}

/// Two-part dates: of the ticks given, of the limits, and of any bits.
pub fn date_pairs(random: &mut Random, ticks: &[i64], how_many: usize) -> Vec<(f64, f64)> {
    let edges = edge_days(random);
    (0..how_many)
        .map(|i| match i % 8 {
            0 => (random.pick(&edges), random.pick(&edges)),
            1 => (f64::from_bits(random.bits()), random.pick(&edges)),
            2 => (random.pick(&edges), f64::from_bits(random.bits())),
            3 => {
                let end = random.signed(GREATEST_EPOCH);
                date_near(random, end)
            }
            4 => (2_443_144.5, exact_half(random, 17, 60_000.0)),
            _ => {
                let tick = random.pick(ticks);
                date_near(random, tick)
            }
        })
        .collect()
}

/// Seconds past J2000: of the ticks given, of the limits, and of any bits.
pub fn seconds_past_j2000(random: &mut Random, ticks: &[i64], how_many: usize) -> Vec<f64> {
    let edges = edge_seconds(random);
    (0..how_many)
        .map(|i| match i % 4 {
            0 => random.pick(&edges),
            1 => match random.index(3) {
                0 => f64::from_bits(random.bits()),
                _ => exact_half(random, 10, 6e9),
            },
            _ => {
                let tick = i128::from(random.pick(ticks)) + ORIGIN - J2000;
                tick as f64 / SECOND as f64
            }
        })
        .collect()
}
