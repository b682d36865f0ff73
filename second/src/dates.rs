//! Dates: readings of epochs, and a tick written as a date.

use crate::exact::Whole;
use crate::refusal::{self, Refusal};
use crate::scales::{Scale, is_valid_epoch, scale_of_code, scale_of_utc_code};
use crate::utc::{Leaps, Utc};

/// "A reading is a two-part Julian date in days, two doubles; or seconds past
/// J2000, one double; or ticks." And since request 2026-01 UTC.
#[derive(Clone, Copy, Debug)]
pub enum Reading {
    TwoPart(f64, f64),
    SinceJ2000(f64),
    Ticks(i64),
    Utc(Utc),
}

/// The ticks of a day and of a second.
pub const DAY: i128 = 86_400_000_000_000;
pub const SECOND: i128 = 1_000_000_000;
/// JD 2443144.5003725 in ticks, a whole number: a day is 8,640,000 times 10^7.
pub const ORIGIN: i128 = 24_431_445_003_725 * 8_640_000;
/// "J2000 is JD 2451545.0 in the reading's scale."
pub const J2000: i128 = 2_451_545 * DAY;

pub const GREATEST_DAYS: f64 = 5_000_000.0;
pub const GREATEST_SECONDS: f64 = 1e10;

/// Every finite double is a whole number of times the smallest one, 2^-1074.
const SMALLEST: usize = 1074;

/// "Each double stands for its exact value": how many times the smallest double
/// that is. The value passed refusal 2.
fn smallest_doubles(value: f64) -> Whole {
    let bits = value.to_bits();
    let exponent = (bits >> 52) as usize & 0x7ff;
    let fraction = i128::from(bits & ((1 << 52) - 1));
    let magnitude = match exponent {
        0 => Whole::from(fraction),
        _ => Whole::from(fraction | 1 << 52).times_two_to(exponent - 1),
    };
    if bits >> 63 == 1 {
        -&magnitude
    } else {
        magnitude
    }
}

/// The exact sum of the parts times the ticks of their unit, to the nearest
/// tick, "halves to the greater". It "is rounded once", and nothing is left off
/// before: "A part may be far smaller than a tick and still decide a half."
/// The parts passed refusals 2 and 3, so these are fewer than 2^70 ticks.
pub fn nearest_tick(parts: &[f64], unit: i128) -> i128 {
    let exact = parts.iter().map(|part| smallest_doubles(*part));
    let sum = exact.fold(Whole::from(0), |sum, part| &sum + &part);
    let ticks = &sum * &Whole::from(unit);
    ticks.nearest_over_two_to(SMALLEST).to_i128()
}

fn first_part_that(parts: &[f64], number: u32, wrong: impl Fn(f64) -> bool) -> Result<(), Refusal> {
    match parts.iter().position(|part| wrong(*part)) {
        Some(part) => Err(Refusal::new(number, part as u64)),
        None => Ok(()),
    }
}

/// "then 2 over both parts, 3 over both parts (the first part first in each)"
fn judge_parts(parts: &[f64], greatest: f64) -> Result<(), Refusal> {
    first_part_that(parts, refusal::NOT_FINITE, |part| !part.is_finite())?;
    first_part_that(parts, refusal::BEYOND, |part| part.abs() > greatest)
}

/// Refusal 4 at the start, place 0.
fn valid_epoch(tick: i128) -> Result<i64, Refusal> {
    if !is_valid_epoch(tick) {
        return Err(Refusal::new(refusal::OUTSIDE_RANGE, 0));
    }
    Ok(i64::try_from(tick).expect("a valid epoch fits 64 bits"))
}

impl Reading {
    /// What the code says of this reading. "Code 7 with another kind of reading,
    /// or this kind with another code, is 1": None.
    pub fn scale_of_code(self, code: u32) -> Option<Scale> {
        match self {
            Reading::Utc(_) => scale_of_utc_code(code),
            _ => scale_of_code(code),
        }
    }

    /// The epoch read, or refusal 2, 3, 5 or 4. "From now on the exact sum of
    /// both parts is rounded once" (request 2026-02); "seconds are rounded once"
    /// (01). UTC is read as TAI, over its list.
    pub fn epoch(self, leaps: Option<&Leaps>) -> Result<i64, Refusal> {
        match self {
            Reading::TwoPart(first, second) => {
                judge_parts(&[first, second], GREATEST_DAYS)?;
                valid_epoch(nearest_tick(&[first, second], DAY) - ORIGIN)
            }
            Reading::SinceJ2000(seconds) => {
                judge_parts(&[seconds], GREATEST_SECONDS)?;
                valid_epoch(nearest_tick(&[seconds], SECOND) + J2000 - ORIGIN)
            }
            Reading::Ticks(tick) => valid_epoch(i128::from(tick)),
            Reading::Utc(utc) => {
                let leaps = leaps.expect("a UTC reading has its list");
                valid_epoch(leaps.read(utc)?)
            }
        }
    }
}

/// "Writing a tick as a date: the first part is the last Julian date ending in
/// .5 not after it, exact; the second is the ticks since then divided by
/// 86,400,000,000,000 as one rounded double division."
///
/// A valid epoch lies within 70,000 days of the origin, so both casts and the
/// half added are exact.
pub fn write_date(tick: i64) -> Result<(f64, f64), Refusal> {
    let julian = i128::from(valid_epoch(i128::from(tick))?) + ORIGIN;
    // Ticks since Julian date 0.5, of which every .5 is whole days away.
    let since_half = julian - DAY / 2;
    let first = since_half.div_euclid(DAY) as f64 + 0.5;
    let ticks_since = since_half.rem_euclid(DAY);
    Ok((first, ticks_since as f64 / DAY as f64))
}
