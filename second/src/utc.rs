//! UTC (request 2026-01): a Modified Julian Day and ticks within the day, over a
//! lent list that tells TAI−UTC.

use crate::dates::{DAY, SECOND};
use crate::refusal::{self, Refusal};

/// "A UTC reading is a Modified Julian Day and ticks within the day." Its order
/// is "day first, then ticks", as the fields stand here.
#[derive(Clone, Copy, Debug, PartialEq, Eq, PartialOrd, Ord)]
pub struct Utc {
    pub day: i64,
    pub ticks: i64,
}

/// One of the list's pairs, "(first day, TAI−UTC in seconds)".
#[derive(Clone, Copy, Debug, PartialEq, Eq)]
struct Pair {
    first_day: i64,
    seconds: i64,
}

/// "starts with day 41317 and 10 s"
pub const FIRST_DAY: i64 = 41_317;
pub const FIRST_SECONDS: i64 = 10;
const FIRST: Pair = Pair {
    first_day: FIRST_DAY,
    seconds: FIRST_SECONDS,
};
/// "A lent list of up to 64 pairs"
pub const GREATEST_PAIRS: usize = 64;

/// "days rise strictly and seconds change by exactly one"
fn follows(later: Pair, earlier: Pair) -> bool {
    let change = i128::from(later.seconds) - i128::from(earlier.seconds);
    later.first_day > earlier.first_day && change.abs() == 1
}

/// A list that keeps its rules, and so has a first pair.
#[derive(Clone, Debug)]
pub struct Leaps(Vec<Pair>);

impl Leaps {
    /// The flat list, or its refusal: 8 where its length is odd, then "7 exactly
    /// when the list breaks a rule above".
    pub fn judge(list: &[i64]) -> Result<Leaps, Refusal> {
        if !list.len().is_multiple_of(2) {
            return Err(Refusal::new(refusal::LENT_LENGTHS, 0));
        }
        let pair = |two: &[i64]| Pair {
            first_day: two[0],
            seconds: two[1],
        };
        let leaps = Leaps(list.chunks_exact(2).map(pair).collect());
        match leaps.keeps_rules() {
            true => Ok(leaps),
            false => Err(Refusal::new(refusal::LEAPS_BROKEN, 0)),
        }
    }

    fn keeps_rules(&self) -> bool {
        let Leaps(pairs) = self;
        pairs.first() == Some(&FIRST)
            && pairs.len() <= GREATEST_PAIRS
            && pairs.windows(2).all(|two| follows(two[1], two[0]))
    }

    /// TAI−UTC on a day: that of the last pair whose first day is not after it,
    /// so that the last pair's holds for ever. None before the list's first day.
    fn seconds_on(&self, day: i128) -> Option<i128> {
        let mut pairs = self.0.iter().rev();
        let pair = pairs.find(|pair| i128::from(pair.first_day) <= day)?;
        Some(i128::from(pair.seconds))
    }

    /// "The day before a rise has 86,401 s, before a fall 86,399." Any other has
    /// 86,400. Here in ticks.
    fn length(&self, day: i128) -> i128 {
        let ends_it = |two: &&[Pair]| i128::from(two[1].first_day) == day + 1;
        let seconds = match self.0.windows(2).find(ends_it) {
            Some([before, after]) if after.seconds > before.seconds => 86_401,
            Some([before, after]) if after.seconds < before.seconds => 86_399,
            _ => 86_400,
        };
        seconds * SECOND
    }

    /// "TAI tick = (day − 43144)·86,400·10^9 + ticks in day + seconds·10^9 −
    /// 32,184,000,000", with no ticks in the day. None before the first day.
    fn start(&self, day: i128) -> Option<i128> {
        let seconds = self.seconds_on(day)?;
        Some((day - 43_144) * DAY + seconds * SECOND - 32_184_000_000)
    }

    /// The TAI tick of a reading, or 5: "a day [...] before the list's first
    /// day, or ticks negative or at or past the day's end". It may lie outside
    /// the range. A day is below 2^63 and a day's ticks below 2^47, so that i128
    /// holds all of it.
    pub fn read(&self, Utc { day, ticks }: Utc) -> Result<i128, Refusal> {
        let (day, ticks) = (i128::from(day), i128::from(ticks));
        let refused = Refusal::new(refusal::OUTSIDE_UTC, 0);
        let start = self.start(day).ok_or(refused)?;
        match (0..self.length(day)).contains(&ticks) {
            true => Ok(start + ticks),
            false => Err(refused),
        }
    }

    /// The reading whose TAI tick this is, or 5: "a TAI tick to be written,
    /// before the list's first day".
    ///
    /// From the first 10 s on, 63 changes by one lead to −53 to 73 s at most.
    /// Less 32.184 s they move the start of a day by less than a day, so the
    /// day is the one that it would be without them, or a neighbour of that.
    pub fn write(&self, tai: i64) -> Result<Utc, Refusal> {
        let tai = i128::from(tai);
        let near = 43_144 + tai.div_euclid(DAY);
        let written = (near - 1..=near + 1).find_map(|day| self.on_day(day, tai));
        // Should the argument fail, we stop rather than answer wrongly.
        let first = self.start(i128::from(FIRST_DAY));
        assert_eq!(
            written.is_none(),
            Some(tai) < first,
            "each tick has its day"
        );
        written.ok_or(Refusal::new(refusal::OUTSIDE_UTC, 0))
    }

    /// The TAI tick as ticks in this day; None where it lies in another.
    fn on_day(&self, day: i128, tai: i128) -> Option<Utc> {
        let ticks = tai - self.start(day)?;
        let narrow = |number| i64::try_from(number).expect("days and ticks of a tick fit 64 bits");
        (0..self.length(day)).contains(&ticks).then(|| Utc {
            day: narrow(day),
            ticks: narrow(ticks),
        })
    }
}

#[cfg(test)]
mod tests {
    use super::*;
    use crate::generate::{REAL_LEAPS, Random, accepted_leaps};

    fn leaps(list: &[i64]) -> Leaps {
        Leaps::judge(list).expect("an accepted list")
    }

    fn lengths(leaps: &Leaps, days: std::ops::Range<i128>) -> Vec<i128> {
        days.map(|day| leaps.length(day) / SECOND).collect()
    }

    #[test]
    fn the_day_before_a_change_is_long_or_short() {
        let one = leaps(&[41_317, 10]);
        assert_eq!(lengths(&one, 41_316..41_320), [86_400; 4]);
        let rise = leaps(&[41_317, 10, 41_320, 11]);
        let expected = [86_400, 86_400, 86_401, 86_400, 86_400];
        assert_eq!(lengths(&rise, 41_317..41_322), expected);
        let fall = leaps(&[41_317, 10, 41_320, 9]);
        let expected = [86_400, 86_400, 86_399, 86_400, 86_400];
        assert_eq!(lengths(&fall, 41_317..41_322), expected);
    }

    /// "A day that is itself an entry's first day may be long or short."
    #[test]
    fn long_and_short_days_may_follow_each_other() {
        let list = [
            41_317, 10, 41_318, 11, 41_319, 12, 41_320, 11, 41_321, 10, 41_322, 11,
        ];
        let leaps = leaps(&list);
        let expected = [86_400, 86_401, 86_401, 86_399, 86_399, 86_401, 86_400];
        assert_eq!(lengths(&leaps, 41_316..41_323), expected);
    }

    /// The formula against a count of all days' ticks, one day after another.
    #[test]
    fn each_day_begins_where_the_one_before_ends() {
        let mut random = Random::new(80);
        let mut lists = vec![REAL_LEAPS.to_vec(), vec![FIRST_DAY, FIRST_SECONDS]];
        lists.extend((0..60).map(|_| accepted_leaps(&mut random, FIRST_DAY + 500)));
        for list in lists {
            let leaps = leaps(&list);
            // (41317 − 43144)·86,400·10^9 + 10·10^9 − 32,184,000,000
            let mut start = -157_852_822_184_000_000;
            for day in i128::from(FIRST_DAY)..60_000 {
                assert_eq!(leaps.start(day), Some(start), "{day} of {list:?}");
                start += leaps.length(day);
            }
        }
    }

    #[test]
    fn the_last_seconds_hold_for_ever() {
        let leaps = leaps(&REAL_LEAPS);
        for day in [57_754, 60_000, 112_588, i128::from(i64::MAX)] {
            assert_eq!(leaps.seconds_on(day), Some(37));
            assert_eq!(leaps.length(day), DAY);
        }
        for day in [41_316, 0, i128::from(i64::MIN)] {
            assert_eq!(leaps.seconds_on(day), None);
            assert_eq!(leaps.start(day), None);
        }
    }
}
