//! UTC over a lent list of leap seconds: the list judged, a reading read as a TAI tick, and a TAI
//! tick written.

use super::Refusal;
use super::scales::valid;

const SECOND: i64 = 1_000_000_000;
const DAY: i64 = 86_400 * SECOND;
const FIRST_DAY: i64 = 41_317;
/// No tick of a later day is in the range, and up to it every one fits 64 bits.
const LAST_DAY: i64 = 143_144;

/// Pairs of first day and TAI−UTC in seconds that keep their rules.
#[derive(Clone, Copy)]
pub struct Leaps<'a>(&'a [[i64; 2]]);

/// The TAI tick at which a day begins.
fn start(day: i64, seconds: i64) -> i64 {
    (day - 43_144) * DAY + seconds * SECOND - 32_184_000_000
}

impl<'a> Leaps<'a> {
    /// The flat list, or refusal 8 or 7.
    pub fn judge(flat: &'a [i64]) -> Result<Leaps<'a>, Refusal> {
        let (pairs, []) = flat.as_chunks() else {
            return Err(Refusal::new(8, 0));
        };
        let follows = |two: &[[i64; 2]]| {
            let [[day, seconds], [next_day, next_seconds]] = [two[0], two[1]];
            day < next_day && seconds.abs_diff(next_seconds) == 1
        };
        let begun = pairs.first() == Some(&[FIRST_DAY, 10]);
        if !begun || pairs.len() > 64 || !pairs.windows(2).all(follows) {
            return Err(Refusal::new(7, 0));
        }
        Ok(Leaps(pairs))
    }

    /// The day's length is that of 86,400 s but before a rise or a fall.
    pub fn read(self, day: i64, ticks: i64) -> Result<i64, Refusal> {
        if day < FIRST_DAY {
            return Err(Refusal::new(5, 0));
        }
        let next = self.0.partition_point(|pair| pair[0] <= day);
        let seconds = self.0[next - 1][1];
        let length = match self.0.get(next) {
            Some(after) if after[0] - 1 == day => DAY + (after[1] - seconds) * SECOND,
            _ => DAY,
        };
        if !(0..length).contains(&ticks) {
            return Err(Refusal::new(5, 0));
        }
        if day > LAST_DAY {
            return Err(Refusal::new(4, 0));
        }
        match start(day, seconds) + ticks {
            tick if valid(tick) => Ok(tick),
            _ => Err(Refusal::new(4, 0)),
        }
    }

    fn start(self, day: i64) -> i64 {
        let next = self.0.partition_point(|pair| pair[0] <= day);
        start(day, self.0[next - 1][1])
    }

    /// A tick is on its day where TAI−UTC is −53 s, the least that 64 pairs come to, or on the day
    /// before.
    pub fn write(self, tai: i64) -> Result<(i64, i64), Refusal> {
        if tai < start(FIRST_DAY, 10) {
            return Err(Refusal::new(5, 0));
        }
        let day = 43_144 + (tai + 85_184_000_000).div_euclid(DAY);
        match tai - self.start(day) {
            ticks @ 0.. => Ok((day, ticks)),
            _ => Ok((day - 1, tai - self.start(day - 1))),
        }
    }
}
