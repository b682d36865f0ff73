//! UTC readings and TAI ticks at the edges of a list's days.

use super::Random;
use crate::dates::{DAY, SECOND};
use crate::scales::GREATEST_EPOCH;
use crate::utc::{FIRST_DAY, Leaps, Utc};

/// Every first day of the list with its neighbours, and days of no list.
fn days_around(list: &[i64]) -> Vec<i64> {
    let around = |day: i64| (-2..=1).map(move |near| day.saturating_add(near));
    let first_days = list.iter().step_by(2).copied();
    let mut days: Vec<i64> = first_days.flat_map(around).collect();
    days.extend([i64::MIN, -1, 0, FIRST_DAY - 1, FIRST_DAY, i64::MAX]);
    days.sort();
    days.dedup();
    days
}

/// Where a day begins, and where a short, a plain and a long one end.
fn ticks_around() -> Vec<i64> {
    let ends = [0, 86_399, 86_400, 86_401].map(|seconds| seconds * SECOND as i64);
    let mut ticks: Vec<i64> = ends.iter().flat_map(|end| end - 1..=end + 1).collect();
    ticks.extend([i64::MIN, i64::MAX]);
    ticks
}

/// The reading of the range's last tick, of the one before and of the one after.
fn around_the_end(list: &[i64]) -> Vec<Utc> {
    let last = Leaps::judge(list).and_then(|leaps| leaps.write(GREATEST_EPOCH));
    let near = |Utc { day, ticks }| (ticks - 1..=ticks + 1).map(move |ticks| Utc { day, ticks });
    last.into_iter().flat_map(near).collect()
}

/// Readings around every first day of a list, at the end of the range, and with
/// days and ticks as far away as they can be. The list may be a broken one.
pub fn utc_edges(list: &[i64]) -> Vec<Utc> {
    let ticks = ticks_around();
    let of_day = |day: i64| ticks.iter().map(move |ticks| Utc { day, ticks: *ticks });
    let mut edges: Vec<Utc> = days_around(list).into_iter().flat_map(of_day).collect();
    edges.extend(around_the_end(list));
    edges
}

/// A reading of a day from the first on to some days past the range's end, which
/// is on day 112588; at times with any day or any ticks.
pub fn random_utc(random: &mut Random) -> Utc {
    let day = random.between(FIRST_DAY, 112_600);
    let ticks = random.between(0, DAY as i64 - 1);
    let any = random.bits() as i64;
    match random.index(8) {
        0 => Utc { day: any, ticks },
        1 => Utc { day, ticks: any },
        _ => Utc { day, ticks },
    }
}

/// TAI ticks at which the days around every first day of a list begin, with the
/// seconds on both sides: a day that ends too soon or too late shows there.
pub fn tai_edges(list: &[i64]) -> Vec<i64> {
    let Ok(leaps) = Leaps::judge(list) else {
        return Vec::new();
    };
    let start = |day: i64| leaps.read(Utc { day, ticks: 0 }).ok();
    let starts = days_around(list).into_iter().filter_map(start);
    let near = |tick: i128| (-1..=1).map(move |near| tick + near);
    let around = |tick: i128| (-1..=1).flat_map(move |seconds| near(tick + seconds * SECOND));
    let ticks = starts.flat_map(around);
    ticks.filter_map(|tick| i64::try_from(tick).ok()).collect()
}
