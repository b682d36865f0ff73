//! Lists of TAI−UTC: the real one, random accepted ones, and lists broken in
//! each way that refusals 8 and 7 name.

use super::Random;
use crate::refusal;
use crate::utc::{FIRST_DAY, FIRST_SECONDS, GREATEST_PAIRS};

/// The leap seconds from 1972 to 2017, as they were.
#[rustfmt::skip]
pub const REAL_LEAPS: [i64; 56] = [
    41_317, 10, 41_499, 11, 41_683, 12, 42_048, 13, 42_413, 14, 42_778, 15, 43_144, 16,
    43_509, 17, 43_874, 18, 44_239, 19, 44_786, 20, 45_151, 21, 45_516, 22, 46_247, 23,
    47_161, 24, 47_892, 25, 48_257, 26, 48_804, 27, 49_169, 28, 49_534, 29, 50_083, 30,
    50_630, 31, 51_179, 32, 53_736, 33, 54_832, 34, 56_109, 35, 57_204, 36, 57_754, 37,
];

/// Few pairs or many, and often as many as there may be.
fn any_size(random: &mut Random) -> usize {
    let some = random.between(4, 62) as usize;
    random.pick(&[1, 2, 3, some, some, GREATEST_PAIRS - 1, GREATEST_PAIRS])
}

/// Days that follow each other at once, soon or late; from some pair on they
/// are close to the day given, if it is not passed yet. At times the last is as
/// late as a day can be.
fn rising_days(random: &mut Random, size: usize, near: i64) -> Vec<i64> {
    let nears = 1 + random.index(size);
    let far = random.one_in(6);
    let mut days = vec![FIRST_DAY];
    for pair in 1..size {
        let next = days[pair - 1] + 1;
        let later = match random.index(8) {
            0..4 => 0,
            4 => 1,
            5 | 6 => random.between(2, 40),
            _ => random.between(41, 900),
        };
        days.push(match pair {
            _ if far && pair == size - 1 => i64::MAX - random.between(0, 2),
            _ if pair == nears => next.max(near + random.between(-1, 1)),
            _ => next + later,
        });
    }
    days
}

/// Seconds that rise all the time, fall all the time, do both by turns or as it
/// comes.
fn changing_seconds(random: &mut Random, size: usize) -> Vec<i64> {
    let kind = random.index(4);
    let mut seconds = vec![FIRST_SECONDS];
    for pair in 1..size {
        let change = match kind {
            0 => 1,
            1 => -1,
            2 => [1, -1][pair % 2],
            _ => random.signed(1),
        };
        seconds.push(seconds[pair - 1] + change);
    }
    seconds
}

fn flat(days: &[i64], seconds: &[i64]) -> Vec<i64> {
    let pairs = days.iter().zip(seconds);
    pairs.flat_map(|(day, seconds)| [*day, *seconds]).collect()
}

/// An accepted list, some of its days close to the one given.
pub fn accepted_leaps(random: &mut Random, near: i64) -> Vec<i64> {
    let size = any_size(random);
    let days = rising_days(random, size, near);
    flat(&days, &changing_seconds(random, size))
}

/// A list and the refusal that its one fault deserves, place 0.
#[derive(Clone, Debug)]
pub struct BrokenLeaps {
    pub list: Vec<i64>,
    pub number: u32,
    pub way: &'static str,
}

struct Ways<'a> {
    random: &'a mut Random,
    /// An accepted list of two pairs or more.
    leaps: Vec<i64>,
    list: Vec<BrokenLeaps>,
}

/// One or more broken lists for each way that the given accepted list can be
/// broken. A list of one pair gets a second pair first.
pub fn broken_leaps(random: &mut Random, leaps: &[i64]) -> Vec<BrokenLeaps> {
    let mut leaps = leaps.to_vec();
    if leaps.len() == 2 {
        leaps.extend([FIRST_DAY + 1, FIRST_SECONDS + random.signed(1)]);
    }
    let list = Vec::new();
    let mut ways = Ways {
        random,
        leaps,
        list,
    };
    ways.odd_lengths();
    ways.counts();
    ways.first_pairs();
    ways.days();
    ways.seconds();
    ways.exchanges();
    ways.list
}

/// In 32 bits it does not show that this was added.
const BEYOND_32_BITS: i64 = 1 << 32;

impl Ways<'_> {
    fn add(&mut self, number: u32, way: &'static str, list: Vec<i64>) {
        self.list.push(BrokenLeaps { list, number, way });
    }

    /// The list with one change.
    fn changed(&mut self, way: &'static str, change: impl FnOnce(&mut [i64])) {
        let mut list = self.leaps.clone();
        change(&mut list);
        self.add(refusal::LEAPS_BROKEN, way, list);
    }

    fn pairs(&self) -> usize {
        self.leaps.len() / 2
    }

    /// The second pair, the last, or one in between.
    fn later_pair(&mut self) -> usize {
        let last = self.pairs() - 1;
        let between = 1 + self.random.index(last);
        self.random.pick(&[1, between, last])
    }

    /// 8, and not 7, whatever else is wrong.
    fn odd_lengths(&mut self) {
        let (leaps, last) = (self.leaps.clone(), self.leaps.len() - 1);
        let lists = [
            leaps[..last].to_vec(),
            leaps[..1].to_vec(),
            leaps[1..].to_vec(),
            [&leaps[..], &[leaps[last - 1] - 1]].concat(),
            vec![0; 2 * GREATEST_PAIRS + 1],
        ];
        for list in lists {
            self.add(refusal::LENT_LENGTHS, "an odd length", list);
        }
    }

    /// No pairs, and just and far more than 64, all of which follow.
    fn counts(&mut self) {
        self.add(refusal::LEAPS_BROKEN, "no pairs", vec![]);
        let more = [1, 2, GREATEST_PAIRS, 1_000];
        for pairs in more.map(|more| GREATEST_PAIRS + more) {
            let days: Vec<i64> = (FIRST_DAY..).take(pairs).collect();
            let list = flat(&days, &changing_seconds(self.random, pairs));
            self.add(refusal::LEAPS_BROKEN, "too many pairs", list);
        }
    }

    /// Another first day, and other first seconds that the next ones follow.
    fn first_pairs(&mut self) {
        for day in [FIRST_DAY - 1, FIRST_DAY - BEYOND_32_BITS, 0, i64::MIN] {
            self.changed("first day", |list| list[0] = day);
        }
        // The second day is later still.
        let days = [FIRST_DAY + 1, FIRST_DAY + BEYOND_32_BITS, i64::MAX - 70];
        for day in days {
            let list = vec![day, FIRST_SECONDS, day + 1, FIRST_SECONDS + 1];
            self.add(refusal::LEAPS_BROKEN, "first day", list);
        }
        for by in [1, -1, -10, -20, BEYOND_32_BITS, i64::MIN / 2] {
            let moved = |list: &mut [i64]| shift(list, 0, by);
            self.changed("first seconds", moved);
        }
    }

    /// A day that is not after the one before it.
    fn days(&mut self) {
        let pair = self.later_pair();
        let before = self.leaps[2 * pair - 2];
        for day in [before, before - 1, FIRST_DAY - 1, -before, i64::MIN] {
            self.changed("days", |list| list[2 * pair] = day);
        }
        // Not after it as signed numbers are.
        let last = self.pairs() - 1;
        self.changed("days", |list| list[2 * last] = i64::MIN);
    }

    /// Seconds that do not change, or by more than one; all later ones follow.
    fn seconds(&mut self) {
        let pair = self.later_pair();
        let change = self.leaps[2 * pair + 1] - self.leaps[2 * pair - 1];
        let wrong = [0, 2, -2, 3, -100, 1 + BEYOND_32_BITS, -1 - BEYOND_32_BITS];
        for by in wrong {
            let moved = |list: &mut [i64]| shift(list, pair, by - change);
            self.changed("seconds", moved);
        }
        let last = self.pairs() - 1;
        for seconds in [i64::MIN, i64::MAX] {
            self.changed("seconds", |list| list[2 * last + 1] = seconds);
        }
    }

    /// Two pairs, or all days and seconds, in each other's place.
    fn exchanges(&mut self) {
        let pair = self.later_pair();
        let exchanged = |list: &mut [i64]| {
            list.swap(2 * pair, 2 * pair - 2);
            list.swap(2 * pair + 1, 2 * pair - 1);
        };
        self.changed("pairs exchanged", exchanged);
        let seconds_first = |list: &mut [i64]| list.chunks_exact_mut(2).for_each(<[i64]>::reverse);
        self.changed("seconds first", seconds_first);
    }
}

/// Moves the seconds of this pair and of all later ones.
fn shift(list: &mut [i64], pair: usize, by: i64) {
    let pairs = list.chunks_exact_mut(2).skip(pair);
    pairs.for_each(|pair| pair[1] += by);
}
