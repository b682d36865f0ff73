//! UTC over a lent list: what list is refused, readings and written readings,
//! the leap second itself, there and back, and order.

mod leaps;

use leaps::change_after;
use second::generate::{
    REAL_LEAPS, Random, accepted_leaps, broken_leaps, edge_ticks, random_tick, random_utc,
    tai_edges, utc_edges,
};
use second::refusal::Refusal;
use second::utc::{FIRST_DAY, Leaps, Utc};
use std::collections::BTreeSet;

const SECOND: i64 = 1_000_000_000;
const DAY: i64 = 86_400 * SECOND;
/// The TAI tick of day 41317, ticks 0.
const FIRST_TAI: i64 = -157_852_822_184_000_000;

fn refused<T>(number: u32) -> Result<T, Refusal> {
    Err(Refusal::new(number, 0))
}

fn utc(day: i64, ticks: i64) -> Utc {
    Utc { day, ticks }
}

fn accepted(list: &[i64]) -> Leaps {
    Leaps::judge(list).expect("an accepted list")
}

/// The number that a list is refused with; 0 where it is accepted.
fn number(list: &[i64]) -> u32 {
    Leaps::judge(list).map_or_else(|refusal| refusal.number, |_| 0)
}

/// The real list and random ones, some of them around the range's last day.
fn lists(seed: u64, many: usize) -> Vec<Vec<i64>> {
    let mut random = Random::new(seed);
    let mut lists = vec![REAL_LEAPS.to_vec()];
    for _ in 0..many {
        let near = random.pick(&[FIRST_DAY, 41_400, 43_144, 60_000, 112_588]);
        lists.push(accepted_leaps(&mut random, near));
    }
    lists
}

/// Rising or falling pairs on days that follow each other.
fn pairs(many: i64, change: i64) -> Vec<i64> {
    let pair = |i: i64| [FIRST_DAY + i, 10 + i * change];
    (0..many).flat_map(pair).collect()
}

#[test]
fn a_list_has_1_to_64_pairs() {
    assert_eq!(number(&[]), 7);
    for change in [1, -1] {
        for many in 1..=64 {
            assert_eq!(number(&pairs(many, change)), 0, "{many}");
        }
        for many in [65, 66, 128, 1_000] {
            assert_eq!(number(&pairs(many, change)), 7, "{many}");
        }
    }
}

/// "A flat list of odd length is 8", before 7.
#[test]
fn an_odd_length_is_8() {
    let long = pairs(100, 1);
    for length in (1..200).step_by(2) {
        assert_eq!(
            Leaps::judge(&long[..length]).err(),
            Some(Refusal::new(8, 0))
        );
        assert_eq!(number(&vec![0; length]), 8);
    }
}

#[test]
fn every_rule_of_a_list_is_7() {
    let first_pairs = [
        (41_316, 10),
        (41_318, 10),
        (41_317, 9),
        (41_317, 11),
        (0, 0),
    ];
    for (day, seconds) in first_pairs {
        assert_eq!(number(&[day, seconds]), 7);
        assert_eq!(number(&[day, seconds, day + 1, seconds + 1]), 7);
    }
    for day in [i64::MIN, -1, 0, 10, 41_316, 41_317] {
        assert_eq!(number(&[41_317, 10, day, 11]), 7, "{day}");
        assert_eq!(number(&[41_317, 10, 41_318, 11, 41_320, 12, day, 13]), 7);
    }
    for seconds in [i64::MIN, -11, 0, 8, 10, 12, 13, 11 + (1 << 32), i64::MAX] {
        assert_eq!(number(&[41_317, 10, 50_000, seconds]), 7, "{seconds}");
    }
    for day in [41_318, 41_319, 50_000, i64::MAX] {
        for seconds in [9, 11] {
            assert_eq!(number(&[41_317, 10, day, seconds]), 0, "{day} {seconds}");
        }
    }
}

#[test]
fn broken_lists_are_refused_as_foretold() {
    let mut random = Random::new(81);
    let mut met = BTreeSet::new();
    for list in lists(82, 300) {
        for broken in broken_leaps(&mut random, &list) {
            let foretold = Leaps::judge(&broken.list).err();
            assert_eq!(foretold, Some(Refusal::new(broken.number, 0)), "{broken:?}");
            met.insert((broken.number, broken.way));
        }
    }
    assert_eq!(met.len(), 9, "{met:?}");
}

#[test]
fn accepted_lists_are_accepted_and_have_every_kind_of_neighbours() {
    let (mut sizes, mut neighbours) = (BTreeSet::new(), BTreeSet::new());
    let (mut last_days, mut least, mut most) = (BTreeSet::new(), 10, 10);
    for list in lists(83, 600) {
        assert_eq!(number(&list), 0, "{list:?}");
        sizes.insert(list.len() / 2);
        for pair in list.chunks_exact(2) {
            let (before, after) = (
                change_after(&list, pair[0] - 1),
                change_after(&list, pair[0]),
            );
            neighbours.insert((before, after));
            least = least.min(pair[1]);
            most = most.max(pair[1]);
        }
        last_days.insert(list[list.len() - 2]);
    }
    assert!(sizes.len() > 55 && sizes.contains(&1) && sizes.contains(&64));
    for first in [1, -1] {
        for second in [1, -1, 0] {
            assert!(neighbours.contains(&(first, second)));
        }
    }
    assert_eq!((least, most), (-53, 73));
    assert!((0..3).all(|before| last_days.contains(&(i64::MAX - before))));
}

/// The leap second of 2016-12-31.
#[test]
fn the_leap_second_of_2016() {
    let real = accepted(&REAL_LEAPS);
    let begin = 1_262_304_003_816_000_000;
    assert_eq!(real.read(utc(57_753, DAY - 1)), Ok(begin - 1));
    assert_eq!(real.read(utc(57_753, DAY)), Ok(begin));
    assert_eq!(
        real.read(utc(57_753, DAY + SECOND - 1)),
        Ok(begin + 999_999_999)
    );
    assert_eq!(real.read(utc(57_754, 0)), Ok(begin + 1_000_000_000));
    assert_eq!(real.read(utc(57_753, DAY + SECOND)), refused(5));
    assert_eq!(real.read(utc(57_754, DAY)), refused(5));
    assert_eq!(real.read(utc(57_752, DAY)), refused(5));
    let begin = begin as i64;
    assert_eq!(real.write(begin - 1), Ok(utc(57_753, DAY - 1)));
    assert_eq!(real.write(begin), Ok(utc(57_753, DAY)));
    assert_eq!(
        real.write(begin + SECOND - 1),
        Ok(utc(57_753, DAY + SECOND - 1))
    );
    assert_eq!(real.write(begin + SECOND), Ok(utc(57_754, 0)));
}

#[test]
fn every_change_of_the_real_list_has_its_leap_second() {
    let real = accepted(&REAL_LEAPS);
    for pair in REAL_LEAPS.chunks_exact(2).skip(1) {
        let midnight = real.read(utc(pair[0], 0)).unwrap();
        for (ticks, before) in [(DAY + SECOND - 1, 1), (DAY, 1_000_000_000)] {
            let reading = utc(pair[0] - 1, ticks);
            assert_eq!(real.read(reading), Ok(midnight - before));
            assert_eq!(real.write((midnight - before) as i64), Ok(reading));
        }
        assert_eq!(real.read(utc(pair[0] - 1, DAY + SECOND)), refused(5));
        assert_eq!(real.read(utc(pair[0], DAY)), refused(5));
    }
}

/// 1977-01-01T00:00:00 TAI is 16 s before that of UTC, when a 16th had just
/// come.
#[test]
fn some_values() {
    let real = accepted(&REAL_LEAPS);
    assert_eq!(real.read(utc(41_317, 0)), Ok(FIRST_TAI.into()));
    assert_eq!(real.read(utc(43_144, 0)), Ok(-16_184_000_000));
    assert_eq!(
        real.write(-32_184_000_000),
        Ok(utc(43_143, 86_385 * SECOND))
    );
    assert_eq!(real.write(0), Ok(utc(43_144, 16_184_000_000)));
    // A fall: the last second of the day is not there.
    let fall = accepted(&[41_317, 10, 43_144, 9]);
    let midnight = -23_184_000_000;
    assert_eq!(fall.read(utc(43_144, 0)), Ok(midnight.into()));
    assert_eq!(fall.write(midnight - 1), Ok(utc(43_143, DAY - SECOND - 1)));
    assert_eq!(fall.read(utc(43_143, DAY - SECOND)), refused(5));
    assert_eq!(fall.read(utc(43_143, DAY - 1)), refused(5));
}

/// A fall and a rise beside each other, tick by tick where the days end.
#[test]
fn a_short_and_a_long_day_beside_each_other() {
    let list = accepted(&[41_317, 10, 41_318, 9, 41_319, 10]);
    let (short, long) = (DAY - SECOND, DAY + SECOND);
    let starts = [FIRST_TAI, FIRST_TAI + short, FIRST_TAI + short + long];
    let cases = [
        (starts[0] - 1, refused(5)),
        (starts[0], Ok(utc(41_317, 0))),
        (starts[1] - 1, Ok(utc(41_317, short - 1))),
        (starts[1], Ok(utc(41_318, 0))),
        (starts[2] - 1, Ok(utc(41_318, long - 1))),
        (starts[2], Ok(utc(41_319, 0))),
        (starts[2] + DAY - 1, Ok(utc(41_319, DAY - 1))),
        (starts[2] + DAY, Ok(utc(41_320, 0))),
    ];
    for (tai, expected) in cases {
        assert_eq!(list.write(tai), expected, "{tai}");
        if let Ok(utc) = expected {
            assert_eq!(list.read(utc), Ok(tai.into()));
        }
    }
}

/// "5 a day [...] before the list's first day, or ticks negative or at or past
/// the day's end", and no other; by the length that the list alone tells.
#[test]
fn a_reading_is_refused_exactly_outside_its_day() {
    for list in lists(84, 120) {
        let judged = accepted(&list);
        for reading in utc_edges(&list) {
            let Utc { day, ticks } = reading;
            let length = DAY + change_after(&list, day) * SECOND;
            let inside = (0..length).contains(&ticks);
            let expected = day >= FIRST_DAY && inside;
            assert_eq!(
                judged.read(reading).is_ok(),
                expected,
                "{reading:?} {list:?}"
            );
            if !expected {
                assert_eq!(judged.read(reading), refused(5));
            }
        }
    }
}

/// Days at both ends of 64 bits: nothing overflows.
#[test]
fn extreme_days_and_ticks() {
    let most = i128::from(i64::MAX) - 43_144;
    let tai = |seconds: i128| most * 86_400_000_000_000 + seconds * 1_000_000_000 - 32_184_000_000;
    let plain = accepted(&[41_317, 10]);
    assert_eq!(plain.read(utc(i64::MAX, 0)), Ok(tai(10)));
    for ticks in [i64::MIN, -1, DAY, i64::MAX] {
        assert_eq!(plain.read(utc(i64::MAX, ticks)), refused(5));
    }
    for ticks in [i64::MIN, -1, 0, 1, i64::MAX] {
        assert_eq!(plain.read(utc(i64::MIN, ticks)), refused(5));
        assert_eq!(plain.read(utc(41_316, ticks)), refused(5));
    }
    for (seconds, length) in [(11, DAY + SECOND), (9, DAY - SECOND)] {
        let late = accepted(&[41_317, 10, i64::MAX, seconds]);
        let last = i128::from(length - 1);
        assert_eq!(late.read(utc(i64::MAX, 0)), Ok(tai(seconds.into())));
        assert_eq!(
            late.read(utc(i64::MAX - 1, length - 1)),
            Ok(tai(10) - 86_400_000_000_000 + last)
        );
        assert_eq!(late.read(utc(i64::MAX - 1, length)), refused(5));
        assert_eq!(
            late.read(utc(i64::MAX, DAY - 1)).unwrap() - tai(seconds.into()),
            (DAY - 1).into()
        );
        assert_eq!(late.read(utc(i64::MAX, DAY)), refused(5));
    }
}

/// "UTC to TAI to UTC over one list is exact", and TAI to UTC to TAI.
#[test]
fn there_and_back_is_exact() {
    let mut random = Random::new(85);
    let (mut read, mut written) = (0, 0);
    for list in lists(86, 120) {
        let judged = accepted(&list);
        let mut readings = utc_edges(&list);
        readings.extend((0..100).map(|_| random_utc(&mut random)));
        for reading in readings {
            let tai = judged.read(reading).ok().map(i64::try_from);
            if let Some(Ok(tai)) = tai {
                assert_eq!(judged.write(tai), Ok(reading), "{list:?}");
                read += 1;
            }
        }
        let mut ticks = tai_edges(&list);
        ticks.extend(edge_ticks());
        ticks.extend((0..100).map(|_| random_tick(&mut random)));
        for tai in ticks {
            match judged.write(tai) {
                Ok(utc) => assert_eq!(judged.read(utc), Ok(tai.into()), "{list:?}"),
                refusal => {
                    assert_eq!(refusal, refused(5));
                    assert!(tai < FIRST_TAI, "{tai} {list:?}");
                }
            }
            written += usize::from(tai >= FIRST_TAI);
        }
    }
    assert!(read > 30_000 && written > 30_000, "{read} {written}");
}

/// "Order [...] reads, for UTC, as day first, then ticks": both ways, and
/// strictly.
#[test]
fn order_is_kept() {
    let mut random = Random::new(87);
    for list in lists(88, 120) {
        let judged = accepted(&list);
        let mut readings = utc_edges(&list);
        readings.extend((0..100).map(|_| random_utc(&mut random)));
        readings.retain(|reading| judged.read(*reading).is_ok());
        readings.sort();
        readings.dedup();
        let read: Vec<i128> = readings.iter().flat_map(|r| judged.read(*r)).collect();
        assert!(read.is_sorted_by(|earlier, later| earlier < later));
        let mut ticks = tai_edges(&list);
        ticks.extend((0..100).map(|_| random_tick(&mut random)));
        ticks.retain(|tai| *tai >= FIRST_TAI);
        ticks.sort();
        ticks.dedup();
        let written: Vec<Utc> = ticks.iter().flat_map(|tai| judged.write(*tai)).collect();
        assert_eq!(written.len(), ticks.len());
        assert!(written.is_sorted_by(|earlier, later| earlier < later));
    }
}

/// The day by counting all days and their ticks from the first on.
fn written_by_counting(list: &[i64], tai: i64) -> Utc {
    let (mut day, mut ticks) = (FIRST_DAY, tai - FIRST_TAI);
    loop {
        let length = DAY + change_after(list, day) * SECOND;
        if ticks < length {
            return utc(day, ticks);
        }
        (day, ticks) = (day + 1, ticks - length);
    }
}

#[test]
fn writing_agrees_with_counting_days() {
    let mut random = Random::new(89);
    let mut compared = 0;
    for _ in 0..40 {
        let list = accepted_leaps(&mut random, FIRST_DAY + 20);
        let judged = accepted(&list);
        let soon = |tai: &i64| (FIRST_TAI..FIRST_TAI + 400 * DAY).contains(tai);
        for tai in tai_edges(&list).into_iter().filter(soon) {
            assert_eq!(judged.write(tai), Ok(written_by_counting(&list, tai)));
            compared += 1;
        }
    }
    assert!(compared > 2_000, "{compared}");
}
