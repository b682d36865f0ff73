//! Planted differences in readings by themselves and in the step over the
//! table: each is reported.

mod harness;

use harness::{STAGE, answer, compared, is_reported};
use second::compare::{Answer, Asked, Called, Lent, Own};
use second::dates::{DAY, GREATEST_DAYS, GREATEST_SECONDS, J2000, ORIGIN, Reading, nearest_tick};
use second::ephemeris::{tdb_from_tt, tt_from_tdb};
use second::refusal::Refusal;
use second::scales::GREATEST_EPOCH;
use second::table::Table;

fn reading(asked: Asked) -> Reading {
    match asked {
        Asked::Convert { reading, .. } => reading,
        other => panic!("{other:?}"),
    }
}

/// A difference in the answers to readings. Seconds stand in the first part.
#[track_caller]
fn is_reported_of_readings(name: &str, change: impl Fn((f64, f64), &mut Answer)) {
    is_reported(name, |asked, _: &Lent, called: &mut Called| {
        let parts = match reading(asked) {
            Reading::TwoPart(first, second) => (first, second),
            Reading::SinceJ2000(seconds) => (seconds, 0.0),
            other => panic!("{other:?}"),
        };
        change(parts, answer(called));
    });
}

/// A difference in the steps over an accepted table.
#[track_caller]
fn is_reported_of_steps(name: &str, change: impl Fn(i64, &Table, &mut Answer)) {
    let mut own = Own::default();
    is_reported(name, |asked, lent: &Lent, called: &mut Called| {
        let Reading::Ticks(tick) = reading(asked) else {
            panic!("{asked:?}")
        };
        if let Ok(table) = own.judged(lent.table) {
            change(tick, table, answer(called));
        }
    });
}

fn refused(number: u32, place: u64) -> Answer {
    Answer::from(Refusal::new(number, place))
}

const DATE: &str = "colliedash_convert_date, the reading alone";
const HALVES: &str = "colliedash_convert_date, around halves of a tick";
const BOTH_DATES: [&str; 2] = [DATE, HALVES];
const SECONDS: &str = "colliedash_convert_j2000, the reading alone";
const BOTH_READINGS: [&str; 2] = [DATE, SECONDS];
const FORWARD: &str = "colliedash_convert_ticks, TT to TDB";
const BACK: &str = "colliedash_convert_ticks, TDB to TT";
const BOTH_STEPS: [&str; 2] = [FORWARD, BACK];

fn is_odd_multiple(value: f64, unit: f64) -> bool {
    (value / unit).fract() == 0.0 && (value / unit / 2.0).fract() != 0.0
}

#[test]
fn a_wrong_tick_of_a_reading_is_reported() {
    // Half a tick is an odd multiple of 2^-17 day or of 2^-10 second.
    for (name, power) in [(DATE, -17), (SECONDS, -10)] {
        for sign in [1.0, -1.0] {
            let half_down = |(first, _): (f64, f64), answer: &mut Answer| {
                let half = is_odd_multiple(first, 2f64.powi(power)) && first * sign > 0.0;
                answer.tick -= i64::from(half && answer.number == 0);
            };
            is_reported_of_readings(name, half_down);
        }
    }
    let in_doubles = |(seconds, _): (f64, f64), answer: &mut Answer| {
        if answer.number == 0 {
            answer.tick = (seconds * 1e9 + 0.5).floor() as i64 + (J2000 - ORIGIN) as i64;
        }
    };
    is_reported_of_readings(SECONDS, in_doubles);
}

/// Instead of a date's tick, that of these parts is told.
#[track_caller]
fn is_reported_of_dates(names: &[&str], instead: impl Fn(f64, f64) -> i128) {
    for name in names {
        is_reported_of_readings(name, |(first, second), answer| {
            if answer.number == 0 {
                answer.tick = (instead(first, second) - ORIGIN) as i64;
            }
        });
    }
}

#[test]
fn a_date_that_is_not_rounded_once_is_reported() {
    // Each part is rounded by itself, as before request 2026-02.
    is_reported_of_dates(&BOTH_DATES, |first, second| {
        nearest_tick(&[first], DAY) + nearest_tick(&[second], DAY)
    });
    // The sum is rounded to a double first.
    is_reported_of_dates(&BOTH_DATES, |first, second| {
        nearest_tick(&[first + second], DAY)
    });
    // A part that is far smaller than a tick is left off.
    for finest in [f64::MIN_POSITIVE, 1e-300, 1e-40, 1e-25, 1e-20] {
        let kept = |part: f64| if part.abs() < finest { 0.0 } else { part };
        is_reported_of_dates(&[HALVES], |first, second| {
            nearest_tick(&[kept(first), kept(second)], DAY)
        });
    }
    // The smallest double alone is left off, in one place or the other.
    let kept = |part: f64| if part.abs() == 5e-324 { 0.0 } else { part };
    is_reported_of_dates(&[HALVES], |first, second| {
        nearest_tick(&[kept(first), second], DAY)
    });
    is_reported_of_dates(&[HALVES], |first, second| {
        nearest_tick(&[first, kept(second)], DAY)
    });
}

/// The exact sum of a half goes to the greater, also where no part is a half.
#[test]
fn a_half_that_goes_to_the_lesser_is_reported() {
    let is_fine = |part: f64| (part * 2f64.powi(17)).fract() != 0.0;
    for fine in [true, false] {
        // A tiny part less makes the half the lesser, and nothing else another.
        is_reported_of_dates(&[HALVES], |first, second| {
            let less = if is_fine(first) == fine { -5e-324 } else { 0.0 };
            nearest_tick(&[first, second, less], DAY)
        });
    }
}

#[test]
fn a_reading_refused_or_accepted_wrongly_is_reported() {
    for (name, greatest) in [(DATE, GREATEST_DAYS), (SECONDS, GREATEST_SECONDS)] {
        for limit in [greatest, -greatest] {
            let at_limit = |(first, _): (f64, f64), answer: &mut Answer| {
                if first == limit && answer.number != 2 {
                    *answer = refused(3, 0);
                }
            };
            is_reported_of_readings(name, at_limit);
            let past_limit = |(first, _): (f64, f64), answer: &mut Answer| {
                if (first.abs() == greatest.next_up()) && first * limit > 0.0 {
                    *answer = refused(4, 0);
                }
            };
            is_reported_of_readings(name, past_limit);
        }
    }
    for name in BOTH_READINGS {
        let subnormal = |(first, _): (f64, f64), answer: &mut Answer| {
            if first.is_subnormal() {
                *answer = refused(2, 0);
            }
        };
        is_reported_of_readings(name, subnormal);
        let negative_nan = |(first, _): (f64, f64), answer: &mut Answer| {
            if first.is_nan() && first.is_sign_negative() {
                *answer = refused(3, 0);
            }
        };
        is_reported_of_readings(name, negative_nan);
        let outside_range = |_: (f64, f64), answer: &mut Answer| {
            answer.number %= 4;
        };
        is_reported_of_readings(name, outside_range);
    }
}

/// The ends of the range belong to it, and each tick beside them does not.
#[test]
fn a_reading_at_the_very_end_is_judged() {
    for end in [-GREATEST_EPOCH, GREATEST_EPOCH] {
        let at_end = |_: (f64, f64), answer: &mut Answer| {
            if answer.tick == end {
                *answer = refused(4, 0);
            }
        };
        for name in BOTH_DATES {
            is_reported_of_readings(name, at_end);
        }
    }
}

#[test]
fn places_steps_and_order_of_a_reading_are_reported() {
    for name in BOTH_READINGS {
        let a_step = |_: (f64, f64), answer: &mut Answer| answer.steps += 1;
        is_reported_of_readings(name, a_step);
        let place = |_: (f64, f64), answer: &mut Answer| {
            answer.place += u64::from(answer.number == 4);
        };
        is_reported_of_readings(name, place);
    }
    let three_first = |(first, second): (f64, f64), answer: &mut Answer| {
        if second.is_nan() && first.is_finite() && first.abs() > GREATEST_DAYS {
            *answer = refused(3, 0);
        }
    };
    is_reported_of_readings(DATE, three_first);
    let first_part = |_: (f64, f64), answer: &mut Answer| {
        answer.place = 0;
    };
    is_reported_of_readings(DATE, first_part);
}

#[test]
fn a_wrong_tick_of_a_step_is_reported() {
    let earlier_granule = |tick: i64, table: &Table, answer: &mut Answer| {
        let join = |g: &usize| table.start + *g as i64 * table.length;
        if let Some(later) = (1..table.count as usize).find(|g| join(g) == tick) {
            answer.tick = tick - table.granule(later - 1).d(tick);
        }
    };
    is_reported_of_steps(FORWARD, earlier_granule);
    let latest = |asked: i64, table: &Table, answer: &mut Answer| {
        let after = answer.tick + 1;
        if answer.number == 0 && tdb_from_tt(table, after) == Some(asked) {
            answer.tick = after;
        }
    };
    is_reported_of_steps(BACK, latest);
    let before_the_jump = |asked: i64, table: &Table, answer: &mut Answer| {
        let tdb = tdb_from_tt(table, answer.tick);
        answer.tick -= i64::from(answer.number == 0 && tdb != Some(asked));
    };
    is_reported_of_steps(BACK, before_the_jump);
    let no_step = |_: i64, _: &Table, answer: &mut Answer| answer.steps = 0;
    for name in BOTH_STEPS {
        is_reported_of_steps(name, no_step);
    }
}

/// The table's first or last tick, or its TDB, is refused; or the tick that
/// lies one beyond is accepted.
#[test]
fn an_end_of_the_table_judged_wrongly_is_reported() {
    let tdb = |table: &Table, tt| tdb_from_tt(table, tt).unwrap();
    for beyond in [0, 1] {
        let forward = |tick: i64, table: &Table, answer: &mut Answer| {
            let ends = [table.first_tick() - beyond, table.last_tick() + beyond];
            if ends.contains(&tick) {
                answer.number = 6 * (1 - beyond) as u32;
            }
        };
        is_reported_of_steps(FORWARD, forward);
        let back = |asked: i64, table: &Table, answer: &mut Answer| {
            let ends = [table.first_tick(), table.last_tick()].map(|tt| tdb(table, tt));
            if [ends[0] - beyond, ends[1] + beyond].contains(&asked) {
                answer.number = 6 * (1 - beyond) as u32;
            }
        };
        is_reported_of_steps(BACK, back);
    }
    let no_tt = |asked: i64, table: &Table, answer: &mut Answer| {
        if answer.number == 0 && tdb(table, answer.tick) != asked {
            *answer = refused(6, 0);
        }
    };
    is_reported_of_steps(BACK, no_tt);
}

#[test]
fn four_for_six_and_six_for_four_are_reported() {
    let of_start = |_: i64, _: &Table, answer: &mut Answer| {
        if (answer.number, answer.place) == (4, 0) {
            *answer = refused(6, 0);
        }
    };
    for name in BOTH_STEPS {
        is_reported_of_steps(name, of_start);
    }
    let of_table = |_: i64, _: &Table, answer: &mut Answer| {
        if (answer.number, answer.place) == (4, 1) {
            *answer = refused(6, 0);
        }
    };
    is_reported_of_steps(FORWARD, of_table);
    let place = |_: i64, _: &Table, answer: &mut Answer| {
        answer.place = 0;
    };
    is_reported_of_steps(FORWARD, place);
    let end_of_range = |_: i64, _: &Table, answer: &mut Answer| {
        if answer.number == 0 && answer.tick.abs() == GREATEST_EPOCH {
            *answer = refused(4, 1);
        }
    };
    is_reported_of_steps(FORWARD, end_of_range);
    // A table at the range's end gives TDB beyond it: no epoch to convert back.
    let asked_outside = |asked: i64, table: &Table, answer: &mut Answer| {
        if answer.number == 4
            && let Some(tick) = tt_from_tdb(table, asked)
        {
            *answer = Answer {
                tick,
                steps: 1,
                ..Answer::default()
            };
        }
    };
    is_reported_of_steps(BACK, asked_outside);
}

#[test]
fn a_table_that_is_not_refused_is_reported() {
    for name in BOTH_STEPS {
        for number in 10..=16 {
            is_reported(name, |_, _: &Lent, called: &mut Called| {
                if called.reply.number() == number {
                    *answer(called) = refused(6, 0);
                }
            });
        }
    }
}

/// No step is walked, so no table is looked at.
#[test]
fn a_reading_that_looks_at_the_table_is_reported() {
    for name in BOTH_READINGS {
        let mut own = Own::default();
        is_reported(name, |_, lent: &Lent, called: &mut Called| {
            if let Err(Refusal { number, place }) = *own.judged(lent.table) {
                *answer(called) = refused(number, place);
            }
        });
    }
}

/// Every comparison has many cases of its own even on a small stage.
#[test]
fn there_are_many_cases() {
    for name in BOTH_READINGS {
        let ledger = compared(name, &mut Own::default());
        assert!(ledger.cases > STAGE.size.readings() as u64, "{name}");
    }
    for name in BOTH_STEPS {
        let ledger = compared(name, &mut Own::default());
        assert!(ledger.cases > 50 * STAGE.accepted.len() as u64, "{name}");
    }
}
