//! Planted differences in UTC, by itself and in conversions: each is reported.

mod harness;
mod leaps;

use harness::{answer, compared, is_reported, planted};
use leaps::change_after;
use second::compare::{Answer, Asked, Called, Desk, Lent, Own, Reply, UtcAnswer};
use second::dates::Reading;
use second::refusal::Refusal;
use second::utc::{FIRST_DAY, Leaps, Utc};
use std::collections::BTreeSet;

const CONVERTED: &str = "colliedash_convert_utc";
const READ: &str = "colliedash_convert_utc, the reading alone";
const WALKED: &str = "colliedash_write_utc";
const WRITTEN: &str = "colliedash_write_utc, the writing alone";
const OF_READINGS: [&str; 2] = [CONVERTED, READ];
const OF_WRITING: [&str; 2] = [WALKED, WRITTEN];
const ALL: [&str; 4] = [CONVERTED, READ, WALKED, WRITTEN];

const SECOND: i64 = 1_000_000_000;
const DAY: i64 = 86_400 * SECOND;
/// The TAI tick of day 41317, ticks 0.
const FIRST_TAI: i64 = -157_852_822_184_000_000;

fn utc_of(asked: Asked) -> Utc {
    match asked {
        Asked::Convert {
            reading: Reading::Utc(utc),
            ..
        } => utc,
        other => panic!("{other:?}"),
    }
}

fn codes(asked: Asked) -> (u32, u32) {
    match asked {
        Asked::Convert { from, to, .. } | Asked::WriteUtc { from, to, .. } => (from, to),
        other => panic!("{other:?}"),
    }
}

/// Whether a path from or to UTC crosses the table.
fn crosses(from: u32, to: u32) -> bool {
    [5, 6].contains(&from) || [5, 6].contains(&to)
}

#[track_caller]
fn written(called: &mut Called) -> &mut UtcAnswer {
    match &mut called.reply {
        Reply::Utc(utc) => utc,
        other => panic!("{other:?}"),
    }
}

/// A difference in the answers to readings over accepted lists.
#[track_caller]
fn is_reported_of_readings(name: &str, change: impl Fn(Utc, &[i64], &mut Answer)) {
    is_reported(name, |asked, lent: &Lent, called: &mut Called| {
        if Leaps::judge(lent.list).is_ok() {
            change(utc_of(asked), lent.list, answer(called));
        }
    });
}

/// A difference in what is written over accepted lists.
#[track_caller]
fn is_reported_of_writing(name: &str, change: impl Fn(i64, &[i64], &mut UtcAnswer)) {
    is_reported(name, |asked, lent: &Lent, called: &mut Called| {
        let Asked::WriteUtc { tick, .. } = asked else {
            panic!("{asked:?}")
        };
        if Leaps::judge(lent.list).is_ok() {
            change(tick, lent.list, written(called));
        }
    });
}

/// The refusal in place of any answer.
fn refuse(called: &mut Called, number: u32, place: u64) {
    let refusal = Refusal::new(number, place);
    called.reply = match called.reply {
        Reply::Utc(_) => Reply::Utc(UtcAnswer::from(Err(refusal))),
        _ => Reply::Answer(Answer::from(refusal)),
    };
}

#[test]
fn a_wrong_end_of_a_day_is_reported() {
    for name in OF_READINGS {
        // The last tick of each kind of day is refused, and the next accepted.
        for change in [-1, 0, 1] {
            let length = DAY + change * SECOND;
            for (ticks, number) in [(length - 1, 5), (length, 0)] {
                let end = |utc: Utc, list: &[i64], answer: &mut Answer| {
                    let here = utc.ticks == ticks && change_after(list, utc.day) == change;
                    if here && utc.day >= FIRST_DAY && [0, 5].contains(&answer.number) {
                        answer.number = number;
                    }
                };
                is_reported_of_readings(name, end);
            }
        }
        let no_first_tick = |utc: Utc, _: &[i64], answer: &mut Answer| {
            answer.number += 5 * u32::from(utc.ticks == 0 && answer.number == 0);
        };
        is_reported_of_readings(name, no_first_tick);
        let negative = |utc: Utc, _: &[i64], answer: &mut Answer| {
            answer.number %= 5 - u32::from(utc.ticks != -1);
        };
        is_reported_of_readings(name, negative);
    }
}

/// Days that are long or short right after a day that is.
#[test]
fn a_wrong_day_beside_another_is_reported() {
    for before in [-1, 1] {
        for after in [-1, 1] {
            let here = |list: &[i64], day: i64| {
                let before_here = day > FIRST_DAY && change_after(list, day - 1) == before;
                before_here && change_after(list, day) == after
            };
            let moved = |utc: Utc, list: &[i64], answer: &mut Answer| {
                answer.tick += i64::from(here(list, utc.day) && answer.number == 0);
            };
            is_reported_of_readings(READ, moved);
            let moved = |_: i64, list: &[i64], utc: &mut UtcAnswer| {
                utc.ticks += i64::from(utc.number == 0 && here(list, utc.day));
            };
            is_reported_of_writing(WRITTEN, moved);
        }
    }
}

#[test]
fn wrong_seconds_are_reported() {
    // The first day of a pair still has the seconds before it.
    let late = |utc: Utc, list: &[i64], answer: &mut Answer| {
        if answer.number == 0 && utc.day > FIRST_DAY {
            answer.tick -= change_after(list, utc.day - 1) * SECOND;
        }
    };
    // The last pair does not hold for ever.
    let ends = |utc: Utc, list: &[i64], answer: &mut Answer| {
        let last = list[list.len() - 2];
        answer.tick += i64::from(answer.number == 0 && utc.day - 1 > last);
    };
    for name in OF_READINGS {
        is_reported_of_readings(name, late);
        is_reported_of_readings(name, ends);
    }
}

#[test]
fn extreme_days_judged_wrongly_are_reported() {
    for day in [i64::MIN, i64::MAX - 1, i64::MAX] {
        let wrong = |utc: Utc, _: &[i64], answer: &mut Answer| {
            if utc.day == day && [4, 5].contains(&answer.number) {
                answer.number ^= 1;
            }
        };
        is_reported_of_readings(READ, wrong);
    }
    for ticks in [i64::MIN, i64::MAX] {
        let wrong = |utc: Utc, _: &[i64], answer: &mut Answer| {
            if utc.ticks == ticks && answer.number == 5 {
                answer.number = 4;
            }
        };
        is_reported_of_readings(READ, wrong);
    }
    // 4 before 5, and the last tick of the range refused.
    let four_first = |utc: Utc, _: &[i64], answer: &mut Answer| {
        answer.number -= u32::from(utc.day > 112_588 && answer.number == 5);
    };
    let last = |_: Utc, _: &[i64], answer: &mut Answer| {
        answer.number += 4 * u32::from(answer.tick == 6_000_000_000_000_000_000);
    };
    is_reported_of_readings(READ, four_first);
    is_reported_of_readings(READ, last);
}

#[test]
fn a_reading_written_wrongly_is_reported() {
    for name in OF_WRITING {
        // The leap second is the next day's first.
        let no_leap = |_: i64, _: &[i64], utc: &mut UtcAnswer| {
            if utc.ticks >= DAY {
                (utc.day, utc.ticks) = (utc.day + 1, utc.ticks - DAY);
            }
        };
        is_reported_of_writing(name, no_leap);
        // The day after a short one begins a second late.
        let no_short = |_: i64, list: &[i64], utc: &mut UtcAnswer| {
            let after_short = utc.day > FIRST_DAY && change_after(list, utc.day - 1) == -1;
            if utc.number == 0 && after_short && utc.ticks < SECOND {
                (utc.day, utc.ticks) = (utc.day - 1, utc.ticks + DAY - SECOND);
            }
        };
        is_reported_of_writing(name, no_short);
        // A day's last tick is the next day's.
        let last_tick = |_: i64, list: &[i64], utc: &mut UtcAnswer| {
            let length = DAY + change_after(list, utc.day) * SECOND;
            if utc.number == 0 && utc.ticks == length - 1 {
                (utc.day, utc.ticks) = (utc.day + 1, 0);
            }
        };
        is_reported_of_writing(name, last_tick);
    }
}

#[test]
fn the_first_tick_judged_wrongly_is_reported() {
    let first = |tick: i64, _: &[i64], utc: &mut UtcAnswer| {
        utc.number += 5 * u32::from(tick == FIRST_TAI);
    };
    is_reported_of_writing(WRITTEN, first);
    let before = |tick: i64, _: &[i64], utc: &mut UtcAnswer| {
        utc.number -= 5 * u32::from(tick == FIRST_TAI - 1);
    };
    is_reported_of_writing(WRITTEN, before);
    // Before 1972 the first seconds hold.
    let four_alone = |_: i64, _: &[i64], utc: &mut UtcAnswer| utc.number %= 5;
    is_reported_of_writing(WRITTEN, four_alone);
    is_reported_of_writing(WALKED, four_alone);
}

type Rule = fn(&[i64]) -> bool;

fn all_pairs(list: &[i64], wanted: impl Fn(&[i64], &[i64]) -> bool) -> bool {
    let mut both = list.chunks_exact(2).zip(list.chunks_exact(2).skip(1));
    both.all(|(earlier, later)| wanted(earlier, later))
}

/// Every rule of a list by itself; and some by halves.
const RULES: [Rule; 8] = [
    |list| !list.is_empty(),
    |list| list.len() <= 128,
    |list| list.is_empty() || list[0] == FIRST_DAY,
    |list| list.len() < 2 || list[1] == 10,
    |list| all_pairs(list, |earlier, later| earlier[0] <= later[0]),
    |list| all_pairs(list, |earlier, later| earlier[0] != later[0]),
    |list| all_pairs(list, |earlier, later| earlier[1] != later[1]),
    |list| all_pairs(list, |earlier, later| earlier[1].abs_diff(later[1]) <= 1),
];

/// A list that breaks one rule alone is taken for a right one.
#[test]
fn each_rule_of_a_list_that_is_not_asked_for_is_reported() {
    for name in ALL {
        for left_out in 0..RULES.len() {
            is_reported(name, |_, lent: &Lent, called: &mut Called| {
                let mut others = RULES.iter().enumerate().filter(|(i, _)| *i != left_out);
                let accepted = others.all(|(_, rule)| rule(lent.list));
                if called.reply.number() == 7 && accepted {
                    refuse(called, 5, 0);
                }
            });
        }
    }
}

#[test]
fn lists_of_every_size_refused_wrongly_are_reported() {
    for name in [READ, WRITTEN] {
        for pairs in [1, 2, 63, 64] {
            is_reported(name, |_, lent: &Lent, called: &mut Called| {
                if lent.list.len() == 2 * pairs {
                    refuse(called, 7, 0);
                }
            });
        }
        // Odd lengths are told as a broken rule, or their last number is not
        // looked at.
        is_reported(name, |_, _: &Lent, called: &mut Called| {
            if called.reply.number() == 8 {
                refuse(called, 7, 0);
            }
        });
        is_reported(name, |_, lent: &Lent, called: &mut Called| {
            let even = &lent.list[..lent.list.len() / 2 * 2];
            if called.reply.number() == 8 && Leaps::judge(even).is_ok() {
                refuse(called, 5, 0);
            }
        });
    }
}

/// What a list gets, if it is refused.
fn list_refusal(lent: &Lent) -> Option<Refusal> {
    Leaps::judge(lent.list).err()
}

#[test]
fn refusals_out_of_order_are_reported() {
    for name in [CONVERTED, WALKED] {
        // The table before the list.
        let mut own = Own::default();
        is_reported(name, |asked, lent: &Lent, called: &mut Called| {
            let (from, to) = codes(asked);
            if [7, 8].contains(&called.reply.number())
                && crosses(from, to)
                && let Err(table) = *own.judged(lent.table)
            {
                refuse(called, table.number, table.place);
            }
        });
        // The list before the codes.
        is_reported(name, |_, lent: &Lent, called: &mut Called| {
            if called.reply.number() == 1
                && let Some(list) = list_refusal(lent)
            {
                refuse(called, list.number, list.place);
            }
        });
        // `to` before `from`.
        is_reported(name, |asked, _: &Lent, called: &mut Called| {
            let (from, to) = codes(asked);
            let both = if name == CONVERTED {
                from != 7 && to > 6
            } else {
                from > 6 && to != 7
            };
            if called.reply.number() == 1 && both {
                refuse(called, 1, 1);
            }
        });
    }
    // The reading before the table.
    is_reported_of_readings(CONVERTED, |utc, _, answer| {
        if answer.number >= 10 && (utc.day < FIRST_DAY || utc.ticks < 0) {
            *answer = Answer::from(Refusal::new(5, 0));
        }
    });
    // What is written before the steps that lead outside.
    is_reported_of_writing(WALKED, |tick, _, utc| {
        if [4, 6].contains(&utc.number) && tick < FIRST_TAI - DAY {
            *utc = UtcAnswer::from(Err(Refusal::new(5, 0)));
        }
    });
}

#[test]
fn codes_judged_wrongly_are_reported() {
    let mut own = Own::default();
    // A UTC reading that is to be UTC again is answered as TAI.
    is_reported(CONVERTED, |asked, lent: &Lent, called: &mut Called| {
        let (from, to) = codes(asked);
        let reading = Reading::Utc(utc_of(asked));
        if from == 7 && to == 7 {
            let to_tai = Asked::Convert {
                from,
                to: 2,
                reading,
            };
            *called = own.call(to_tai, lent).unwrap();
        }
    });
    for name in [CONVERTED, WALKED] {
        for place in [0, 1] {
            is_reported(name, |_, _: &Lent, called: &mut Called| {
                let (number, told) = match called.reply {
                    Reply::Answer(answer) => (answer.number, answer.place),
                    Reply::Utc(utc) => (utc.number, utc.place),
                    other => panic!("{other:?}"),
                };
                if (number, told) == (1, place) {
                    refuse(called, 1, 1 - place);
                }
            });
        }
    }
}

#[test]
fn steps_and_places_are_reported() {
    for name in ALL {
        is_reported(name, |_, _: &Lent, called: &mut Called| {
            match &mut called.reply {
                Reply::Answer(answer) => answer.steps += u32::from(answer.number == 0),
                Reply::Utc(utc) => utc.steps += u32::from(utc.number == 0),
                other => panic!("{other:?}"),
            }
        });
    }
    for steps in 0..=3 {
        is_reported_of_readings(CONVERTED, |_, _, answer| {
            answer.tick += i64::from(answer.number == 0 && answer.steps == steps);
        });
        is_reported_of_writing(WALKED, |_, _, utc| {
            utc.ticks += i64::from(utc.number == 0 && utc.steps == steps);
        });
    }
    for number in [4, 6] {
        is_reported_of_readings(CONVERTED, |_, _, answer| {
            answer.place += u64::from(answer.number == number);
        });
        is_reported_of_writing(WALKED, |_, _, utc| {
            utc.place += u64::from(utc.number == number);
        });
    }
}

/// No step is walked, so no table is looked at.
#[test]
fn a_table_that_has_no_use_is_not_looked_at() {
    for name in ALL {
        let mut own = Own::default();
        is_reported(name, |_, lent: &Lent, called: &mut Called| {
            if let Err(Refusal { number, place }) = *own.judged(lent.table)
                && called.reply.number() == 0
            {
                refuse(called, number, place);
            }
        });
    }
}

/// Every other code meets every kind of list and of table.
#[test]
fn every_code_meets_every_kind_of_list_and_table() {
    for name in [CONVERTED, WALKED] {
        let (mut met, mut own) = (BTreeSet::new(), Own::default());
        let note = |asked: Asked, lent: &Lent, _: &mut Called| {
            let (from, to) = codes(asked);
            let (utc, other) = if name == CONVERTED {
                (from, to)
            } else {
                (to, from)
            };
            let table = own.judged(lent.table).is_ok();
            let list = list_refusal(lent).map(|refusal| refusal.number);
            met.insert((utc == 7, other.min(8), list, table));
        };
        assert_eq!(compared(name, &mut planted(note)).different, 0);
        for table in [true, false] {
            for other in 0..=8 {
                for utc in [true, false] {
                    assert!(met.contains(&(utc, other, None, table)), "{name} {other}");
                }
            }
            for other in 0..=6 {
                for list in [Some(7), Some(8)] {
                    let seen = met.contains(&(true, other, list, table));
                    assert!(seen, "{name} {other} {list:?} {table}");
                }
            }
        }
    }
}

/// Many are accepted, and many of these on a day of another length, over the
/// table too.
#[test]
fn many_are_accepted() {
    for name in ALL {
        let (mut accepted, mut other_length, mut across) = (0, 0, 0);
        let note = |asked: Asked, lent: &Lent, called: &mut Called| {
            let (from, to) = codes(asked);
            let day = match called.reply {
                Reply::Utc(utc) => utc.day,
                _ => utc_of(asked).day,
            };
            if called.reply.number() == 0 {
                let other = change_after(lent.list, day) != 0;
                accepted += 1;
                other_length += usize::from(other);
                across += usize::from(other && crosses(from, to));
            }
        };
        compared(name, &mut planted(note));
        assert!(accepted > 800, "{name}: {accepted}");
        assert!(other_length > 100, "{name}: {other_length}");
        let walked = [CONVERTED, WALKED].contains(&name);
        assert!(across > 5 || !walked, "{name}: {across}");
    }
}
