//! Conversions of UTC readings and into written UTC: paths and steps, code 7,
//! every refusal with its place, and their order.

use second::blocks;
use second::dates::Reading;
use second::desk::{Converted, Written, batch, convert, write_utc};
use second::generate::{REAL_LEAPS, Random, accepted_leaps, accepted_tables, tai_edges, utc_edges};
use second::line;
use second::refusal::Refusal;
use second::scales::GREATEST_EPOCH;
use second::table::{Judged, Table};
use second::utc::{FIRST_DAY, Leaps, Utc};

const SECOND: i64 = 1_000_000_000;
const DAY: i64 = 86_400 * SECOND;
/// The TAI tick of day 41317, ticks 0.
const FIRST_TAI: i64 = -157_852_822_184_000_000;
const REAL: &[i64] = &REAL_LEAPS;

fn no_table() -> Judged {
    blocks::judge(&[])
}

/// D is 0 in all of it: from day 41200 or so to day 45800 or so.
fn flat_table() -> Judged {
    judged(-170_000_000_000_000_000, 1 << 50, 0)
}

fn judged(start: i64, length: i64, c_0: i64) -> Judged {
    let table = Table {
        start,
        length,
        count: 360,
        degree: 0,
        coefficients: vec![c_0; 360],
    };
    blocks::judge(&blocks::image(&table))
}

fn refused<T>(number: u32, place: u64) -> Result<T, Refusal> {
    Err(Refusal::new(number, place))
}

fn utc(day: i64, ticks: i64) -> Utc {
    Utc { day, ticks }
}

/// "UTC to TAI has 0 steps, to GPS 1, to TCB 3": for each code.
const STEPS: [u32; 7] = [1, 1, 0, 1, 2, 2, 3];

/// The path of code 7 is TAI's: the steps and the answer are that of its tick.
#[test]
fn a_utc_reading_is_converted_as_its_tai_tick() {
    let (real, table) = (Leaps::judge(REAL).unwrap(), flat_table());
    for (day, ticks) in [(41_317, 0), (41_498, DAY), (43_144, 5), (45_000, DAY - 1)] {
        let tai = real.read(utc(day, ticks)).unwrap() as i64;
        for to in 0..7 {
            let answer = convert(7, to, Reading::Utc(utc(day, ticks)), REAL, &table);
            assert_eq!(answer.unwrap().steps, STEPS[to as usize], "to {to}");
            assert_eq!(answer, convert(2, to, Reading::Ticks(tai), &[], &table));
        }
    }
}

#[test]
fn a_written_utc_is_that_of_the_tai_tick() {
    let (real, table) = (Leaps::judge(REAL).unwrap(), flat_table());
    for tai in [FIRST_TAI + 1, -16_184_000_000, 0, 123_456_789_000_000_000] {
        for from in 0..7 {
            let tick = convert(2, from, Reading::Ticks(tai), &[], &table)
                .unwrap()
                .tick;
            let reading = Reading::Ticks(tick);
            let back = convert(from, 2, reading, &[], &table).unwrap();
            let expected = Written {
                utc: real.write(back.tick).unwrap(),
                steps: STEPS[from as usize],
            };
            assert_eq!(write_utc(from, 7, reading, REAL, &table), Ok(expected));
        }
    }
}

/// Dates and seconds are written as UTC, too.
#[test]
fn dates_are_written_as_utc() {
    let write = |from, reading| write_utc(from, 7, reading, REAL, &no_table());
    let written = |day, ticks, steps| {
        let utc = utc(day, ticks);
        Ok(Written { utc, steps })
    };
    let midnight = Reading::TwoPart(2_443_144.5, 0.0);
    assert_eq!(write(2, midnight), written(43_143, 86_385 * SECOND, 0));
    // TT is 32.184 s ahead of TAI, and GPS 19 s behind.
    assert_eq!(write(3, midnight), written(43_143, 86_352_816_000_000, 1));
    assert_eq!(write(1, midnight), written(43_144, 3 * SECOND, 1));
    let j2000 = Reading::SinceJ2000(0.0);
    assert_eq!(write(2, j2000), written(51_544, DAY / 2 - 32 * SECOND, 0));
    assert_eq!(write(2, Reading::TwoPart(0.0, f64::NAN)), refused(2, 1));
    assert_eq!(write(2, Reading::TwoPart(5e6, 5e7)), refused(3, 1));
    assert_eq!(write(2, Reading::SinceJ2000(1e10)), refused(4, 0));
    assert_eq!(write(2, Reading::TwoPart(2_441_317.5, 0.0)), refused(5, 0));
}

/// "7 to 7 is allowed, over one list": no step, and the same again.
#[test]
fn a_utc_reading_is_written_again() {
    let broken = Err(Refusal::new(11, 3));
    let again = |reading, list: &[i64]| write_utc(7, 7, Reading::Utc(reading), list, &broken);
    let mut random = Random::new(90);
    for list in [REAL.to_vec(), accepted_leaps(&mut random, 43_000)] {
        let leaps = Leaps::judge(&list).unwrap();
        for reading in utc_edges(&list) {
            let expected = match leaps.read(reading) {
                Err(refusal) => Err(refusal),
                Ok(tai) if tai > GREATEST_EPOCH.into() => refused(4, 0),
                Ok(_) => Ok(Written {
                    utc: reading,
                    steps: 0,
                }),
            };
            assert_eq!(again(reading, &list), expected);
        }
    }
    assert_eq!(again(utc(43_144, 0), &[41_317]), refused(8, 0));
    assert_eq!(again(utc(43_144, 0), &[41_317, 11]), refused(7, 0));
}

/// "Code 7 with another kind of reading, or this kind with another code, is 1",
/// with the place of its side.
#[test]
fn code_7_is_utc_s_alone() {
    let table = no_table();
    let reading = Reading::Utc(utc(43_144, 0));
    let others = [
        Reading::Ticks(0),
        Reading::TwoPart(2_443_144.5, 0.0),
        Reading::SinceJ2000(0.0),
    ];
    let wrong = [0, 1, 2, 3, 4, 5, 6, 8, 263, u32::MAX];
    for other in others {
        assert_eq!(convert(7, 2, other, REAL, &table), refused(1, 0));
        assert_eq!(convert(2, 7, other, REAL, &table), refused(1, 1));
        assert_eq!(convert(7, 7, other, REAL, &table), refused(1, 0));
        assert_eq!(write_utc(7, 7, other, REAL, &table), refused(1, 0));
        for code in wrong {
            assert_eq!(write_utc(7, code, other, REAL, &table), refused(1, 0));
            assert_eq!(write_utc(2, code, other, REAL, &table), refused(1, 1));
        }
        assert!(write_utc(2, 7, other, REAL, &table).is_ok());
    }
    for code in wrong {
        assert_eq!(convert(code, 2, reading, REAL, &table), refused(1, 0));
        assert_eq!(convert(code, 7, reading, REAL, &table), refused(1, 0));
        assert_eq!(write_utc(code, 7, reading, REAL, &table), refused(1, 0));
        assert_eq!(write_utc(7, code, reading, REAL, &table), refused(1, 1));
    }
    assert_eq!(convert(7, 7, reading, REAL, &table), refused(1, 1));
    assert_eq!(convert(7, 8, reading, REAL, &table), refused(1, 1));
    assert!(convert(7, 2, reading, REAL, &table).is_ok());
}

/// "code 7 in a batch or `tickline` is still 1"
#[test]
fn code_7_is_1_in_a_batch_and_in_tickline() {
    let table = flat_table();
    for (from, to, place) in [(7, 2, 0), (2, 7, 1), (7, 7, 0)] {
        for list in [&[][..], &[0]] {
            let answer = batch(from, to, list, list.len(), &table).unwrap_err();
            assert_eq!((answer.refusal, answer.index), (Refusal::new(1, place), 0));
        }
        let text = format!("{from} {to} 0");
        let answer = line::answer(text.as_bytes(), 1, &table);
        assert_eq!(answer, refused(1, place));
    }
}

/// A list is judged "exactly if from or to is 7".
#[test]
fn a_list_that_has_no_use_is_not_looked_at() {
    let table = flat_table();
    for list in [&[][..], &[1], &[41_317, 11], REAL] {
        let answer = convert(2, 6, Reading::Ticks(0), list, &table);
        assert_eq!(answer, convert(2, 6, Reading::Ticks(0), &[], &table));
        assert!(answer.is_ok());
    }
}

/// "A path that doesn't cross never looks at the table".
#[test]
fn only_tdb_and_tcb_are_across_the_table_from_utc() {
    let broken = Err(Refusal::new(12, 7));
    for code in 0..7 {
        let crosses = code > 4;
        let reading = Reading::Utc(utc(43_144, 0));
        let read = convert(7, code, reading, REAL, &broken).err();
        assert_eq!(read, crosses.then_some(Refusal::new(12, 7)), "{code}");
        let written = write_utc(code, 7, Reading::Ticks(0), REAL, &broken).err();
        assert_eq!(written, crosses.then_some(Refusal::new(12, 7)), "{code}");
    }
}

/// One fault after the other is mended, and the next is told.
#[test]
fn order_of_the_refusals_of_a_utc_reading() {
    let broken = Err(Refusal::new(16, 2));
    let far = flat_table();
    let near = judged(-170_000_000_000_000_000, SECOND, 0);
    let read = |from, to, day, ticks, list: &[i64], table: &Judged| {
        convert(from, to, Reading::Utc(utc(day, ticks)), list, table)
    };
    let last_day = 112_588;
    assert_eq!(read(2, 7, 0, -1, &[1], &broken), refused(1, 0));
    assert_eq!(read(7, 7, 0, -1, &[1], &broken), refused(1, 1));
    assert_eq!(read(7, 5, 0, -1, &[1], &broken), refused(8, 0));
    assert_eq!(read(7, 5, 0, -1, &[1, 1], &broken), refused(7, 0));
    assert_eq!(read(7, 5, 0, -1, REAL, &broken), refused(16, 2));
    assert_eq!(read(7, 5, 0, -1, REAL, &near), refused(5, 0));
    assert_eq!(read(7, 5, last_day, -1, REAL, &near), refused(5, 0));
    assert_eq!(read(7, 5, last_day, DAY - 1, REAL, &near), refused(4, 0));
    // Day 50000 is beyond both tables: 6 after the step to TT.
    assert_eq!(read(7, 5, 50_000, 0, REAL, &near), refused(6, 1));
    assert_eq!(read(7, 5, 50_000, 0, REAL, &far), refused(6, 1));
    assert_eq!(read(7, 5, 43_144, 0, REAL, &far).unwrap().steps, 2);
    // And where the path does not cross.
    assert_eq!(read(7, 4, 0, -1, &[1], &broken), refused(8, 0));
    assert_eq!(read(7, 4, 0, -1, &[1, 1], &broken), refused(7, 0));
    assert_eq!(read(7, 4, 0, 0, REAL, &broken), refused(5, 0));
    assert_eq!(read(7, 4, i64::MAX, 0, REAL, &broken), refused(4, 0));
}

#[test]
fn order_of_the_refusals_of_a_written_utc() {
    let broken = Err(Refusal::new(16, 2));
    let none = no_table();
    let table = judged(-6_000_000_000_000_000_000, SECOND, 0);
    let write = |from, to, tick, list: &[i64], table: &Judged| {
        write_utc(from, to, Reading::Ticks(tick), list, table)
    };
    let (least, early) = (i64::MIN, -GREATEST_EPOCH);
    assert_eq!(write(7, 2, least, &[1], &broken), refused(1, 0));
    assert_eq!(write(5, 2, least, &[1], &broken), refused(1, 1));
    assert_eq!(write(5, 7, least, &[1], &broken), refused(8, 0));
    assert_eq!(write(5, 7, least, &[1, 1], &broken), refused(7, 0));
    assert_eq!(write(5, 7, least, REAL, &broken), refused(16, 2));
    assert_eq!(write(5, 7, least, REAL, &table), refused(4, 0));
    assert_eq!(write(5, 7, 0, REAL, &table), refused(6, 0));
    // "The last step's 4 comes before that 5."
    assert_eq!(write(5, 7, early, REAL, &table), refused(4, 2));
    assert_eq!(
        write(5, 7, early + 40 * SECOND, REAL, &table),
        refused(5, 0)
    );
    assert_eq!(
        write(3, 7, early + 32_184_000_000 - 1, REAL, &none),
        refused(4, 1)
    );
    assert_eq!(
        write(3, 7, early + 32_184_000_000, REAL, &none),
        refused(5, 0)
    );
    assert_eq!(write(2, 7, early - 1, REAL, &none), refused(4, 0));
    assert_eq!(write(2, 7, early, REAL, &none), refused(5, 0));
    assert_eq!(write(1, 7, GREATEST_EPOCH, REAL, &none), refused(4, 1));
}

/// "before the TAI tick of day 41317, ticks 0", as every scale counts it.
#[test]
fn the_first_tick_that_is_written() {
    let write = |from, tick| write_utc(from, 7, Reading::Ticks(tick), REAL, &flat_table());
    let first = |steps| {
        let utc = utc(41_317, 0);
        Ok(Written { utc, steps })
    };
    for (from, off) in [(2, 0), (1, -19 * SECOND), (3, 32_184_000_000)] {
        let steps = STEPS[from as usize];
        assert_eq!(write(from, FIRST_TAI + off), first(steps));
        assert_eq!(write(from, FIRST_TAI + off - 1), refused(5, 0));
        assert_eq!(write(from, FIRST_TAI + off - DAY), refused(5, 0));
    }
}

/// The range's last TAI tick is a reading; the next tick is 4, and wrong ticks
/// of that day are 5.
#[test]
fn the_last_reading_of_the_range() {
    let read = |reading| convert(7, 2, Reading::Utc(reading), REAL, &no_table());
    let last = Leaps::judge(REAL).unwrap().write(GREATEST_EPOCH).unwrap();
    assert_eq!(last, utc(112_588, 38_395_184_000_000));
    let (tick, steps) = (GREATEST_EPOCH, 0);
    assert_eq!(read(last), Ok(Converted { tick, steps }));
    let next = utc(last.day, last.ticks + 1);
    assert_eq!(read(next), refused(4, 0));
    assert_eq!(read(utc(last.day, DAY)), refused(5, 0));
    assert_eq!(read(utc(last.day + 1, 0)), refused(4, 0));
    assert_eq!(read(utc(i64::MAX, DAY - 1)), refused(4, 0));
    assert_eq!(read(utc(i64::MAX, DAY)), refused(5, 0));
    // The step that leads outside.
    let reading = Reading::Utc(last);
    let to_tt = convert(7, 3, reading, REAL, &no_table());
    assert_eq!(to_tt, refused(4, 1));
    assert_eq!(convert(7, 1, reading, REAL, &no_table()).unwrap().steps, 1);
}

/// Demand 3 for UTC: the earlier of two readings never comes out later, and of
/// two ticks the earlier is never written as the later reading.
#[test]
fn order_is_kept_over_tables() {
    let mut random = Random::new(91);
    let mut accepted = 0;
    for table in accepted_tables(&mut random, 60) {
        let near = 43_144 + table.start / DAY;
        let list = accepted_leaps(&mut random, near);
        let table: Judged = Ok(table);
        let mut readings = utc_edges(&list);
        readings.sort();
        for to in 0..7 {
            let read = |reading: &Utc| convert(7, to, Reading::Utc(*reading), &list, &table);
            let ticks: Vec<i64> = readings.iter().flat_map(read).map(|a| a.tick).collect();
            assert!(ticks.is_sorted());
            let write = |tick: &i64| write_utc(to, 7, Reading::Ticks(*tick), &list, &table);
            let written: Vec<Utc> = ticks.iter().flat_map(write).map(|a| a.utc).collect();
            assert!(written.is_sorted());
            accepted += written.len();
        }
    }
    assert!(accepted > 5_000, "{accepted}");
}

/// GPS, TAI and TT are whole ticks apart: there and back to UTC is exact.
#[test]
fn there_and_back_is_exact_where_no_step_rounds() {
    let mut random = Random::new(92);
    let none = no_table();
    for _ in 0..40 {
        let list = accepted_leaps(&mut random, FIRST_DAY + 300);
        let leaps = Leaps::judge(&list).unwrap();
        for tai in tai_edges(&list) {
            for code in 0..4 {
                let Ok(there) = convert(2, code, Reading::Ticks(tai), &[], &none) else {
                    continue;
                };
                let written = write_utc(code, 7, Reading::Ticks(there.tick), &list, &none);
                assert_eq!(written.map(|answer| answer.utc), leaps.write(tai));
                if let Ok(Written { utc, .. }) = written {
                    let back = convert(7, code, Reading::Utc(utc), &list, &none);
                    assert_eq!(back, Ok(there));
                }
            }
        }
    }
}
