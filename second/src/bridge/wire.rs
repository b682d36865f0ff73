//! Requests and answers as bytes. bridge/bridge.c tells what each means.

use crate::compare::{Answer, Asked, ChangesAnswer, Date, Reply, TableAnswer, UtcAnswer};
use crate::dates::Reading;
use crate::utc::Utc;

/// The functions by their numbers. The first calls none: a bridge answers it.
pub const NONE: u64 = 0;
const JUDGE: u64 = 1;
const READ_TABLE: u64 = 2;
const WRITE_TABLE: u64 = 3;
const WRITE_DATE: u64 = 4;
const CONVERT_TICKS: u64 = 5;
const CONVERT_DATE: u64 = 6;
const CONVERT_J2000: u64 = 7;
const BATCH: u64 = 8;
const CONVERT_UTC: u64 = 9;
const WRITE_UTC: u64 = 10;
const COMPARE_TABLES: u64 = 11;

/// How a place is lent.
pub const NOTHING: u64 = 0;
pub const GIVEN: u64 = 1;
pub const SAME: u64 = 2;

/// The places that are lent: the table, the second table, the list, the buffer.
pub const PLACES: usize = 4;
/// The first of these hold the tables.
pub const TABLES: usize = 2;

/// What the bridge can have seen beside an answer, from bit 0 on.
pub const SEEN: [&str; 7] = [
    "the table's bytes were changed",
    "the second table's bytes were changed",
    "the list lent to read was changed",
    "bytes beside the lent table were written",
    "bytes beside the second lent table were written",
    "bytes beside the list lent to read were written",
    "bytes beside the lent buffer were written",
];

pub const REQUEST_NUMBERS: usize = 5 + 2 * PLACES;
pub const ANSWER_NUMBERS: usize = 8;

/// The plain arguments of a call and the fields of an answer.
pub type Arguments = [u64; 4];
pub type Fields = [u64; 6];

pub fn put(bytes: &mut Vec<u8>, numbers: &[u64]) {
    bytes.extend(numbers.iter().flat_map(|number| number.to_le_bytes()));
}

/// Whole numbers of 8 bytes each.
pub fn numbers(bytes: &[u8]) -> impl Iterator<Item = u64> {
    let number = |eight: &[u8]| u64::from_le_bytes(eight.try_into().expect("eight bytes"));
    bytes.chunks_exact(8).map(number)
}

pub fn ticks_of_bytes(bytes: &[u8]) -> Vec<i64> {
    numbers(bytes).map(u64::cast_signed).collect()
}

/// What is asked, as a function's number and its plain arguments.
pub fn numbers_of(asked: Asked) -> (u64, Arguments) {
    match asked {
        Asked::Judge => (JUDGE, [0; 4]),
        Asked::ReadTable => (READ_TABLE, [0; 4]),
        Asked::WriteTable {
            start,
            length,
            count,
            degree,
        } => {
            let range = [start, length].map(i64::cast_unsigned);
            let arguments = [range[0], range[1], count.into(), degree.into()];
            (WRITE_TABLE, arguments)
        }
        Asked::CompareTables => (COMPARE_TABLES, [0; 4]),
        Asked::WriteDate { tick } => (WRITE_DATE, [tick.cast_unsigned(), 0, 0, 0]),
        Asked::Convert { from, to, reading } => {
            let (function, [first, second]) = match reading {
                Reading::Ticks(tick) => (CONVERT_TICKS, [tick.cast_unsigned(), 0]),
                Reading::TwoPart(first, second) => {
                    (CONVERT_DATE, [first.to_bits(), second.to_bits()])
                }
                Reading::SinceJ2000(seconds) => (CONVERT_J2000, [seconds.to_bits(), 0]),
                Reading::Utc(Utc { day, ticks }) => {
                    (CONVERT_UTC, [day, ticks].map(i64::cast_unsigned))
                }
            };
            (function, [from.into(), to.into(), first, second])
        }
        Asked::Batch { from, to } => (BATCH, [from.into(), to.into(), 0, 0]),
        Asked::WriteUtc { from, to, tick } => {
            let tick = tick.cast_unsigned();
            (WRITE_UTC, [from.into(), to.into(), tick, 0])
        }
    }
}

/// The same back; None where no function has the number.
pub fn asked_of(function: u64, [a, b, c, d]: Arguments) -> Option<Asked> {
    let reading = match function {
        CONVERT_TICKS => Some(Reading::Ticks(c.cast_signed())),
        CONVERT_DATE => Some(Reading::TwoPart(f64::from_bits(c), f64::from_bits(d))),
        CONVERT_J2000 => Some(Reading::SinceJ2000(f64::from_bits(c))),
        CONVERT_UTC => Some(Reading::Utc(Utc {
            day: c.cast_signed(),
            ticks: d.cast_signed(),
        })),
        _ => None,
    };
    let (from, to) = (a as u32, b as u32);
    match (function, reading) {
        (_, Some(reading)) => Some(Asked::Convert { from, to, reading }),
        (JUDGE, _) => Some(Asked::Judge),
        (READ_TABLE, _) => Some(Asked::ReadTable),
        (WRITE_TABLE, _) => Some(Asked::WriteTable {
            start: a.cast_signed(),
            length: b.cast_signed(),
            count: c as u32,
            degree: d as u32,
        }),
        (COMPARE_TABLES, _) => Some(Asked::CompareTables),
        (WRITE_DATE, _) => Some(Asked::WriteDate {
            tick: a.cast_signed(),
        }),
        (BATCH, _) => Some(Asked::Batch { from, to }),
        (WRITE_UTC, _) => Some(Asked::WriteUtc {
            from,
            to,
            tick: c.cast_signed(),
        }),
        _ => None,
    }
}

fn narrow(field: u64) -> Option<u32> {
    u32::try_from(field).ok()
}

/// The fields of an answer, in their order; then zeros.
pub fn fields_of(reply: &Reply) -> Fields {
    match reply {
        Reply::Answer(answer) => {
            let (number, steps) = (answer.number.into(), answer.steps.into());
            let tick = answer.tick.cast_unsigned();
            [number, steps, answer.place, answer.index, tick, 0]
        }
        Reply::Date(date) => {
            let (first, second) = (date.first.to_bits(), date.second.to_bits());
            [date.number.into(), date.place, first, second, 0, 0]
        }
        Reply::Table(table) => {
            let sizes = [table.number, table.count, table.degree].map(u64::from);
            let range = [table.start, table.length].map(i64::cast_unsigned);
            [
                sizes[0],
                sizes[1],
                sizes[2],
                table.place,
                range[0],
                range[1],
            ]
        }
        Reply::Utc(utc) => {
            let (number, steps) = (utc.number.into(), utc.steps.into());
            let [day, ticks] = [utc.day, utc.ticks].map(i64::cast_unsigned);
            [number, steps, utc.place, day, ticks, 0]
        }
        Reply::Changes(changes) => {
            let (number, which) = (changes.number.into(), changes.which.into());
            [number, which, changes.place, changes.entries, 0, 0]
        }
    }
}

/// The answer to what was asked. None where a field is too great for its type,
/// or where one that the answer does not have is not 0.
pub fn reply_of(asked: Asked, fields: Fields) -> Option<Reply> {
    match (asked, fields) {
        (Asked::Judge | Asked::ReadTable, [number, count, degree, place, start, length]) => {
            Some(Reply::Table(TableAnswer {
                number: narrow(number)?,
                count: narrow(count)?,
                degree: narrow(degree)?,
                place,
                start: start.cast_signed(),
                length: length.cast_signed(),
            }))
        }
        (Asked::WriteDate { .. }, [number, place, first, second, 0, 0]) => {
            Some(Reply::Date(Date {
                number: narrow(number)?,
                place,
                first: f64::from_bits(first),
                second: f64::from_bits(second),
            }))
        }
        (Asked::WriteUtc { .. }, [number, steps, place, day, ticks, 0]) => {
            Some(Reply::Utc(UtcAnswer {
                number: narrow(number)?,
                steps: narrow(steps)?,
                place,
                day: day.cast_signed(),
                ticks: ticks.cast_signed(),
            }))
        }
        (Asked::CompareTables, [number, which, place, entries, 0, 0]) => {
            Some(Reply::Changes(ChangesAnswer {
                number: narrow(number)?,
                which: narrow(which)?,
                place,
                entries,
            }))
        }
        (Asked::WriteDate { .. } | Asked::WriteUtc { .. } | Asked::CompareTables, _) => None,
        (_, [number, steps, place, index, tick, 0]) => Some(Reply::Answer(Answer {
            number: narrow(number)?,
            steps: narrow(steps)?,
            place,
            index,
            tick: tick.cast_signed(),
        })),
        _ => None,
    }
}
