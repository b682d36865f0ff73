//! A row of the values: what is called, and what must come out. The head of
//! data/values.txt tells how a row is written.

use super::amount::number;
use crate::blocks;
use crate::compare::{Answer, Asked, Date, Lent, Reply, TableAnswer, UtcAnswer, blank};
use crate::dates::Reading;
use crate::desk::{Converted, Written};
use crate::generate::REAL_LEAPS;
use crate::refusal::Refusal;
use crate::table::{Judged, Table};
use crate::utc::Utc;

/// One call, with what it is lent, and the answer that it must get.
pub struct Call {
    pub asked: Asked,
    bytes: Vec<u8>,
    list: Vec<i64>,
    room: usize,
    pub expected: Reply,
}

impl Call {
    pub fn lent(&self) -> Lent<'_> {
        Lent {
            list: &self.list,
            buffer: blank(self.room),
            ..Lent::table(&self.bytes)
        }
    }

    /// A call that is lent a table's bytes at most.
    fn plain(asked: Asked, bytes: Vec<u8>, expected: Reply) -> Call {
        Call {
            asked,
            bytes,
            list: Vec::new(),
            room: 0,
            expected,
        }
    }
}

pub struct Row<'a> {
    /// The page's P; empty where it has none.
    pub mark: &'a str,
    pub calls: Vec<Call>,
}

impl Row<'_> {
    /// None where the row is not understood.
    pub fn read(text: &str) -> Option<Row<'_>> {
        let columns: Vec<&str> = text.split('|').map(str::trim).collect();
        let [mark, asked, over, answer] = columns.try_into().ok()?;
        let calls = match (over, asked.strip_prefix("date of ")) {
            ("", Some(tick)) => vec![date_written(tick, answer)?],
            _ if asked.contains(" to ") => vec![conversion(asked, over, answer)?],
            _ => table_calls(asked, &read_table(over)?, answer)?,
        };
        Some(Row { mark, calls })
    }
}

/// `refused 16 at 1`: the number and its place.
fn refusal(answer: &str) -> Option<Refusal> {
    let (told, place) = answer.strip_prefix("refused ")?.split_once(" at ")?;
    Some(Refusal::new(number(told)?, number(place)?))
}

/// `refused N at P`, or what else may come out.
fn outcome<T>(answer: &str, accepted: impl Fn(&str) -> Option<T>) -> Option<Result<T, Refusal>> {
    match refusal(answer) {
        Some(refusal) => Some(Err(refusal)),
        None => accepted(answer).map(Ok),
    }
}

/// `n=1 S=0 H=10^9 G=1 c=0,65536`; coefficients that are not told are 0.
fn read_table(text: &str) -> Option<Table> {
    let words: Vec<&str> = text.split(' ').collect();
    let [n, s, h, g, c]: [&str; 5] = words.try_into().ok()?;
    let degree = number(n.strip_prefix("n=")?)?;
    let count = number(g.strip_prefix("G=")?)?;
    let told = c.strip_prefix("c=")?.split(',').filter(|c| !c.is_empty());
    let mut coefficients: Vec<i64> = told.map(number).collect::<Option<_>>()?;
    let wanted = blocks::coefficients_needed(count, degree) as usize;
    if coefficients.len() > wanted {
        return None;
    }
    coefficients.resize(wanted, 0);
    Some(Table {
        start: number(s.strip_prefix("S=")?)?,
        length: number(h.strip_prefix("H=")?)?,
        count,
        degree,
        coefficients,
    })
}

/// `leaps=41317,10,41499,11`: a flat list of any length, or `leaps=real`.
fn read_leaps(text: &str) -> Option<Vec<i64>> {
    match text.strip_prefix("leaps=")? {
        "" => Some(Vec::new()),
        "real" => Some(REAL_LEAPS.to_vec()),
        numbers => numbers.split(',').map(number).collect(),
    }
}

/// A list, a table's bytes, both with a space between, or neither.
fn read_over(text: &str) -> Option<(Vec<i64>, Vec<u8>)> {
    let (list, table) = match text.starts_with("leaps=") {
        true => text.split_once(' ').unwrap_or((text, "")),
        false => ("leaps=", text),
    };
    let bytes = match table {
        "" => Vec::new(),
        numbers => blocks::image(&read_table(numbers)?),
    };
    Some((read_leaps(list)?, bytes))
}

/// The names of the codes, from code 1 on.
const NAMES: [&str; 7] = ["GPS", "TAI", "TT", "TCG", "TDB", "TCB", "UTC"];

/// A scale's code, by its name or as `code6`.
fn code(scale: &str) -> Option<u32> {
    match scale.strip_prefix("code") {
        Some(code) => number(code),
        None => (1..)
            .zip(NAMES)
            .find(|(_, name)| *name == scale)
            .map(|(code, _)| code),
    }
}

/// `(2443144.5, 0)`: two doubles.
fn parts(text: &str) -> Option<(f64, f64)> {
    let (first, second) = text
        .strip_prefix('(')?
        .strip_suffix(')')?
        .split_once(", ")?;
    Some((first.parse().ok()?, second.parse().ok()?))
}

/// `day 41317 0`: a day and ticks in it.
fn utc(text: &str) -> Option<Utc> {
    let (day, ticks) = text.strip_prefix("day ")?.split_once(' ')?;
    let (day, ticks) = (number(day)?, number(ticks)?);
    Some(Utc { day, ticks })
}

/// A date's two parts, UTC, `0 s`, or a tick.
fn reading(text: &str) -> Option<Reading> {
    if let Some((first, second)) = parts(text) {
        return Some(Reading::TwoPart(first, second));
    }
    if let Some(utc) = utc(text) {
        return Some(Reading::Utc(utc));
    }
    match text.strip_suffix(" s") {
        Some(seconds) => Some(Reading::SinceJ2000(seconds.parse().ok()?)),
        None => Some(Reading::Ticks(number(text)?)),
    }
}

/// `-65500, 1 step`: what came out, and the steps.
fn with_steps(answer: &str) -> Option<(&str, u32)> {
    let (answer, steps) = answer.rsplit_once(", ")?;
    let steps = steps
        .strip_suffix(" step")
        .or(steps.strip_suffix(" steps"))?;
    Some((answer, number(steps)?))
}

fn converted(answer: &str) -> Option<Converted> {
    let (tick, steps) = with_steps(answer)?;
    let tick = number(tick)?;
    Some(Converted { tick, steps })
}

/// `day 41317 0, 1 step`
fn utc_written(answer: &str) -> Option<Written> {
    let (written, steps) = with_steps(answer)?;
    let utc = utc(written)?;
    Some(Written { utc, steps })
}

/// `TCB 0 to TDB`, over a list, a table, both or neither. A tick `to UTC` is
/// written.
fn conversion(text: &str, over: &str, answer: &str) -> Option<Call> {
    let (from_name, rest) = text.split_once(' ')?;
    let (given, to_name) = rest.split_once(" to ")?;
    let (from, to) = (code(from_name)?, code(to_name)?);
    let (list, bytes) = read_over(over)?;
    let (asked, expected) = match (reading(given)?, to_name) {
        (Reading::Ticks(tick), "UTC") => {
            let expected = UtcAnswer::from(outcome(answer, utc_written)?);
            (Asked::WriteUtc { from, to, tick }, Reply::Utc(expected))
        }
        (reading, _) => {
            let expected = Answer::from(outcome(answer, converted)?);
            let asked = Asked::Convert { from, to, reading };
            (asked, Reply::Answer(expected))
        }
    };
    let call = Call::plain(asked, bytes, expected);
    Some(Call { list, ..call })
}

fn date_written(tick: &str, answer: &str) -> Option<Call> {
    let asked = Asked::WriteDate {
        tick: number(tick)?,
    };
    let expected = Date::from(outcome(answer, parts)?);
    Some(Call::plain(asked, Vec::new(), Reply::Date(expected)))
}

/// `judge, read, write`: the table, given to each.
fn table_calls(functions: &str, table: &Table, answer: &str) -> Option<Vec<Call>> {
    let call = |function| table_call(function, table, answer);
    functions.split(", ").map(call).collect()
}

/// A table given to one of its functions, which is lent as much as it asks for.
fn table_call(function: &str, table: &Table, answer: &str) -> Option<Call> {
    let passes = |answer: &str| (answer == "passes").then(|| table.clone());
    let judged: Judged = outcome(answer, passes)?;
    let bytes = blocks::image(table);
    let found = Reply::Table(TableAnswer::from(&judged));
    match function {
        "judge" => Some(Call::plain(Asked::Judge, bytes, found)),
        "read" => Some(Call {
            room: 8 * table.coefficients.len(),
            ..Call::plain(Asked::ReadTable, bytes, found)
        }),
        "write" => Some(written(table, bytes.len(), judged)),
        _ => None,
    }
}

fn written(table: &Table, room: usize, judged: Judged) -> Call {
    let asked = Asked::WriteTable {
        start: table.start,
        length: table.length,
        count: table.count,
        degree: table.degree,
    };
    // An accepted writing has no tick and no step to tell.
    let expected = judged.map_or_else(Answer::from, |_| Answer::default());
    Call {
        list: table.coefficients.clone(),
        room,
        ..Call::plain(asked, Vec::new(), Reply::Answer(expected))
    }
}
