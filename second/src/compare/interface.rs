//! The interface: what is asked and lent, the five answers, and a desk.

use crate::changes::PairRefusal;
use crate::dates::Reading;
use crate::desk::{BatchRefusal, Converted, Written};
use crate::refusal::Refusal;
use crate::table::Judged;

#[derive(Clone, Copy, Debug, Default, PartialEq, Eq)]
pub struct Answer {
    pub number: u32,
    pub steps: u32,
    pub place: u64,
    pub index: u64,
    pub tick: i64,
}

#[derive(Clone, Copy, Debug, Default)]
pub struct Date {
    pub number: u32,
    pub place: u64,
    pub first: f64,
    pub second: f64,
}

#[derive(Clone, Copy, Debug, Default, PartialEq, Eq)]
pub struct TableAnswer {
    pub number: u32,
    pub count: u32,
    pub degree: u32,
    pub place: u64,
    pub start: i64,
    pub length: i64,
}

#[derive(Clone, Copy, Debug, Default, PartialEq, Eq)]
pub struct UtcAnswer {
    pub number: u32,
    pub steps: u32,
    pub place: u64,
    pub day: i64,
    pub ticks: i64,
}

#[derive(Clone, Copy, Debug, Default, PartialEq, Eq)]
pub struct ChangesAnswer {
    pub number: u32,
    pub which: u32,
    pub place: u64,
    pub entries: u64,
}

/// Bit for bit: 0.0 and −0.0 are two answers.
impl PartialEq for Date {
    fn eq(&self, other: &Date) -> bool {
        let bits = |date: &Date| (date.first.to_bits(), date.second.to_bits());
        (self.number, self.place, bits(self)) == (other.number, other.place, bits(other))
    }
}

/// "Otherwise number and place are the refusal's [...]; every other field is 0."
impl From<Refusal> for Answer {
    fn from(Refusal { number, place }: Refusal) -> Answer {
        Answer {
            number,
            place,
            ..Answer::default()
        }
    }
}

/// "number 0 is accepted, with place and index 0."
impl From<Result<Converted, Refusal>> for Answer {
    fn from(answer: Result<Converted, Refusal>) -> Answer {
        match answer {
            Ok(Converted { tick, steps }) => Answer {
                tick,
                steps,
                ..Answer::default()
            },
            Err(refusal) => Answer::from(refusal),
        }
    }
}

/// An accepted batch answers the path's steps; "for a batch, index the entry's".
impl From<Result<u32, BatchRefusal>> for Answer {
    fn from(answer: Result<u32, BatchRefusal>) -> Answer {
        match answer {
            Ok(steps) => Answer {
                steps,
                ..Answer::default()
            },
            Err(BatchRefusal { refusal, index }) => Answer {
                index,
                ..Answer::from(refusal)
            },
        }
    }
}

impl From<&Judged> for TableAnswer {
    fn from(judged: &Judged) -> TableAnswer {
        match judged {
            Ok(table) => TableAnswer {
                count: table.count,
                degree: table.degree,
                start: table.start,
                length: table.length,
                ..TableAnswer::default()
            },
            Err(refusal) => TableAnswer {
                number: refusal.number,
                place: refusal.place,
                ..TableAnswer::default()
            },
        }
    }
}

impl From<Result<(f64, f64), Refusal>> for Date {
    fn from(date: Result<(f64, f64), Refusal>) -> Date {
        match date {
            Ok((first, second)) => Date {
                first,
                second,
                ..Date::default()
            },
            Err(Refusal { number, place }) => Date {
                number,
                place,
                ..Date::default()
            },
        }
    }
}

impl From<Result<Written, Refusal>> for UtcAnswer {
    fn from(written: Result<Written, Refusal>) -> UtcAnswer {
        match written {
            Ok(Written { utc, steps }) => UtcAnswer {
                steps,
                day: utc.day,
                ticks: utc.ticks,
                ..UtcAnswer::default()
            },
            Err(Refusal { number, place }) => UtcAnswer {
                number,
                place,
                ..UtcAnswer::default()
            },
        }
    }
}

/// "the counts that are answered are in triples", so this takes that of the list.
impl From<Result<usize, PairRefusal>> for ChangesAnswer {
    fn from(compared: Result<usize, PairRefusal>) -> ChangesAnswer {
        match compared {
            Ok(entries) => ChangesAnswer {
                entries: entries as u64,
                ..ChangesAnswer::default()
            },
            Err(PairRefusal { refusal, which }) => ChangesAnswer {
                number: refusal.number,
                which,
                place: refusal.place,
                ..ChangesAnswer::default()
            },
        }
    }
}

/// A function of the interface, with the arguments that are plain numbers.
#[derive(Clone, Copy, Debug)]
pub enum Asked {
    Judge,
    ReadTable,
    WriteTable {
        start: i64,
        length: i64,
        count: u32,
        degree: u32,
    },
    CompareTables,
    WriteDate {
        tick: i64,
    },
    /// One of the four conversions: the reading tells which.
    Convert {
        from: u32,
        to: u32,
        reading: Reading,
    },
    Batch {
        from: u32,
        to: u32,
    },
    WriteUtc {
        from: u32,
        to: u32,
        tick: i64,
    },
}

/// What a call is lent; what it has no use for is empty.
#[derive(Clone, Debug, Default)]
pub struct Lent<'a> {
    pub table: &'a [u8],
    /// The second table, where two are compared.
    pub second_table: &'a [u8],
    /// The coefficients, the ticks or the pairs of TAI−UTC lent to be read.
    pub list: &'a [i64],
    /// What stands in the buffer lent to be written, before the call.
    pub buffer: Vec<u8>,
    /// "A null pointer is allowed where its length is 0", so the empty ones go
    /// as null or as pointers of their own, as asked.
    pub null: bool,
}

impl Lent<'_> {
    /// A table alone.
    pub fn table(table: &[u8]) -> Lent<'_> {
        Lent {
            table,
            ..Lent::default()
        }
    }
}

/// The answer of any function.
#[derive(Clone, Copy, Debug, PartialEq)]
pub enum Reply {
    Answer(Answer),
    Date(Date),
    Table(TableAnswer),
    Utc(UtcAnswer),
    Changes(ChangesAnswer),
}

impl Reply {
    pub fn number(&self) -> u32 {
        match self {
            Reply::Answer(answer) => answer.number,
            Reply::Date(date) => date.number,
            Reply::Table(table) => table.number,
            Reply::Utc(utc) => utc.number,
            Reply::Changes(changes) => changes.number,
        }
    }
}

/// What one call did: its answer, what stands in the buffer after it, and what
/// it wrote that it should not have.
#[derive(Clone, Debug, PartialEq)]
pub struct Called {
    pub reply: Reply,
    pub buffer: Vec<u8>,
    pub beside: Vec<&'static str>,
}

/// A desk that breaks down says why, and answers nothing any more.
pub type Outcome = Result<Called, String>;

/// The functions to be compared.
pub trait Desk {
    fn call(&mut self, asked: Asked, lent: &Lent) -> Outcome;

    /// Some hundred calls, one after the other, all of them lent the same. After
    /// an outcome that says why the desk broke down there may be no other.
    fn calls(&mut self, asked: &[Asked], lent: &Lent) -> Vec<Outcome> {
        asked.iter().map(|asked| self.call(*asked, lent)).collect()
    }
}
