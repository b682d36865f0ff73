//! Second's own answers behind the same interface: what a desk should answer.

use super::buffers::bytes_of_ticks;
use super::interface::{
    Answer, Asked, Called, ChangesAnswer, Desk, Lent, Outcome, Reply, TableAnswer,
};
use crate::blocks;
use crate::changes::{Entry, compare_tables};
use crate::dates::{self, Reading};
use crate::desk::{self, Converted};
use crate::table::{Judged, Table};

/// The table that was judged last in one place, since many calls are lent the
/// same.
struct Kept {
    bytes: Vec<u8>,
    judged: Judged,
}

impl Default for Kept {
    fn default() -> Kept {
        let bytes = Vec::new();
        let judged = blocks::judge(&bytes);
        Kept { bytes, judged }
    }
}

impl Kept {
    fn judged(&mut self, table: &[u8]) -> &Judged {
        if self.bytes != table {
            self.bytes = table.to_vec();
            self.judged = blocks::judge(table);
        }
        &self.judged
    }
}

#[derive(Default)]
pub struct Own {
    table: Kept,
    second_table: Kept,
}

impl Own {
    pub fn judged(&mut self, table: &[u8]) -> &Judged {
        self.table.judged(table)
    }

    /// The table and the second one, where two are compared.
    pub fn both_judged(&mut self, lent: &Lent) -> [&Judged; 2] {
        let second = self.second_table.judged(lent.second_table);
        [self.table.judged(lent.table), second]
    }

    /// The answer, and what is written to the front of the buffer where it is
    /// accepted.
    fn answer(&mut self, asked: Asked, lent: &Lent) -> (Reply, Option<Vec<u8>>) {
        match asked {
            Asked::Judge => {
                let judged = TableAnswer::from(self.judged(lent.table));
                (Reply::Table(judged), None)
            }
            Asked::ReadTable => read_table(lent.table, lent.buffer.len() / 8),
            Asked::WriteTable {
                start,
                length,
                count,
                degree,
            } => {
                let coefficients = lent.list.to_vec();
                let table = Table {
                    start,
                    length,
                    count,
                    degree,
                    coefficients,
                };
                write_table(&table, lent.buffer.len())
            }
            Asked::CompareTables => {
                let [first, second] = self.both_judged(lent);
                let list = compare_tables(first, second, lent.buffer.len() / 8);
                let answer = ChangesAnswer::from(list.as_ref().map(Vec::len).map_err(|r| *r));
                let written = list.map(|list| bytes_of_entries(&list));
                (Reply::Changes(answer), written.ok())
            }
            Asked::WriteDate { tick } => (Reply::Date(dates::write_date(tick).into()), None),
            Asked::Convert { from, to, reading } => {
                let judged = self.judged(lent.table);
                let converted = desk::convert(from, to, reading, lent.list, judged);
                (Reply::Answer(converted.into()), None)
            }
            Asked::Batch { from, to } => {
                let judged = self.judged(lent.table);
                let batch = desk::batch(from, to, lent.list, lent.buffer.len() / 8, judged);
                let answer = Answer::from(batch.as_ref().map(|b| b.steps).map_err(|r| *r));
                let written = batch.map(|batch| bytes_of_ticks(&batch.ticks));
                (Reply::Answer(answer), written.ok())
            }
            Asked::WriteUtc { from, to, tick } => {
                let (reading, judged) = (Reading::Ticks(tick), self.judged(lent.table));
                let written = desk::write_utc(from, to, reading, lent.list, judged);
                (Reply::Utc(written.into()), None)
            }
        }
    }
}

fn read_table(bytes: &[u8], length: usize) -> (Reply, Option<Vec<u8>>) {
    let read = blocks::read(bytes, length);
    let answer = TableAnswer::from(&read);
    let written = read.map(|table| bytes_of_ticks(&table.coefficients));
    (Reply::Table(answer), written.ok())
}

/// An accepted writing has no tick and no step to tell.
fn write_table(table: &Table, length: usize) -> (Reply, Option<Vec<u8>>) {
    let image = blocks::write(table, length);
    let nothing = |_: &Vec<u8>| Converted { tick: 0, steps: 0 };
    let answer = Answer::from(image.as_ref().map(nothing).map_err(|r| *r));
    (Reply::Answer(answer), image.ok())
}

/// "a flat list of triples, granule, largest, sum"
fn bytes_of_entries(list: &[Entry]) -> Vec<u8> {
    let numbers: Vec<i64> = list.iter().flat_map(Entry::numbers).collect();
    bytes_of_ticks(&numbers)
}

impl Desk for Own {
    fn call(&mut self, asked: Asked, lent: &Lent) -> Outcome {
        let (reply, written) = self.answer(asked, lent);
        // "On a refusal nothing lent is written", and of a list that is shorter
        // than its buffer "the rest of the buffer stays".
        let mut buffer = lent.buffer.clone();
        let written = written.unwrap_or_default();
        buffer[..written.len()].copy_from_slice(&written);
        Ok(Called {
            reply,
            buffer,
            beside: Vec::new(),
        })
    }
}
