//! The comparisons of judging, reading and writing tables.

use super::buffers::{blank, blank_ticks};
use super::interface::{Asked, Lent};
use super::stage::Stage;
use super::trial::Trial;
use crate::blocks::{self, BLOCK};
use crate::generate::Random;
use crate::scales::GREATEST_EPOCH;
use crate::table::{GREATEST_COEFFICIENT, GREATEST_COUNT, GREATEST_LENGTH, LEAST_LENGTH, Table};

pub fn judge(stage: &Stage, trial: &mut Trial) -> Result<(), String> {
    for table in &stage.images {
        trial.ask(Asked::Judge, Lent::table(table))?;
    }
    Ok(())
}

pub fn read_table(stage: &Stage, trial: &mut Trial) -> Result<(), String> {
    for (case, table) in stage.images.iter().enumerate() {
        let right = match blocks::judge(table) {
            Ok(table) => table.coefficients.len(),
            Err(_) => case % 7,
        };
        for length in [right, right + 1, right.saturating_sub(1), 0] {
            let lent = Lent {
                buffer: blank_ticks(length),
                ..Lent::table(table)
            };
            trial.ask(Asked::ReadTable, lent)?;
        }
    }
    Ok(())
}

pub fn write_table(stage: &Stage, trial: &mut Trial) -> Result<(), String> {
    let mut random = Random::new(stage.seed ^ 0x77);
    for table in &stage.accepted {
        let size = blocks::image(table).len();
        for length in [size, size - 1, size + 1, size - BLOCK, size + BLOCK, 0] {
            write_one(trial, table, length)?;
        }
        for changed in changed_tables(&mut random, table) {
            let fitting = blocks::blocks_needed(changed.count) as usize * BLOCK;
            // A count near 2^32 would want gigabytes; it gets a small buffer.
            write_one(trial, &changed, fitting.min(200 * BLOCK))?;
        }
    }
    Ok(())
}

fn write_one(trial: &mut Trial, table: &Table, length: usize) -> Result<(), String> {
    let asked = Asked::WriteTable {
        start: table.start,
        length: table.length,
        count: table.count,
        degree: table.degree,
    };
    let lent = Lent {
        list: &table.coefficients,
        buffer: blank(length),
        ..Lent::default()
    };
    trial.ask(asked, lent)
}

/// The table with one number changed: at and past every bound, and lists that
/// fit the changed numbers as well as lists that do not.
fn changed_tables(random: &mut Random, table: &Table) -> Vec<Table> {
    let mut list = changed_ranges(table);
    list.extend(changed_sizes(table));
    list.extend(changed_coefficients(random, table));
    list
}

fn changed(table: &Table, change: impl FnOnce(&mut Table)) -> Table {
    let mut table = table.clone();
    change(&mut table);
    table
}

fn changed_ranges(table: &Table) -> Vec<Table> {
    let end = GREATEST_EPOCH;
    let last = end - i64::from(table.count) * table.length;
    let (least, most) = (LEAST_LENGTH, GREATEST_LENGTH);
    let starts = [-end, -end - 1, last, last + 1, i64::MIN, i64::MAX];
    let lengths = [least, least - 1, most, most + 1, -1, i64::MIN, i64::MAX];
    let start = |start| changed(table, |table| table.start = start);
    let length = |length| changed(table, |table| table.length = length);
    starts
        .map(start)
        .into_iter()
        .chain(lengths.map(length))
        .collect()
}

/// A list of zeros or of the first coefficients, as long as G and n want it.
fn resized(mut table: Table) -> Table {
    // A list that would be very long stays as it is, and is then refused.
    if table.count <= 1_000 && table.degree <= 100 {
        let size = table.count as usize * (table.degree as usize + 1);
        table.coefficients.resize(size, 0);
    }
    table
}

fn changed_sizes(table: &Table) -> Vec<Table> {
    let most = GREATEST_COUNT;
    let counts = [0, 1, most, most + 1, table.count + 1, u32::MAX];
    let degrees = [0, 15, 16, 17, table.degree + 1, 100, u32::MAX];
    let count = |count| changed(table, |table| table.count = count);
    let degree = |degree| changed(table, |table| table.degree = degree);
    let sizes: Vec<Table> = counts
        .map(count)
        .into_iter()
        .chain(degrees.map(degree))
        .collect();
    let fitting: Vec<Table> = sizes.iter().cloned().map(resized).collect();
    // G·(n+1) is 2^33 and 2^32 + 2; in 32 bits it would fit these lists.
    let wrapping = [(u32::MAX, 0), (1 << 31, 2)].map(|(degree, length)| Table {
        count: 2,
        degree,
        coefficients: vec![0; length],
        ..table.clone()
    });
    [sizes, fitting, wrapping.to_vec()].concat()
}

fn changed_coefficients(random: &mut Random, table: &Table) -> Vec<Table> {
    let at = random.index(table.coefficients.len());
    let over = GREATEST_COEFFICIENT + 1;
    let c = table.coefficients[at];
    [
        over - 1,
        over,
        -over,
        c + 1,
        c - 1,
        c + 1025,
        i64::MIN,
        i64::MAX,
    ]
    .map(|value| changed(table, |table| table.coefficients[at] = value))
    .to_vec()
}
