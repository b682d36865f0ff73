//! A host in Rust: it judges a table, converts, splits a date two ways, runs a batch, reads and
//! writes UTC, compares the table with the next season's and shows four refusals. Its arguments are
//! the table's file, that of the leap seconds and that of the next season's table.

use std::ptr::null;

const GPS: u32 = 1;
const TT: u32 = 3;
const TDB: u32 = 5;
const TCB: u32 = 6;
const UTC: u32 = 7;

#[repr(C)]
struct Answer {
    number: u32,
    steps: u32,
    place: u64,
    index: u64,
    tick: i64,
}

#[repr(C)]
struct Date {
    number: u32,
    place: u64,
    first: f64,
    second: f64,
}

#[repr(C)]
struct Utc {
    number: u32,
    steps: u32,
    place: u64,
    day: i64,
    ticks: i64,
}

#[repr(C)]
struct Table {
    number: u32,
    count: u32,
    degree: u32,
    place: u64,
    start: i64,
    length: i64,
}

#[repr(C)]
struct Changes {
    number: u32,
    which: u32,
    place: u64,
    entries: u64,
}

// As include/colliedash.h declares them. A length is that of the slice whose pointer stands before
// it.
#[link(name = "hosts", kind = "static")]
unsafe extern "C" {
    fn colliedash_judge(table: *const u8, table_len: usize) -> Table;
    fn colliedash_compare_tables(
        first: *const u8,
        first_len: usize,
        second: *const u8,
        second_len: usize,
        entries: *mut i64,
        entries_len: usize,
    ) -> Changes;
    safe fn colliedash_write_date(tick: i64) -> Date;
    fn colliedash_convert_ticks(
        from: u32,
        to: u32,
        tick: i64,
        table: *const u8,
        table_len: usize,
    ) -> Answer;
    fn colliedash_convert_date(
        from: u32,
        to: u32,
        first: f64,
        second: f64,
        table: *const u8,
        table_len: usize,
    ) -> Answer;
    fn colliedash_convert_utc(
        from: u32,
        to: u32,
        day: i64,
        ticks: i64,
        leaps: *const i64,
        leaps_len: usize,
        table: *const u8,
        table_len: usize,
    ) -> Answer;
    fn colliedash_write_utc(
        from: u32,
        to: u32,
        tick: i64,
        leaps: *const i64,
        leaps_len: usize,
        table: *const u8,
        table_len: usize,
    ) -> Utc;
    fn colliedash_batch(
        from: u32,
        to: u32,
        ticks: *const i64,
        ticks_len: usize,
        answers: *mut i64,
        answers_len: usize,
        table: *const u8,
        table_len: usize,
    ) -> Answer;
}

/// A batch: the path's steps, or the refusal.
fn batch(
    from: u32,
    to: u32,
    ticks: &[i64],
    answers: &mut [i64],
    table: &[u8],
) -> Result<u32, Answer> {
    let answer = unsafe {
        colliedash_batch(
            from,
            to,
            ticks.as_ptr(),
            ticks.len(),
            answers.as_mut_ptr(),
            answers.len(),
            table.as_ptr(),
            table.len(),
        )
    };
    if answer.number == 0 {
        Ok(answer.steps)
    } else {
        Err(answer)
    }
}

/// The tick of a date in TT, read by itself: no table is crossed.
fn tt_tick((first, second): (f64, f64)) -> i64 {
    unsafe { colliedash_convert_date(TT, TT, first, second, null(), 0) }.tick
}

/// A UTC reading in TT, on the way to which no table is crossed.
fn tt_of(day: i64, ticks: i64, leaps: &[i64]) -> Answer {
    unsafe { colliedash_convert_utc(UTC, TT, day, ticks, leaps.as_ptr(), leaps.len(), null(), 0) }
}

/// And back.
fn utc_of(tick: i64, leaps: &[i64]) -> Utc {
    unsafe { colliedash_write_utc(TT, UTC, tick, leaps.as_ptr(), leaps.len(), null(), 0) }
}

/// What changed between two tables: the entries, three numbers each, or the refusal.
fn compare<'a>(first: &[u8], second: &[u8], list: &'a mut [i64]) -> Result<&'a [i64], Changes> {
    let changes = unsafe {
        colliedash_compare_tables(
            first.as_ptr(),
            first.len(),
            second.as_ptr(),
            second.len(),
            list.as_mut_ptr(),
            list.len(),
        )
    };
    if changes.number == 0 {
        Ok(&list[..3 * changes.entries as usize])
    } else {
        Err(changes)
    }
}

/// Each granule that differs, its differences in units of 1/65536 tick and in ticks.
fn show_changes(entries: &[i64]) {
    println!(
        "{:>7}{:>9}{:>6}{:>18}{:>14}",
        "granule", "largest", "sum", "largest in ticks", "sum in ticks"
    );
    let ticks = |units: i64| units as f64 / 65536.0;
    for entry in entries.chunks_exact(3) {
        let (granule, largest, sum) = (entry[0], entry[1], entry[2]);
        println!(
            "{granule:>7}{largest:>9}{sum:>6}{:>18.6}{:>14.6}",
            ticks(largest),
            ticks(sum)
        );
    }
}

/// A comment's line, then a pair a line.
fn pairs(text: &str) -> Vec<i64> {
    let numbers = text.lines().skip(1).flat_map(str::split_whitespace);
    numbers
        .map(|number| number.parse().expect("a number"))
        .collect()
}

fn refused(what: &str, answer: Answer) {
    let Answer {
        number,
        place,
        index,
        ..
    } = answer;
    println!("{what}: refused {number}, place {place}, entry {index}");
}

fn main() {
    let mut paths = std::env::args().skip(1);
    let mut path = || paths.next().expect("usage: host TABLE LEAPS SEASON");
    let table = std::fs::read(path()).expect("a table's file");
    let leaps = pairs(&std::fs::read_to_string(path()).expect("a file of leap seconds"));
    let season = std::fs::read(path()).expect("the next season's table");

    let judged = unsafe { colliedash_judge(table.as_ptr(), table.len()) };
    println!(
        "table: number {}, {} granules of {} ticks, degree {}, from TT {}",
        judged.number, judged.count, judged.length, judged.degree, judged.start
    );

    // No step of this path crosses the table, so none is lent.
    let answer = unsafe { colliedash_convert_ticks(TCB, TDB, 100_000_000_000_000_000, null(), 0) };
    println!(
        "TCB 100000000000000000 is TDB {}, {} step",
        answer.tick, answer.steps
    );

    let answer =
        unsafe { colliedash_convert_date(GPS, TDB, 2461112.5, 0.75, table.as_ptr(), table.len()) };
    println!(
        "GPS 2461112.5 + 0.75 is TDB {}, {} steps",
        answer.tick, answer.steps
    );

    let date = colliedash_write_date(answer.tick);
    println!("which is the date {:.1} + {:.15}", date.first, date.second);

    // One moment, half a tick past 43169793539062, split two ways: it is one tick.
    let noon = (2443145.0 + 3.0 / 262144.0, 3.0 / 262144.0);
    println!("TT 2443145 and 3/262144, + 3/262144, is {}", tt_tick(noon));
    let midnight = (2443144.5, 0.5 + 3.0 / 131072.0);
    println!("TT 2443144.5 + 1/2 and 3/131072 is {}", tt_tick(midnight));

    // Who buzzed first? Three crews, all tagged by GPS.
    let mut buzzes = [
        1600000000000000007,
        1600000000000000000,
        1600000000250000000,
    ];
    let mut answers = [-1; 3];
    if let Ok(steps) = batch(GPS, TCB, &buzzes, &mut answers, &table) {
        let [a, b, c] = answers;
        println!("batch of GPS to TCB, {steps} steps: {a} {b} {c}");
    }

    // The leap second of 2016-12-31.
    let answer = tt_of(57753, 86_400_000_000_000, &leaps);
    println!(
        "UTC day 57753, ticks 86400000000000 is TT {}, {} step",
        answer.tick, answer.steps
    );

    let utc = utc_of(answer.tick + 1_000_000_000, &leaps);
    println!(
        "a second later it is UTC day {}, ticks {}, {} step",
        utc.day, utc.ticks, utc.steps
    );

    // No other day near it has one.
    refused(
        "UTC day 57754, ticks 86400000000000",
        tt_of(57754, 86_400_000_000_000, &leaps),
    );

    let outside = unsafe { colliedash_convert_ticks(TT, TDB, 0, table.as_ptr(), table.len()) };
    refused("TT 0 to TDB", outside);

    // One bad entry, and nothing is written.
    buzzes[2] = i64::MAX;
    answers[0] = -1;
    if let Err(answer) = batch(GPS, TCB, &buzzes, &mut answers, &table) {
        refused("batch", answer);
        println!("its first answer is still {}", answers[0]);
    }

    // What changed from this season's table to the next?
    let mut list = [0; 3 * 360];
    if let Ok(entries) = compare(&table, &season, &mut list) {
        let (some, all) = (entries.len() / 3, judged.count);
        println!("next season: {some} of {all} granules differ");
        show_changes(entries);
    }

    // Room for two entries where there are three, and nothing is written.
    if let Err(changes) = compare(&table, &season, &mut list[..6]) {
        let Changes {
            number,
            place,
            which,
            ..
        } = changes;
        println!("into a list of 6 numbers: refused {number}, place {place}, table {which}");
    }
}
