//! The rows that are printed: a case each, or the growth of one.

pub mod batches;
pub mod changes;
pub mod dates;
pub mod few;
pub mod lines;
pub mod tables;
pub mod utc;

use crate::plain::table::Table;
use crate::timing::{Side, median, times};

/// Enough for a median that stands still, where a round takes milliseconds.
const ROUNDS: usize = 41;

/// Times the sides, ours, plain Rust and, where there is one, plain C; each does so many at a time.
/// Prints what one takes, and the median of the rounds' ratios of ours to plain Rust.
fn print_row(case: &str, many: usize, rounds: usize, mut sides: Vec<Side>) {
    let times = times(rounds, &mut sides);
    let ratios = times[0].iter().zip(&times[1]).map(|(a, b)| a / b).collect();
    let ratio = median(ratios);
    let each: Vec<String> = times
        .into_iter()
        .map(|times| format!("{:.1}", median(times) / many as f64))
        .collect();
    let c = each.get(2).map_or("", String::as_str);
    println!("| {case} | {} | {} | {ratio:.2} | {c} |", each[0], each[1]);
}

/// Hands every entry to one side and keeps what a host wants of the answer.
fn each<'a, I: Copy, O>(
    given: &'a [I],
    kept: &'a mut [O],
    side: impl Fn(I) -> Option<O> + 'a,
) -> Side<'a> {
    Box::new(move || {
        for (kept, given) in kept.iter_mut().zip(given) {
            *kept = side(*given).expect("an accepted one");
        }
    })
}

fn accepted<T>(number: u32, answer: T) -> Option<T> {
    (number == 0).then_some(answer)
}

/// A minute inside the table at either end: further than TDB is from TT, and GPS.
fn inside(table: &Table) -> (i64, i64) {
    const MINUTE: i64 = 60_000_000_000;
    (table.start + MINUTE, table.last() - MINUTE)
}

/// Times ours at each size, so many times over, and prints what one of so many takes.
fn print_growth(case: &str, sizes: &[usize], over: usize, rounds: usize, mut sides: Vec<Side>) {
    let times = times(rounds, &mut sides);
    let sized: Vec<String> = sizes.iter().map(usize::to_string).collect();
    let each: Vec<String> = times
        .into_iter()
        .zip(sizes)
        .map(|(times, size)| format!("{:.1}", median(times) / (*size * over) as f64))
        .collect();
    println!("| {case} | {} | {} |", sized.join(", "), each.join(", "));
}
