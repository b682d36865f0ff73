//! UTC read and written over the list of leap seconds from 1972 to 2017, a call each on every side.

use super::{ROUNDS, accepted, each, print_row};
use crate::inputs::at_random;
use crate::ours;
use crate::plain::Refusal;
use crate::plain::convert::{convert_utc, write_utc};
use std::hint::black_box;

const MANY: usize = 100_000;
const TAI: u32 = 2;
const UTC: u32 = 7;
/// TAI ticks from the list's first day to the end of 2026.
const SPAN: (i64, i64) = (-157_852_822_184_000_000, 1_577_836_804_816_000_000);

/// The numbers of a file of pairs.
fn numbers(text: &str) -> Vec<i64> {
    let lines = text.lines().filter(|line| !line.starts_with('#'));
    lines
        .flat_map(str::split_whitespace)
        .map(|number| number.parse().expect("a number"))
        .collect()
}

/// Both sides write each tick alike, and convert what was written alike.
fn compare(ticks: &[i64], leaps: &[i64]) {
    for tick in ticks.iter().copied() {
        for (from, to) in [(TAI, UTC), (1, UTC), (UTC, UTC), (TAI, TAI)] {
            compare_written(from, to, tick, leaps);
        }
        let ours = ours::write_utc(TAI, UTC, tick, leaps);
        for (from, to) in [(UTC, TAI), (UTC, 4), (UTC, UTC), (TAI, TAI)] {
            compare_converted(from, to, ours.day, ours.ticks, leaps);
        }
        compare_converted(UTC, TAI, ours.day, ours.ticks + 86_400_000_000_000, leaps);
    }
}

fn compare_written(from: u32, to: u32, tick: i64, leaps: &[i64]) {
    let ours = ours::write_utc(from, to, tick, leaps);
    let told = (ours.number, ours.place, ours.day, ours.ticks, ours.steps);
    let rust = write_utc(from, to, tick, leaps, &[]);
    let written = |(day, ticks, steps)| (0, 0, day, ticks, steps);
    let refused = |r: Refusal| (r.number, r.place, 0, 0, 0);
    assert_eq!(told, rust.map_or_else(refused, written));
}

fn compare_converted(from: u32, to: u32, day: i64, ticks: i64, leaps: &[i64]) {
    let ours = ours::convert_utc(from, to, day, ticks, leaps);
    let told = (ours.number, ours.place, ours.tick, ours.steps);
    let rust = convert_utc(from, to, day, ticks, leaps, &[]);
    let converted = |(tick, steps)| (0, 0, tick, steps);
    let refused = |r: Refusal| (r.number, r.place, 0, 0);
    assert_eq!(told, rust.map_or_else(refused, converted));
}

/// As the list is, and lists that are none; ticks at random and about every entry's first day.
fn compare_all(ticks: &[i64], leaps: &[i64]) {
    compare(ticks, leaps);
    let second = 1_000_000_000;
    let starts = leaps
        .chunks_exact(2)
        .map(|pair| (pair[0] - 43_144) * 86_400 * second + pair[1] * second - 32_184_000_000);
    let edges: Vec<i64> = starts
        .flat_map(|start| [-second - 1, -second, -1, 0, 1].map(|by| start + by))
        .chain([i64::MIN, i64::MAX])
        .collect();
    compare(&edges, leaps);
    compare(&edges, &[]);
    compare(&edges, &leaps[1..]);
    compare(&edges, &leaps[2..]);
    compare(&edges, &[leaps, &leaps[54..]].concat());
    compare(
        &edges,
        &[leaps, &[60_000, 36, 60_001, 37, i64::MAX, 36]].concat(),
    );
}

pub fn rows(list: &str) {
    let leaps = numbers(list);
    let ticks = at_random(MANY, SPAN.0, SPAN.1);
    compare_all(&ticks, &leaps);
    let written = |tick| write_utc(TAI, UTC, tick, &leaps, &[]).expect("a right tick");
    let readings: Vec<(i64, i64)> = ticks
        .iter()
        .map(|tick| written(*tick))
        .map(|(day, ticks, _)| (day, ticks))
        .collect();

    let mut kept = [(); 2].map(|_| ticks.clone());
    let [a, b] = &mut kept;
    print_row(
        "reading a UTC time",
        MANY,
        ROUNDS,
        vec![
            each(&readings, a, |(day, ticks)| {
                let answer = ours::convert_utc(black_box(UTC), TAI, day, ticks, &leaps);
                accepted(answer.number, answer.tick)
            }),
            each(&readings, b, |(day, ticks)| {
                let answer = convert_utc(black_box(UTC), TAI, day, ticks, &leaps, &[]);
                answer.ok().map(|(tick, _)| tick)
            }),
        ],
    );

    let mut kept = [(); 2].map(|_| readings.clone());
    let [a, b] = &mut kept;
    print_row(
        "writing a UTC time",
        MANY,
        ROUNDS,
        vec![
            each(&ticks, a, |tick| {
                let utc = ours::write_utc(black_box(TAI), UTC, tick, &leaps);
                accepted(utc.number, (utc.day, utc.ticks))
            }),
            each(&ticks, b, |tick| {
                let written = write_utc(black_box(TAI), UTC, tick, &leaps, &[]);
                written.ok().map(|(day, ticks, _)| (day, ticks))
            }),
        ],
    );
}
