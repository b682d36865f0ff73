//! Dates read and written, a call each on every side.

use super::{ROUNDS, accepted, each, print_row};
use crate::inputs::at_random;
use crate::plain::Refusal;
use crate::plain::convert::convert_date;
use crate::plain::dates::write;
use crate::{ours, plain_c};
use std::hint::black_box;

const MANY: usize = 100_000;
const TT: u32 = 3;

/// All sides write each tick alike, and convert what was written alike, and refuse alike what is no
/// date.
fn compare(ticks: &[i64]) {
    for tick in ticks.iter().copied().chain([i64::MIN, i64::MAX]) {
        let ours = ours::write_date(tick);
        assert_eq!(ours, plain_c::plain_write_date(tick));
        let rust = write(tick);
        let dated = |(first, second)| (0, first, second);
        let rust = rust.map_or_else(|refusal| (refusal.number, 0.0, 0.0), dated);
        assert_eq!((ours.number, ours.first, ours.second), rust);
        compare_converted(ours.first, ours.second);
    }
    // The last three are a half of a tick, and what makes one of two parts that are none.
    let odd = [
        0.0,
        -0.3,
        5e-324,
        -5e-324,
        2443144.5,
        -5e6,
        5_000_000.1,
        f64::NAN,
        f64::INFINITY,
        2443145.0 + 3.0 / 131072.0,
        2443145.0 + 3.0 / 262144.0,
        3.0 / 262144.0,
    ];
    for first in odd {
        for second in odd {
            compare_converted(first, second);
        }
    }
}

/// Along paths that look at no table, of no step and of more, and with codes that are none.
fn compare_converted(first: f64, second: f64) {
    for (from, to) in [(3, 3), (0, 4), (1, 3), (7, 3), (3, 7)] {
        let ours = ours::convert_date(from, to, first, second);
        let told = (ours.number, ours.place, ours.tick, ours.steps);
        let rust = convert_date(from, to, first, second, &[]);
        let converted = |(tick, steps)| (0, 0, tick, steps);
        let refused = |r: Refusal| (r.number, r.place, 0, 0);
        assert_eq!(told, rust.map_or_else(refused, converted));
    }
}

pub fn rows() {
    let ticks = at_random(MANY, -6_000_000_000_000_000_000, 6_000_000_000_000_000_001);
    compare(&ticks);
    let dates: Vec<(f64, f64)> = ticks.iter().map(|tick| write(*tick).unwrap()).collect();

    let mut kept = [(); 2].map(|_| ticks.clone());
    let [a, b] = &mut kept;
    print_row(
        "reading a two-part date",
        MANY,
        ROUNDS,
        vec![
            each(&dates, a, |(first, second)| {
                let answer = ours::convert_date(black_box(TT), TT, first, second);
                accepted(answer.number, answer.tick)
            }),
            each(&dates, b, |(first, second)| {
                let answer = convert_date(black_box(TT), TT, first, second, &[]);
                answer.ok().map(|(tick, _)| tick)
            }),
        ],
    );

    let mut kept = [(); 3].map(|_| dates.clone());
    let [a, b, c] = &mut kept;
    print_row(
        "writing a date",
        MANY,
        ROUNDS,
        vec![
            each(&ticks, a, |tick| {
                let date = ours::write_date(tick);
                accepted(date.number, (date.first, date.second))
            }),
            each(&ticks, b, |tick| write(tick).ok()),
            each(&ticks, c, |tick| {
                let date = plain_c::plain_write_date(tick);
                accepted(date.number, (date.first, date.second))
            }),
        ],
    );
}
