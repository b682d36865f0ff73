//! Planted differences in the drifting linear steps around halves of a tick:
//! each is reported of single conversions and of batches.

mod harness;

use harness::{answer, compared, is_reported, planted};
use second::compare::{Asked, Called, Lent, bytes_of_ticks};
use second::dates::Reading;
use second::generate::near_ties;
use second::scales::{DRIFTING_STEPS, Scale, line, linear_step, scale_of_code};
use std::collections::BTreeSet;

const BOTH: [&str; 2] = [
    "colliedash_convert_ticks, around halves of a tick",
    "colliedash_batch, around halves of a tick",
];

/// Every drifting step in both comparisons.
fn of_both() -> impl Iterator<Item = ((Scale, Scale), &'static str)> {
    let in_both = |step| BOTH.map(|name| (step, name));
    DRIFTING_STEPS.into_iter().flat_map(in_both)
}

/// Instead of the step's tick, this one is told.
fn told_instead(
    step: (Scale, Scale),
    instead: impl Fn(i64) -> i64,
) -> impl FnMut(Asked, &Lent, &mut Called) {
    move |asked, lent, called| {
        let (Asked::Convert { from, to, .. } | Asked::Batch { from, to }) = asked else {
            panic!("{asked:?}")
        };
        let scale = |code| scale_of_code(code).unwrap();
        if (scale(from), scale(to)) != step || answer(called).number != 0 {
            return;
        }
        match asked {
            Asked::Convert {
                reading: Reading::Ticks(tick),
                ..
            } => answer(called).tick = instead(tick),
            _ => {
                let ticks: Vec<i64> = lent.list.iter().map(|tick| instead(*tick)).collect();
                called.buffer = bytes_of_ticks(&ticks);
            }
        }
    }
}

/// How many differences are reported.
fn differences(name: &str, step: (Scale, Scale), instead: impl Fn(i64) -> i64) -> u64 {
    compared(name, &mut planted(told_instead(step, instead))).different
}

/// The step with a rate that is wrong by so many times 2^-power, rounded rightly.
/// All else is whole there, so what the shift drops decides nothing.
fn with_wrong_rate((from, to): (Scale, Scale), tick: i64, wrong: (i128, u32)) -> i64 {
    let (line, tick, (many, power)) = (line(from, to), i128::from(tick), wrong);
    let twice = 2 * (line.factor * tick + line.offset) + line.divisor;
    // 2·divisor·tick·many / 2^power
    let more = (many * line.divisor * tick) >> (power - 1);
    let answer = (twice + more).div_euclid(2 * line.divisor);
    i64::try_from(answer).unwrap()
}

#[test]
fn a_rate_that_is_ever_so_little_wrong_is_reported() {
    for (step, name) in of_both() {
        let right = |tick| with_wrong_rate(step, tick, (0, 1));
        assert_eq!(differences(name, step, right), 0);
        for many in [1, -1] {
            let wrong = |tick| with_wrong_rate(step, tick, (many, 115));
            is_reported(name, told_instead(step, wrong));
        }
    }
}

/// Where a step has ticks so far past a half, all of them go the other way.
#[test]
fn near_ties_that_go_the_wrong_way_are_reported() {
    for (step, name) in of_both() {
        let mut met = Vec::new();
        for past in -2..=2 {
            let ties = near_ties(step.0, step.1).into_iter();
            let ticks = ties.filter(|tie| tie.past == past).map(|tie| tie.tick);
            let ticks: BTreeSet<i64> = ticks.collect();
            let other_way = if past < 0 { 1 } else { -1 };
            let wrong = |tick: i64| {
                let moved = if ticks.contains(&tick) { other_way } else { 0 };
                linear_step(step.0, step.1, tick) + moved
            };
            if differences(name, step, wrong) > 0 {
                met.push(past);
            }
        }
        let has_halves = [Scale::Tcg, Scale::Tcb].contains(&step.0);
        let expected = if has_halves {
            vec![-2, 0, 2]
        } else {
            vec![-1, 1]
        };
        assert_eq!(met, expected, "{name}: {step:?}");
    }
}

/// Each tick is asked once, so that it makes one difference.
#[test]
fn one_near_tie_that_goes_the_wrong_way_is_one_difference() {
    let known = 1_553_933_294_058_852_686;
    let lesser = |tdb: i64| linear_step(Scale::Tdb, Scale::Tcb, tdb) - i64::from(tdb == known);
    for name in BOTH {
        assert_eq!(differences(name, (Scale::Tdb, Scale::Tcb), lesser), 1);
    }
}
