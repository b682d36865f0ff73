//! The drifting linear steps where their exact value is a half of a tick or
//! nearly one, by exact fractions. Request 2026-04: "No answer changes".

use second::blocks;
use second::dates::Reading;
use second::desk::{Converted, convert};
use second::exact::{Fraction, Whole};
use second::generate::{near_ties, ticks_around_ties};
use second::scales::{DRIFTING_STEPS, GREATEST_EPOCH, Scale, linear_step};
use std::collections::BTreeMap;

const TCG_TO_TT: (Scale, Scale) = (Scale::Tcg, Scale::Tt);
const TT_TO_TCG: (Scale, Scale) = (Scale::Tt, Scale::Tcg);
const TCB_TO_TDB: (Scale, Scale) = (Scale::Tcb, Scale::Tdb);
const TDB_TO_TCB: (Scale, Scale) = (Scale::Tdb, Scale::Tcb);

/// Each step's divisor in lowest terms, and the near ties that are furthest from
/// a half. L_G is 6969290134 / 10^19, where 2 divides both; L_B is
/// 1550519768 / 10^17, where 8 does.
const STEPS: [((Scale, Scale), i128, i128); 4] = [
    (TCG_TO_TT, 5_000_000_000_000_000_000, 3_332),
    (TT_TO_TCG, 5_000_000_000_000_000_000 - 3_484_645_067, 3_333),
    (TCB_TO_TDB, 12_500_000_000_000_000, 8),
    (TDB_TO_TCB, 12_500_000_000_000_000 - 193_814_971, 7),
];

/// How many ticks the step makes of one, but for the TCB offset.
fn rate((from, to): (Scale, Scale)) -> Fraction {
    let ten = |power| Whole::from(10).power(power);
    let g = (&ten(19) - &Whole::from(6_969_290_134), ten(19));
    let b = (&ten(17) - &Whole::from(1_550_519_768), ten(17));
    let (numerator, denominator) = match (from, to) {
        TCG_TO_TT => g,
        TT_TO_TCG => (g.1, g.0),
        TCB_TO_TDB => b,
        TDB_TO_TCB => (b.1, b.0),
        other => panic!("{other:?}"),
    };
    Fraction::new(numerator, denominator)
}

/// What the step gives exactly.
fn exact(step: (Scale, Scale), tick: i64) -> Fraction {
    let (tick, rate) = (Fraction::whole(i128::from(tick)), rate(step));
    let offset = Fraction::whole(65_500);
    match step {
        TCB_TO_TDB => &(&tick * &rate) - &offset,
        TDB_TO_TCB => &(&tick + &offset) * &rate,
        _ => &tick * &rate,
    }
}

#[test]
fn the_divisors_are_in_lowest_terms() {
    assert_eq!(STEPS.map(|(step, ..)| step), DRIFTING_STEPS);
    for (step, divisor, _) in STEPS {
        let found = rate(step).reduced().denominator;
        assert_eq!(found, Whole::from(divisor), "{step:?}");
    }
}

/// The exact value is a whole number, a half, and so many times 1/(2q). With
/// fewer than none of these the whole number is nearest, else the next one.
#[test]
fn each_near_tie_is_as_near_as_claimed_and_goes_the_right_way() {
    for (step, q, furthest) in STEPS {
        for tie in near_ties(step.0, step.1) {
            let exact = exact(step, tie.tick);
            let nearest = exact.nearest().to_i128();
            let lesser = Fraction::whole(nearest - i128::from(tie.past >= 0));
            let beyond = Fraction::new(Whole::from(q + tie.past), Whole::from(2 * q));
            assert_eq!(exact, &lesser + &beyond, "{step:?} {tie:?}");
            let answer = i128::from(linear_step(step.0, step.1, tie.tick));
            assert_eq!(answer, nearest, "{step:?} {tie:?}");
            assert!(tie.past.abs() <= furthest && tie.tick.abs() <= GREATEST_EPOCH);
        }
    }
}

/// The ticks of a step by how far past a half they are.
fn by_distance((from, to): (Scale, Scale)) -> BTreeMap<i128, Vec<i64>> {
    let mut ticks: BTreeMap<i128, Vec<i64>> = BTreeMap::new();
    for tie in near_ties(from, to) {
        ticks.entry(tie.past).or_default().push(tie.tick);
    }
    ticks
}

/// With an odd divisor there is no half: the nearest are 1/(2q) away from one.
#[test]
fn exact_halves_are_among_them_where_there_are_any() {
    let halves = |step| by_distance(step).remove(&0).unwrap_or_default();
    let middle = 2_500_000_000_000_000_000;
    assert_eq!(halves(TCG_TO_TT), [-middle, middle]);
    assert_eq!(
        linear_step(Scale::Tcg, Scale::Tt, middle),
        middle - 1_742_322_533
    );
    assert_eq!(
        linear_step(Scale::Tcg, Scale::Tt, -middle),
        1_742_322_534 - middle
    );
    // P4 and P5 are the two next to zero.
    let odd: Vec<i64> = (-960..960).filter(|many| many % 2 != 0).collect();
    let odd_multiples = odd.iter().map(|many| many * 6_250_000_000_000_000);
    assert_eq!(halves(TCB_TO_TDB), odd_multiples.collect::<Vec<i64>>());
    for step in [TT_TO_TCG, TDB_TO_TCB] {
        assert_eq!(halves(step), [0; 0]);
        let ticks = by_distance(step);
        assert!(ticks.contains_key(&1) && ticks.contains_key(&-1));
    }
}

/// Ticks as far past a half as each other are a multiple of q apart.
#[test]
fn none_that_is_as_near_is_left_out() {
    for (step, q, furthest) in STEPS {
        let ticks = by_distance(step);
        let distances: Vec<i128> = ticks.keys().copied().collect();
        let all: Vec<i128> = (-furthest..=furthest).step_by(2).collect();
        assert_eq!(distances, all, "{step:?}");
        let q = i64::try_from(q).unwrap();
        for (past, ticks) in ticks {
            assert!(ticks.windows(2).all(|pair| pair[1] - pair[0] == q));
            let (first, last) = (ticks[0], ticks[ticks.len() - 1]);
            let ends = first < q - GREATEST_EPOCH && last > GREATEST_EPOCH - q;
            assert!(ends, "{step:?} {past}");
        }
    }
}

#[test]
fn neighbours_ends_and_ticks_around_zero_are_asked_too() {
    for step @ (from, to) in DRIFTING_STEPS {
        let ticks = ticks_around_ties(from, to);
        let has = |tick: i64| ticks.binary_search(&tick).is_ok();
        let around = |tick: i64| has(tick - 1) && has(tick) && has(tick + 1);
        assert!(near_ties(from, to).iter().all(|tie| around(tie.tick)));
        for tick in [0, 65_500, -65_500, GREATEST_EPOCH, -GREATEST_EPOCH] {
            assert!(around(tick), "{step:?} {tick}");
        }
        let valid = ticks
            .iter()
            .filter(|tick| tick.unsigned_abs() <= GREATEST_EPOCH as u64);
        for tick in valid {
            let answer = Whole::from(i128::from(linear_step(from, to, *tick)));
            assert_eq!(answer, exact(step, *tick).nearest(), "{step:?} {tick}");
        }
    }
}

/// A tick of TDB whose TCB is past a half by as little as can be.
#[test]
fn a_known_near_tie_is_asked_and_goes_to_the_greater() {
    let (tdb, tcb) = (1_553_933_294_058_852_686, 1_553_933_318_152_961_466);
    let q = STEPS[3].1;
    let past_half = Fraction::new(Whole::from(q + 1), Whole::from(2 * q));
    let lesser = Fraction::whole(i128::from(tcb) - 1);
    assert_eq!(exact(TDB_TO_TCB, tdb), &lesser + &past_half);
    assert!(by_distance(TDB_TO_TCB)[&1].contains(&tdb));
    for (tdb, tick) in [(tdb - 1, tcb - 2), (tdb, tcb), (tdb + 1, tcb + 1)] {
        let answer = convert(5, 6, Reading::Ticks(tdb), &[], &blocks::judge(&[]));
        assert_eq!(answer, Ok(Converted { tick, steps: 1 }), "{tdb}");
    }
}
