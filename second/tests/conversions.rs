//! Conversions and batches: paths, steps, every refusal with its place and
//! index, and their order.

use second::blocks;
use second::dates::Reading;
use second::desk::{Batch, BatchRefusal, Converted, batch, convert};
use second::exact::{Fraction, Whole};
use second::generate::{Random, edge_ticks, random_tick};
use second::refusal::Refusal;
use second::scales::{GREATEST_EPOCH, Scale, linear_step};
use second::table::{Judged, Table};

fn no_table() -> Judged {
    blocks::judge(&[])
}

/// D is 0 in all of it: from -10^18 to -10^18 + 360·2^50, about -6·10^17.
fn wide_flat_table() -> Judged {
    flat_table(-1_000_000_000_000_000_000, 1 << 50, 360, 0)
}

fn flat_table(start: i64, length: i64, count: u32, c_0: i64) -> Judged {
    let coefficients = vec![c_0; count as usize];
    let table = Table {
        start,
        length,
        count,
        degree: 0,
        coefficients,
    };
    blocks::judge(&blocks::image(&table))
}

fn ticks(from: u32, to: u32, tick: i64, table: &Judged) -> Result<Converted, Refusal> {
    convert(from, to, Reading::Ticks(tick), &[], table)
}

fn refused<T>(number: u32, place: u64) -> Result<T, Refusal> {
    Err(Refusal::new(number, place))
}

/// The steps of every path, counted by hand on the line with its branch.
const STEPS: [[u32; 7]; 7] = [
    [0, 2, 1, 0, 1, 1, 2],
    [2, 0, 1, 2, 3, 3, 4],
    [1, 1, 0, 1, 2, 2, 3],
    [0, 2, 1, 0, 1, 1, 2],
    [1, 3, 2, 1, 0, 2, 3],
    [1, 3, 2, 1, 2, 0, 1],
    [2, 4, 3, 2, 3, 1, 0],
];

#[test]
fn every_path_has_its_steps() {
    let tick = -900_000_000_000_000_000;
    for from in 0..7 {
        for to in 0..7 {
            let answer = ticks(from, to, tick, &wide_flat_table()).unwrap();
            assert_eq!(
                answer.steps, STEPS[from as usize][to as usize],
                "{from} to {to}"
            );
            // A path that doesn't cross never looks at the table.
            let crosses = (from < 5) != (to < 5);
            let without = ticks(from, to, tick, &no_table());
            let expected = if crosses { refused(10, 0) } else { Ok(answer) };
            assert_eq!(without, expected, "{from} to {to}");
        }
    }
}

#[test]
fn code_0_is_tt_on_both_sides() {
    let mut random = Random::new(50);
    let table = wide_flat_table();
    for _ in 0..500 {
        let tick = random_tick(&mut random);
        for other in 0..7 {
            assert_eq!(ticks(0, other, tick, &table), ticks(3, other, tick, &table));
            assert_eq!(ticks(other, 0, tick, &table), ticks(other, 3, tick, &table));
        }
    }
}

/// "rounds at every step": TCG to TCB rounds three times.
#[test]
fn a_path_is_its_steps_one_after_another() {
    let table = wide_flat_table();
    let mut random = Random::new(51);
    for _ in 0..500 {
        let tcg = random.between(-999_000_000_000_000_000, -600_000_000_000_000_000);
        let tt = linear_step(Scale::Tcg, Scale::Tt, tcg);
        let tcb = linear_step(Scale::Tdb, Scale::Tcb, tt);
        let expected = Converted {
            tick: tcb,
            steps: 3,
        };
        assert_eq!(ticks(4, 6, tcg, &table), Ok(expected));
    }
}

/// Each linear step against the exact fraction in whole numbers of any size.
#[test]
fn linear_steps_are_the_nearest_ticks_to_the_exact_fractions() {
    let ten = |power| Whole::from(10).power(power);
    let g = Fraction::new(&ten(19) - &Whole::from(6_969_290_134), ten(19));
    let b = Fraction::new(&ten(17) - &Whole::from(1_550_519_768), ten(17));
    let inverse = |f: &Fraction| Fraction::new(f.denominator.clone(), f.numerator.clone());
    let offset = Fraction::whole(65_500);
    let mut random = Random::new(52);
    let mut list = edge_ticks();
    list.extend((0..3_000).map(|_| random_tick(&mut random)));
    list.retain(|tick| tick.unsigned_abs() <= GREATEST_EPOCH as u64);
    for tick in list {
        let x = Fraction::whole(i128::from(tick));
        let cases = [
            (Scale::Tcg, Scale::Tt, &x * &g),
            (Scale::Tt, Scale::Tcg, &x * &inverse(&g)),
            (Scale::Tcb, Scale::Tdb, &(&x * &b) - &offset),
            (Scale::Tdb, Scale::Tcb, &(&x + &offset) * &inverse(&b)),
        ];
        for (from, to, exact) in cases {
            let step = Whole::from(i128::from(linear_step(from, to, tick)));
            assert_eq!(step, exact.nearest(), "{from:?} to {to:?} of {tick}");
        }
    }
}

#[test]
fn refusal_1_from_then_to_before_all_else() {
    let table = no_table();
    for bad in [7, 8, 255, 256, 259, u32::MAX] {
        assert_eq!(ticks(bad, 3, i64::MAX, &table), refused(1, 0));
        assert_eq!(ticks(3, bad, i64::MAX, &table), refused(1, 1));
        assert_eq!(ticks(bad, bad, i64::MAX, &table), refused(1, 0));
        let nan = Reading::TwoPart(f64::NAN, f64::NAN);
        assert_eq!(convert(5, bad, nan, &[], &table), refused(1, 1));
    }
    assert!(ticks(6, 6, 0, &table).is_ok());
}

#[test]
fn the_table_is_told_before_the_reading() {
    let broken = Err(Refusal::new(14, 77));
    for reading in [
        Reading::Ticks(i64::MAX),
        Reading::TwoPart(f64::NAN, 0.0),
        Reading::TwoPart(9e9, 0.0),
        Reading::SinceJ2000(f64::INFINITY),
    ] {
        for (from, to) in [(3, 5), (5, 3), (1, 6), (6, 1), (4, 5), (0, 6)] {
            assert_eq!(convert(from, to, reading, &[], &broken), refused(14, 77));
        }
    }
    assert_eq!(
        convert(5, 6, Reading::Ticks(i64::MAX), &[], &broken),
        refused(4, 0)
    );
    assert_eq!(
        convert(1, 4, Reading::TwoPart(0.0, f64::NAN), &[], &broken),
        refused(2, 1)
    );
}

#[test]
fn refusal_4_at_the_start_even_without_a_step() {
    for code in 0..7 {
        for end in [GREATEST_EPOCH, -GREATEST_EPOCH] {
            let kept = Converted {
                tick: end,
                steps: 0,
            };
            assert_eq!(ticks(code, code, end, &no_table()), Ok(kept));
            assert_eq!(
                ticks(code, code, end + end.signum(), &no_table()),
                refused(4, 0)
            );
        }
    }
}

/// The step that led outside is counted; one tick less passes.
#[test]
fn refusal_4_after_each_step() {
    let none = no_table();
    let end = GREATEST_EPOCH;
    let gps = 19_000_000_000;
    let tai = 32_184_000_000;
    assert_eq!(ticks(1, 2, end - gps, &none).unwrap().tick, end);
    assert_eq!(ticks(1, 2, end - gps + 1, &none), refused(4, 1));
    assert_eq!(ticks(1, 3, end - gps - tai, &none).unwrap().tick, end);
    assert_eq!(ticks(1, 3, end - gps - tai + 1, &none), refused(4, 2));
    assert_eq!(ticks(1, 3, end - gps + 1, &none), refused(4, 1));
    assert_eq!(ticks(3, 2, -end + tai, &none).unwrap().tick, -end);
    assert_eq!(ticks(3, 2, -end + tai - 1, &none), refused(4, 1));
    assert_eq!(ticks(3, 1, -end + tai + gps - 1, &none), refused(4, 2));
    // TT's last tick is beyond the range as TCG; so after TAI it is step 2.
    let last = linear_step(Scale::Tcg, Scale::Tt, end);
    assert!(ticks(3, 4, last, &none).is_ok());
    assert_eq!(ticks(3, 4, last + 1, &none), refused(4, 1));
    assert_eq!(ticks(2, 4, last + 1 - tai, &none), refused(4, 2));
    assert_eq!(ticks(1, 4, last + 1 - tai - gps, &none), refused(4, 3));
    assert_eq!(ticks(6, 5, -end, &none).unwrap().steps, 1);
}

#[test]
fn refusal_4_of_the_table_step_and_after_it() {
    // D is 1, so that the table's first tick, -6·10^18, is TDB -6·10^18 - 1.
    let low = flat_table(-GREATEST_EPOCH, 1_000_000_000, 1, 65_536);
    assert_eq!(ticks(3, 5, -GREATEST_EPOCH, &low), refused(4, 1));
    assert_eq!(
        ticks(3, 5, -GREATEST_EPOCH + 1, &low).unwrap().tick,
        -GREATEST_EPOCH
    );
    assert_eq!(
        ticks(5, 3, -GREATEST_EPOCH, &low).unwrap().tick,
        -GREATEST_EPOCH + 1
    );
    // TCB runs past the end where TDB does not.
    let high = flat_table(GREATEST_EPOCH - 1_000_000_000, 1_000_000_000, 1, 0);
    assert_eq!(
        ticks(3, 5, GREATEST_EPOCH, &high).unwrap().tick,
        GREATEST_EPOCH
    );
    assert_eq!(ticks(3, 6, GREATEST_EPOCH, &high), refused(4, 2));
    let tai = GREATEST_EPOCH - 32_184_000_000;
    assert_eq!(ticks(2, 6, tai, &high), refused(4, 3));
    assert_eq!(ticks(1, 6, tai - 19_000_000_000, &high), refused(4, 4));
}

#[test]
fn refusal_6_tells_the_steps_done() {
    let table = flat_table(0, 1_000_000_000, 1, 0);
    for (from, to, place) in [
        (3, 5, 0),
        (0, 6, 0),
        (4, 5, 1),
        (2, 5, 1),
        (1, 5, 2),
        (1, 6, 2),
        (5, 3, 0),
        (5, 1, 0),
        (6, 3, 1),
        (6, 4, 1),
    ] {
        let far = 2_000_000_000_000;
        assert_eq!(
            ticks(from, to, far, &table),
            refused(6, place),
            "{from} to {to}"
        );
        assert_eq!(
            ticks(from, to, -far, &table),
            refused(6, place),
            "{from} to {to}"
        );
    }
    for (from, to) in [(3, 5), (5, 3)] {
        for (tick, inside) in [
            (-1, false),
            (0, true),
            (1_000_000_000, true),
            (1_000_000_001, false),
        ] {
            assert_eq!(ticks(from, to, tick, &table).is_ok(), inside);
        }
    }
}

/// The start's 4 comes before any 6; a 4 after step one before a 6 of step two.
#[test]
fn order_of_4_and_6() {
    let table = flat_table(0, 1_000_000_000, 1, 0);
    assert_eq!(ticks(3, 5, GREATEST_EPOCH + 1, &table), refused(4, 0));
    assert_eq!(ticks(3, 5, GREATEST_EPOCH, &table), refused(6, 0));
    assert_eq!(ticks(2, 5, GREATEST_EPOCH, &table), refused(4, 1));
    assert_eq!(ticks(1, 5, GREATEST_EPOCH, &table), refused(4, 1));
    assert_eq!(
        ticks(1, 5, GREATEST_EPOCH - 19_000_000_000, &table),
        refused(4, 2)
    );
}

fn batch_refused(number: u32, place: u64, index: u64) -> Result<Batch, BatchRefusal> {
    let refusal = Refusal::new(number, place);
    Err(BatchRefusal { refusal, index })
}

#[test]
fn a_batch_is_its_conversions() {
    let table = wide_flat_table();
    let list = [
        -900_000_000_000_000_000,
        -700_000_000_000_000_000,
        -800_000_000_000_000_001,
    ];
    for from in 0..7 {
        for to in 0..7 {
            let answer = batch(from, to, &list, 3, &table).unwrap();
            let single = |tick: &i64| ticks(from, to, *tick, &table).unwrap();
            assert_eq!(
                answer.ticks,
                list.iter().map(|t| single(t).tick).collect::<Vec<_>>()
            );
            assert_eq!(answer.steps, single(&list[0]).steps);
        }
    }
}

#[test]
fn the_earliest_refusal_is_the_batchs_with_its_index() {
    let table = flat_table(0, 1_000_000_000, 1, 0);
    let bad = i64::MAX;
    assert_eq!(
        batch(3, 5, &[1, 2, -1, bad], 4, &table),
        batch_refused(6, 0, 2)
    );
    assert_eq!(
        batch(3, 5, &[1, bad, -1], 3, &table),
        batch_refused(4, 0, 1)
    );
    assert_eq!(
        batch(2, 5, &[-32_184_000_000, 1], 2, &table),
        batch_refused(6, 1, 1)
    );
    assert_eq!(
        batch(1, 2, &[0, GREATEST_EPOCH], 2, &table),
        batch_refused(4, 1, 1)
    );
    assert_eq!(batch(3, 3, &[bad], 1, &table), batch_refused(4, 0, 0));
}

#[test]
fn a_batch_checks_1_then_8_then_the_table() {
    let none = no_table();
    let list = [i64::MAX, 5];
    assert_eq!(batch(9, 9, &list, 1, &none), batch_refused(1, 0, 0));
    assert_eq!(batch(3, 9, &list, 1, &none), batch_refused(1, 1, 0));
    for length in [0, 1, 3] {
        assert_eq!(batch(3, 5, &list, length, &none), batch_refused(8, 0, 0));
        assert_eq!(batch(3, 3, &list, length, &none), batch_refused(8, 0, 0));
    }
    assert_eq!(batch(3, 5, &list, 2, &none), batch_refused(10, 0, 0));
    let broken = Err(Refusal::new(16, 5));
    assert_eq!(batch(6, 1, &list, 2, &broken), batch_refused(16, 5, 0));
    assert_eq!(batch(6, 5, &[5], 1, &broken).unwrap().steps, 1);
}

#[test]
fn an_empty_batch_still_gets_checks_1_8_and_the_table() {
    let none = no_table();
    assert_eq!(batch(7, 0, &[], 0, &none), batch_refused(1, 0, 0));
    assert_eq!(batch(1, 2, &[], 1, &none), batch_refused(8, 0, 0));
    assert_eq!(batch(1, 5, &[], 0, &none), batch_refused(10, 0, 0));
    for (from, to) in [(1, 6), (6, 1), (4, 1), (3, 0)] {
        let answer = batch(from, to, &[], 0, &wide_flat_table()).unwrap();
        assert!(answer.ticks.is_empty());
        assert_eq!(answer.steps, STEPS[from as usize][to as usize]);
    }
}
