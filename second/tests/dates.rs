//! Dates: readings by exact value, written dates, refusals 2, 3 and 4.

mod exact_value;

use exact_value::exact_value;
use second::dates::{DAY, J2000, ORIGIN, Reading, SECOND, nearest_tick, write_date};
use second::exact::{Fraction, Whole};
use second::generate::{
    Random, date_pairs, edge_days, edge_seconds, edge_ticks, random_tick, seconds_past_j2000,
};
use second::refusal::Refusal;
use second::scales::{GREATEST_EPOCH, is_valid_epoch};

fn exact_ticks(value: f64, unit: i128) -> Whole {
    (&exact_value(value) * &Fraction::whole(unit)).nearest()
}

fn refused(number: u32, place: u64) -> Result<i64, Refusal> {
    Err(Refusal::new(number, place))
}

#[test]
fn every_double_stands_for_its_exact_value() {
    let mut random = Random::new(40);
    let mut days = edge_days(&mut random);
    days.extend((0..2_000).map(|_| f64::from_bits(random.bits())));
    days.extend((0..2_000).map(|_| random.between(-5_000_000, 5_000_000) as f64 / 3.0));
    days.retain(|days| days.is_finite() && days.abs() <= 5e6);
    assert!(days.len() > 2_000);
    for day in days {
        let ticks = Whole::from(nearest_tick(&[day], DAY));
        assert_eq!(ticks, exact_ticks(day, DAY), "{day:e} days");
    }
    let mut seconds = edge_seconds(&mut random);
    seconds.extend((0..2_000).map(|_| f64::from_bits(random.bits())));
    seconds.retain(|seconds| seconds.is_finite() && seconds.abs() <= 1e10);
    assert!(seconds.len() > 200);
    for second in seconds {
        let ticks = Whole::from(nearest_tick(&[second], SECOND));
        assert_eq!(ticks, exact_ticks(second, SECOND), "{second:e} s");
    }
}

#[test]
fn exact_halves_go_to_the_greater() {
    // 2^-17 day is 659179687.5 ticks, and 2^-10 second is 976562.5 ticks.
    let day = 2f64.powi(-17);
    assert_eq!(nearest_tick(&[day], DAY), 659_179_688);
    assert_eq!(nearest_tick(&[-day], DAY), -659_179_687);
    assert_eq!(nearest_tick(&[day.next_down()], DAY), 659_179_687);
    assert_eq!(nearest_tick(&[-day.next_up()], DAY), -659_179_688);
    let second = 2f64.powi(-10);
    assert_eq!(nearest_tick(&[second], SECOND), 976_563);
    assert_eq!(nearest_tick(&[-second], SECOND), -976_562);
}

#[test]
fn the_origin_and_j2000() {
    assert_eq!(J2000 - ORIGIN, 725_803_167_816_000_000);
    assert_eq!(
        Reading::SinceJ2000(0.0).epoch(None),
        Ok(725_803_167_816_000_000)
    );
    assert_eq!(
        Reading::SinceJ2000(-0.0).epoch(None),
        Ok(725_803_167_816_000_000)
    );
    assert_eq!(
        Reading::SinceJ2000(1.5).epoch(None),
        Ok(725_803_169_316_000_000)
    );
    assert_eq!(
        Reading::SinceJ2000(-725_803_167.816)
            .epoch(None)
            .map(|t| t.abs() < 100),
        Ok(true)
    );
    assert_eq!(
        Reading::TwoPart(0.0, 2_443_144.5).epoch(None),
        Ok(-32_184_000_000)
    );
    assert_eq!(
        Reading::TwoPart(-0.0, 2_443_144.5).epoch(None),
        Ok(-32_184_000_000)
    );
}

#[test]
fn refusal_2_over_both_parts_comes_before_3() {
    let beyond = 6e6;
    for strange in [f64::NAN, -f64::NAN, f64::INFINITY, f64::NEG_INFINITY] {
        assert_eq!(Reading::TwoPart(strange, 0.0).epoch(None), refused(2, 0));
        assert_eq!(
            Reading::TwoPart(strange, strange).epoch(None),
            refused(2, 0)
        );
        assert_eq!(Reading::TwoPart(strange, beyond).epoch(None), refused(2, 0));
        assert_eq!(Reading::TwoPart(beyond, strange).epoch(None), refused(2, 1));
        assert_eq!(Reading::SinceJ2000(strange).epoch(None), refused(2, 0));
    }
    assert_eq!(Reading::TwoPart(beyond, -beyond).epoch(None), refused(3, 0));
    assert_eq!(Reading::TwoPart(0.0, f64::MAX).epoch(None), refused(3, 1));
    assert_eq!(Reading::TwoPart(f64::MIN, 0.0).epoch(None), refused(3, 0));
}

#[test]
fn refusal_3_with_its_neighbours() {
    let most = 5_000_000.0_f64;
    for part in [most, -most] {
        // At the limit the part passes, and the sum is what 4 judges.
        assert_eq!(Reading::TwoPart(part, 0.0).epoch(None), refused(4, 0));
        assert_eq!(Reading::TwoPart(part, -part).epoch(None), refused(4, 0));
        let over = if part > 0.0 {
            part.next_up()
        } else {
            part.next_down()
        };
        assert_eq!(Reading::TwoPart(over, 0.0).epoch(None), refused(3, 0));
        assert_eq!(Reading::TwoPart(0.0, over).epoch(None), refused(3, 1));
        assert_eq!(Reading::TwoPart(over, over).epoch(None), refused(3, 0));
    }
    let other = 2_443_144.5 - most;
    for reading in [Reading::TwoPart(most, other), Reading::TwoPart(other, most)] {
        assert_eq!(reading.epoch(None), Ok(-32_184_000_000));
    }
    for seconds in [1e10_f64, -1e10] {
        assert_eq!(Reading::SinceJ2000(seconds).epoch(None), refused(4, 0));
        let over = if seconds > 0.0 {
            seconds.next_up()
        } else {
            seconds.next_down()
        };
        assert_eq!(Reading::SinceJ2000(over).epoch(None), refused(3, 0));
    }
}

#[test]
fn refusal_4_with_its_neighbours() {
    for end in [GREATEST_EPOCH, -GREATEST_EPOCH] {
        let outward = end.signum();
        assert_eq!(Reading::Ticks(end).epoch(None), Ok(end));
        assert_eq!(Reading::Ticks(end + outward).epoch(None), refused(4, 0));
        assert_eq!(
            Reading::Ticks(outward * i64::MAX).epoch(None),
            refused(4, 0)
        );
        // One tick more in the second part, whose doubles are fine enough.
        let (first, second) = write_date(end).unwrap();
        assert_eq!(Reading::TwoPart(first, second).epoch(None), Ok(end));
        let tick = outward as f64 / DAY as f64;
        assert_eq!(
            Reading::TwoPart(first, second + tick).epoch(None),
            refused(4, 0)
        );
        assert_eq!(
            Reading::TwoPart(first, second - tick).epoch(None),
            Ok(end - outward)
        );
    }
    assert_eq!(Reading::Ticks(i64::MIN).epoch(None), refused(4, 0));
}

#[test]
fn the_seconds_of_the_range_end() {
    // 5274196832.184 s is 6·10^18 ticks; the double next to it is off by some
    // hundred ticks, so that one neighbour is inside and the other outside.
    let end = 5_274_196_832.184_f64;
    let inside = Reading::SinceJ2000(end.next_down()).epoch(None).unwrap();
    assert!((GREATEST_EPOCH - 2_000..=GREATEST_EPOCH).contains(&inside));
    assert_eq!(
        Reading::SinceJ2000(end.next_up()).epoch(None),
        refused(4, 0)
    );
}

#[test]
fn a_written_date_reads_back_as_the_same_tick() {
    let mut random = Random::new(41);
    let mut ticks = edge_ticks();
    ticks.extend((0..20_000).map(|_| random_tick(&mut random)));
    let mut written = 0;
    for tick in ticks {
        match write_date(tick) {
            Err(refusal) => {
                assert_eq!(refusal, Refusal::new(4, 0));
                assert!(!is_valid_epoch(i128::from(tick)));
            }
            Ok((first, second)) => {
                assert!(is_valid_epoch(i128::from(tick)));
                assert_eq!(first.fract(), 0.5);
                assert!((0.0..1.0).contains(&second));
                assert_eq!(Reading::TwoPart(first, second).epoch(None), Ok(tick));
                written += 1;
            }
        }
    }
    assert!(written > 10_000);
}

/// "the last Julian date ending in .5 not after it"
#[test]
fn written_dates_by_hand() {
    let midnight = -32_184_000_000;
    assert_eq!(write_date(midnight), Ok((2_443_144.5, 0.0)));
    let before = 86_399_999_999_999_f64 / 86_400_000_000_000_f64;
    assert_eq!(write_date(midnight - 1), Ok((2_443_143.5, before)));
    assert_eq!(
        write_date(midnight + 43_200_000_000_000),
        Ok((2_443_144.5, 0.5))
    );
    assert_eq!(
        write_date(0),
        Ok((2_443_144.5, 32_184_000_000_f64 / 86_400_000_000_000_f64))
    );
    let (_, zero) = write_date(midnight).unwrap();
    assert!(zero.is_sign_positive());
}

/// The generators bring every refusal of dates, and acceptance.
#[test]
fn generated_readings_meet_every_answer() {
    let mut random = Random::new(42);
    let ticks: Vec<i64> = (0..100).map(|_| random_tick(&mut random)).collect();
    let mut met = std::collections::BTreeSet::new();
    for (first, second) in date_pairs(&mut random, &ticks, 2_000) {
        let refusal = Reading::TwoPart(first, second).epoch(None).err();
        met.insert(refusal.map_or((0, 0), |r| (r.number, r.place)));
    }
    let expected = [(0, 0), (2, 0), (2, 1), (3, 0), (3, 1), (4, 0)];
    assert_eq!(met.into_iter().collect::<Vec<_>>(), expected);
    let mut met = std::collections::BTreeSet::new();
    for seconds in seconds_past_j2000(&mut random, &ticks, 1_000) {
        let refusal = Reading::SinceJ2000(seconds).epoch(None).err();
        met.insert(refusal.map_or((0, 0), |r| (r.number, r.place)));
    }
    assert_eq!(
        met.into_iter().collect::<Vec<_>>(),
        [(0, 0), (2, 0), (3, 0), (4, 0)]
    );
}
