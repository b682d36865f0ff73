//! The one step over the table by itself: the table's refusal first, then 4 of
//! the start, then 6, then 4.

use second::dates::Reading;
use second::desk::{Converted, convert};
use second::ephemeris::{tdb_from_tt, tt_from_tdb, tt_from_tdb_by_brute_force};
use second::generate::{Random, accepted_tables, tdb_ticks, tt_ticks};
use second::refusal::Refusal;
use second::scales::GREATEST_EPOCH;
use second::table::{Judged, Table};

fn forward(tick: i64, table: &Judged) -> Result<Converted, Refusal> {
    convert(3, 5, Reading::Ticks(tick), &[], table)
}

fn back(tick: i64, table: &Judged) -> Result<Converted, Refusal> {
    convert(5, 0, Reading::Ticks(tick), &[], table)
}

fn stepped(tick: i64) -> Result<Converted, Refusal> {
    Ok(Converted { tick, steps: 1 })
}

fn refused<T>(number: u32, place: u64) -> Result<T, Refusal> {
    Err(Refusal::new(number, place))
}

const SECOND: i64 = 1_000_000_000;

/// One granule of 10^9 ticks.
fn granule(start: i64, coefficients: &[i64]) -> Judged {
    Ok(Table {
        start,
        length: SECOND,
        count: 1,
        degree: coefficients.len() as u32 - 1,
        coefficients: coefficients.to_vec(),
    })
}

/// The table of P10 and P11.
fn known() -> Judged {
    granule(0, &[0, 65_536])
}

#[test]
fn outside_the_table_is_6_and_no_epoch_is_4() {
    let end = GREATEST_EPOCH;
    for tick in [-1, SECOND + 1, end, -end] {
        assert_eq!(forward(tick, &known()), refused(6, 0), "{tick}");
        assert_eq!(back(tick, &known()), refused(6, 0), "{tick}");
    }
    for tick in [end + 1, -end - 1, i64::MIN, i64::MAX] {
        assert_eq!(forward(tick, &known()), refused(4, 0), "{tick}");
        assert_eq!(back(tick, &known()), refused(4, 0), "{tick}");
    }
}

#[test]
fn the_table_is_told_first_whatever_the_tick() {
    for (number, place) in [(10, 0), (11, 3), (16, 7)] {
        let judged = refused(number, place);
        for tick in [0, i64::MIN, i64::MAX] {
            assert_eq!(forward(tick, &judged), refused(number, place));
            assert_eq!(back(tick, &judged), refused(number, place));
        }
    }
}

/// D is 3 or −3 throughout, at an end of the range.
#[test]
fn a_tdb_outside_the_range_is_4_both_ways() {
    let end = GREATEST_EPOCH;
    let first = granule(-end, &[3 * 65_536]);
    assert_eq!(forward(-end, &first), refused(4, 1));
    assert_eq!(forward(-end + 2, &first), refused(4, 1));
    assert_eq!(forward(-end + 3, &first), stepped(-end));
    assert_eq!(forward(-end - 1, &first), refused(4, 0));
    // The table would take it back, but it is no epoch.
    assert_eq!(tt_from_tdb(first.as_ref().unwrap(), -end - 3), Some(-end));
    assert_eq!(back(-end - 3, &first), refused(4, 0));
    assert_eq!(back(-end, &first), stepped(-end + 3));
    let last = granule(end - SECOND, &[-3 * 65_536]);
    assert_eq!(forward(end, &last), refused(4, 1));
    assert_eq!(forward(end - 3, &last), stepped(end));
    assert_eq!(forward(end + 1, &last), refused(4, 0));
    assert_eq!(tt_from_tdb(last.as_ref().unwrap(), end + 3), Some(end));
    assert_eq!(back(end + 3, &last), refused(4, 0));
    assert_eq!(back(end, &last), stepped(end - 3));
}

/// Against the definition, tick by tick, where the generators ask.
#[test]
fn back_is_the_earliest_tick_at_or_after_the_one_asked() {
    let mut random = Random::new(90);
    let (mut given, mut between, mut outside) = (0, 0, 0);
    let small = |table: &Table| table.coefficients.iter().all(|c| c.abs() < 1 << 24);
    let tables = accepted_tables(&mut random, 160);
    for table in tables.into_iter().filter(small) {
        let tt = tt_ticks(&mut random, &table);
        let asked = tdb_ticks(&table, &tt);
        let judged = Ok(table.clone());
        for asked in asked {
            let is_epoch = (-GREATEST_EPOCH..=GREATEST_EPOCH).contains(&asked);
            let earliest = tt_from_tdb_by_brute_force(&table, asked);
            match earliest.map(|tt| tdb_from_tt(&table, tt)) {
                None => outside += 1,
                Some(tdb) if tdb == Some(asked) => given += 1,
                Some(_) => between += 1,
            }
            let expected = match earliest {
                _ if !is_epoch => refused(4, 0),
                Some(tt) => stepped(tt),
                None => refused(6, 0),
            };
            assert_eq!(back(asked, &judged), expected, "{asked}");
        }
    }
    let met = [given, between, outside];
    assert!(given > 1_000 && between > 20 && outside > 50, "{met:?}");
}
