//! What changed between two tables, held to the exact sums: the sum of an entry
//! bounds their gap, and a granule has no entry exactly when it has no gap.

use second::changes::{Entry, changes};
use second::exact::{Fraction, Whole};
use second::generate::{Random, accepted_tables, extended, fresh_tables, widest_tables};
use second::table::Table;

/// Generated tables, each with a fresh one, in either order.
fn pairs(seed: u64, many: usize) -> Vec<[Table; 2]> {
    let mut random = Random::new(seed);
    let mut tables = accepted_tables(&mut random, many);
    tables.extend(widest_tables());
    let mut pairs = Vec::new();
    for table in tables {
        for fresh in fresh_tables(&mut random, &table) {
            let mut pair = [table.clone(), fresh];
            if random.one_in(2) {
                pair.reverse();
            }
            pairs.push(pair);
        }
    }
    pairs
}

/// A few of a table's granules, the first and the last among them.
fn some_granules(random: &mut Random, table: &Table) -> Vec<usize> {
    let count = table.count as usize;
    let mut granules = vec![0, random.index(count), count - 1];
    granules.sort();
    granules.dedup();
    granules
}

/// A granule's two ends and 14 ticks between them. Where two sums of degree 15 at
/// most agree at 16 ticks, they agree at every one.
fn sixteen_ticks(random: &mut Random, table: &Table, g: usize) -> Vec<i64> {
    let granule = table.granule(g);
    let part = granule.length / 15;
    let inside = (0..14).map(|i| i * part + random.between(1, part));
    let past: Vec<i64> = [0].into_iter().chain(inside).collect();
    let ticks = past.iter().map(|past| granule.start + past);
    ticks.chain([granule.start + granule.length]).collect()
}

/// How far the exact sums of both are apart at a tick of the granule.
fn gap([first, second]: &[Table; 2], g: usize, tick: i64) -> Fraction {
    let sum = |table: &Table| table.granule(g).exact_sum(tick);
    (&sum(first) - &sum(second)).magnitude()
}

fn whole(number: i64) -> Whole {
    Whole::from(i128::from(number))
}

/// Not above, with the denominators multiplied out.
fn is_bounded(gap: &Fraction, sum: i64) -> bool {
    gap.numerator <= &whole(sum) * &gap.denominator
}

fn entry_of(list: &[Entry], g: usize) -> Option<&Entry> {
    list.iter().find(|entry| entry.granule == g as i64)
}

/// "That sum bounds the gap of the exact sums everywhere in the granule", also
/// where one degree is higher; and the bound is met.
#[test]
fn the_sum_bounds_the_gap_of_the_exact_sums() {
    let mut random = Random::new(90);
    let (mut tested, mut met, mut unequal) = (0, 0, 0);
    for pair in pairs(91, 48) {
        let list = changes(&pair[0], &pair[1]);
        for g in some_granules(&mut random, &pair[0]) {
            let Some(Entry { sum, .. }) = entry_of(&list, g) else {
                continue;
            };
            let ticks = sixteen_ticks(&mut random, &pair[0], g);
            for tick in [ticks[0], random.pick(&ticks), ticks[15]] {
                let gap = gap(&pair, g, tick);
                assert!(is_bounded(&gap, *sum), "{pair:?} granule {g} tick {tick}");
                tested += 1;
                met += usize::from(!is_bounded(&gap, *sum - 1));
                unequal += usize::from(pair[0].degree != pair[1].degree);
            }
        }
    }
    assert!(tested > 3_000 && unequal > 1_000, "{tested} {unequal}");
    assert!(met > 500, "{met}");
}

/// "Two tables give an empty list exactly when all granules mean the same":
/// equal coefficients, zeros filled in, and equal exact sums are one thing.
#[test]
fn a_granule_has_no_entry_exactly_when_the_exact_sums_are_equal() {
    let mut random = Random::new(92);
    let (mut equal, mut apart) = (0, 0);
    for pair in pairs(93, 16) {
        let list = changes(&pair[0], &pair[1]);
        for g in some_granules(&mut random, &pair[0]) {
            let ticks = sixteen_ticks(&mut random, &pair[0], g);
            assert!(ticks.windows(2).all(|two| two[0] < two[1]));
            let zero = Fraction::whole(0);
            let no_gap = ticks.iter().all(|tick| gap(&pair, g, *tick) == zero);
            assert_eq!(entry_of(&list, g).is_none(), no_gap, "{pair:?} granule {g}");
            equal += usize::from(no_gap);
            apart += usize::from(!no_gap);
        }
    }
    assert!(equal > 200 && apart > 200, "{equal} {apart}");
}

/// Every entry in another way: over both tables with all sixteen coefficients,
/// in whole numbers of any size.
#[test]
fn the_list_is_that_of_coefficients_with_zeros_filled_in() {
    let (mut empty, mut longest) = (0, 0);
    for pair in pairs(94, 160) {
        let full = [&pair[0], &pair[1]].map(|table| extended(table, 15).coefficients);
        let differences: Vec<Whole> = (0..full[0].len())
            .map(|i| &whole(full[0][i]) - &whole(full[1][i]))
            .map(|difference| difference.magnitude())
            .collect();
        let mut expected = Vec::new();
        for (g, of_granule) in differences.chunks_exact(16).enumerate() {
            let sum = of_granule.iter().fold(whole(0), |sum, one| &sum + one);
            let largest = of_granule.iter().max().expect("sixteen").clone();
            if !sum.is_zero() {
                expected.push([whole(g as i64), largest, sum]);
            }
        }
        let list = changes(&pair[0], &pair[1]);
        let wholes = |entry: &Entry| entry.numbers().map(whole);
        assert_eq!(list.iter().map(wholes).collect::<Vec<_>>(), expected);
        assert_eq!(list.is_empty(), full[0] == full[1]);
        assert_eq!(changes(&pair[1], &pair[0]), list, "the other way round");
        empty += usize::from(list.is_empty());
        longest = longest.max(list.len());
    }
    assert!(empty > 200, "{empty}");
    assert_eq!(longest, 360);
}
