//! What the comparison of comparing two tables meets: every number, of either
//! table, lists of every length and rooms of every kind.

mod planted;

use planted::planted;
use second::changes::{Entry, changes};
use second::compare::{Asked, COMPARISONS, Called, Lent, Own, Reply, Size, Stage};
use second::table::Table;
use std::collections::{BTreeMap, BTreeSet};

/// Runs the comparison, and shows each call and its number with `which`.
fn each_call(mut show: impl FnMut(&Lent, (u32, u32))) {
    let size = Size {
        tables: 64,
        conversions: 1,
        splits: 1,
    };
    let name = "colliedash_compare_tables";
    let comparison = COMPARISONS.iter().find(|c| c.name == name);
    let mut desk = planted(
        |_: Asked, lent: &Lent, called: &mut Called| match called.reply {
            Reply::Changes(changes) => show(lent, (changes.number, changes.which)),
            other => panic!("{other:?}"),
        },
    );
    let ledger = comparison
        .expect("a comparison")
        .run(&mut desk, &Stage::new(9, size));
    assert_eq!(ledger.different, 0);
    assert!(ledger.cases > 4_000, "{}", ledger.cases);
}

/// The same for the calls on two accepted tables with equal S, H and G.
fn each_list(mut show: impl FnMut([&Table; 2], &Lent, Vec<Entry>)) {
    let mut own = Own::default();
    each_call(|lent, (number, _)| {
        if let [Ok(first), Ok(second)] = own.both_judged(lent)
            && [0, 8].contains(&number)
        {
            show([first, second], lent, changes(first, second));
        }
    });
}

/// Every refusal, of either table where it is a table's own, with room in the
/// buffer and without.
#[test]
fn every_number_is_met_of_either_table() {
    let mut met = BTreeMap::new();
    each_call(|lent, number_and_which| {
        let case = (number_and_which, lent.buffer.is_empty());
        *met.entry(case).or_insert(0) += 1;
    });
    let mut expected = vec![(0, 0), (8, 0), (20, 0)];
    expected.extend((10..=16).flat_map(|number| [(number, 0), (number, 1)]));
    for case in expected {
        for no_room in [true, false] {
            let cases = met.remove(&(case, no_room)).unwrap_or(0);
            assert!(cases > 10, "{case:?}, no room {no_room}: {cases}");
        }
    }
    assert!(met.is_empty(), "{met:?}");
}

/// Each number of the first table meets each of the second.
#[test]
fn two_refused_tables_are_met() {
    let (mut met, mut own) = (BTreeSet::new(), Own::default());
    each_call(|lent, _| {
        if let [Err(first), Err(second)] = own.both_judged(lent) {
            met.insert((first.number, second.number));
        }
    });
    assert!(met.len() > 35, "{met:?}");
    let many = |wanted: fn(u32, u32) -> bool| met.iter().filter(|m| wanted(m.0, m.1)).count();
    assert!(many(|first, second| first < second) > 10);
    assert!(many(|first, second| first > second) > 10);
    assert!(many(|first, second| first == second) > 3);
}

/// How many entries there are (2 stands for some), the numbers of room beyond
/// these, and how the degrees compare.
#[test]
fn lists_of_every_length_meet_every_room() {
    let (mut rooms, mut degrees) = (BTreeSet::new(), BTreeSet::new());
    each_list(|[first, second], lent, list| {
        let entries = list.len() as i64;
        let left = lent.buffer.len() as i64 / 8 - 3 * entries;
        let many = if entries == 360 { 360 } else { entries.min(2) };
        rooms.insert((many, left.clamp(-4, 5)));
        degrees.insert((many, first.degree.cmp(&second.degree)));
    });
    let expected = |many: i64| {
        let least = if many > 1 { -4 } else { -3 * many };
        (least..=5).map(move |left| (many, left))
    };
    let expected: BTreeSet<(i64, i64)> = [0, 1, 2, 360].into_iter().flat_map(expected).collect();
    assert_eq!(rooms, expected);
    assert_eq!(degrees.len(), 12, "{degrees:?}");
}

/// The largest differences that there are, the smallest, and all between.
#[test]
fn differences_of_every_size_are_met() {
    let mut met = BTreeSet::new();
    each_list(|_, _, list| met.extend(list.iter().map(|entry| (entry.largest, entry.sum))));
    let (large, larger) = (1 << 41, 1 << 42);
    for entry in [(1, 1), (1, 2), (2, 2), (large, large), (large, larger)] {
        assert!(met.contains(&entry), "{entry:?}");
    }
    let bits: BTreeSet<u32> = met.iter().map(|(largest, _)| largest.ilog2()).collect();
    assert_eq!(bits.len(), 42, "{bits:?}");
}

/// Each coefficient differs by itself, either way; many also where one of the
/// tables lacks it.
#[test]
fn each_coefficient_differs_by_itself() {
    let (mut in_both, mut missing) = (BTreeSet::new(), BTreeSet::new());
    each_list(|[first, second], _, list| {
        for entry in list.iter().filter(|entry| entry.largest == entry.sum) {
            let granules = [first, second].map(|t| t.granule_coefficients(entry.granule as usize));
            let c = |table: usize, k: usize| granules[table].get(k).copied().unwrap_or(0);
            let k = (0..16).find(|k| c(0, *k) != c(1, *k)).expect("one differs");
            let met = match k < granules[0].len().min(granules[1].len()) {
                true => &mut in_both,
                false => &mut missing,
            };
            met.insert((k, c(0, k) < c(1, k)));
        }
    });
    assert_eq!(in_both.len(), 32, "{in_both:?}");
    // c_0 is never missing.
    assert!(missing.len() > 25, "{missing:?}");
}

/// No bytes on either side and on both, no room, as null and not.
#[test]
fn no_bytes_are_met_as_null_and_not() {
    let mut met = BTreeSet::new();
    each_call(|lent, _| {
        let tables = [lent.table, lent.second_table].map(<[u8]>::is_empty);
        met.insert((tables, lent.buffer.is_empty(), lent.null));
    });
    assert_eq!(met.len(), 16, "{met:?}");
}
