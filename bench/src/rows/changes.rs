//! Comparing two tables.

use super::{ROUNDS, print_row};
use crate::ours;
use crate::plain::changes::compare as compare_plain;
use crate::plain::judge::judge;
use std::hint::black_box;

/// Comparisons at a time.
const MANY: usize = 100;

/// The table, with its numbers or its granules altered.
fn altered(bytes: &[u8], alter: impl FnOnce(&mut ours::Table, &mut [Vec<i64>])) -> Vec<u8> {
    let mut table = ours::judge(bytes);
    let coefficients = judge(bytes).expect("an accepted table").coefficients;
    let width = table.degree as usize + 1;
    let mut granules: Vec<Vec<i64>> = coefficients.chunks(width).map(<[i64]>::to_vec).collect();
    alter(&mut table, &mut granules);
    ours::write_table(table, &granules.concat())
}

/// Both sides tell the same of the two tables, and leave the same in a list of so many numbers.
fn compare(first: &[u8], second: &[u8], room: usize) -> ours::Changes {
    let mut lists = [(); 2].map(|_| vec![-1; room]);
    let [a, b] = &mut lists;
    let ours = ours::compare_tables(first, second, a);
    let rust = match compare_plain(first, second, b) {
        Ok(entries) => (0, 0, 0, entries as u64),
        Err((refusal, which)) => (refusal.number, which, refusal.place, 0),
    };
    let told = (ours.number, ours.which, ours.place, ours.entries);
    assert_eq!(told, rust);
    assert_eq!(lists[0], lists[1]);
    let rest = &lists[0][3 * ours.entries as usize..];
    assert!(rest.iter().all(|number| *number == -1));
    ours
}

/// As they are, and one of them of a higher degree; with a list that is just long enough, or not;
/// and where there are no two tables to compare.
fn compare_all(first: &[u8], second: &[u8], room: usize, entries: u64) {
    let wider = altered(first, |table, granules| {
        table.degree += 1;
        granules.iter_mut().for_each(|granule| granule.push(0));
        granules[182][12] = -5;
    });
    for (first, second) in [(first, second), (second, first), (second, &wider)] {
        assert_eq!(compare(first, second, room).entries, entries);
    }
    assert_eq!(compare(first, &wider, room).entries, 1);
    assert_eq!(compare(&wider, first, room).entries, 1);
    assert_eq!(compare(first, first, 0).entries, 0);

    let needed = 3 * entries as usize;
    assert_eq!(compare(first, second, needed).number, 0);
    assert_eq!(compare(first, second, needed - 1).number, 8);

    let later = altered(first, |table, _| table.start += 1);
    assert_eq!(compare(&later, second, room).number, 20);
    let mut spoilt = second.to_vec();
    spoilt[5 * 512] ^= 1;
    for (first, which) in [(&spoilt[..], 0), (first, 1)] {
        let refused = compare(first, &spoilt, room);
        assert_eq!(
            (refused.number, refused.which, refused.place),
            (11, which, 5)
        );
    }
}

fn row(differing: &str, first: &[u8], second: &[u8], entries: usize) {
    let room = 3 * ours::judge(first).count as usize;
    compare_all(first, second, room, entries as u64);
    let mut lists = [(); 2].map(|_| vec![0; room]);
    let [a, b] = &mut lists;
    print_row(
        &format!("comparing two tables, {differing}"),
        MANY,
        ROUNDS,
        vec![
            Box::new(|| {
                for _ in 0..MANY {
                    let answer = ours::compare_tables(black_box(first), black_box(second), a);
                    assert_eq!(answer.number, 0);
                }
            }),
            Box::new(|| {
                for _ in 0..MANY {
                    assert!(compare_plain(black_box(first), black_box(second), b).is_ok());
                }
            }),
        ],
    );
}

pub fn rows(bytes: &[u8]) {
    let few = altered(bytes, |_, granules| {
        granules[0][0] += 300;
        granules[91][2] -= 200;
        granules[91][3] += 300;
        granules[182][11] += 500;
    });
    row("3 granules differ", bytes, &few, 3);
    let all = altered(bytes, |_, granules| {
        granules.iter_mut().for_each(|granule| granule[0] += 7);
    });
    row("all 183 differ", bytes, &all, 183);
}
